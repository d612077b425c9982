"""A page of `canary page` as a text: what it says, part by part, without its looks."""
import re
from html.parser import HTMLParser

VOID = {"meta"}
# What a page may not have: what runs, what is fetched, and what leads elsewhere. A link may lead to
# a place of the page itself.
FOREIGN_TAGS = {"script", "link", "img", "iframe", "object", "embed", "base", "form", "image",
                "use", "foreignobject", "video", "audio", "source"}
FOREIGN_ATTRIBUTES = {"src", "style", "action", "srcset", "background", "xlink:href"}


class Broken(Exception):
    """A page is not well formed, or has what it may not have."""


class Node:
    def __init__(self, tag, attributes):
        self.tag, self.attributes, self.inside = tag, dict(attributes), []

    @property
    def words(self):
        return (self.attributes.get("class") or "").split()

    def text(self):
        """All its text, without the texts that are shown only if one points at something."""
        return "".join(part if isinstance(part, str) else "" if part.tag == "title" else part.text()
                       for part in self.inside)

    def all(self, tag=None, word=None):
        """The elements in it, at any depth, with this tag and this class."""
        for part in self.inside:
            if isinstance(part, Node):
                if tag in (None, part.tag) and (word is None or word in part.words):
                    yield part
                yield from part.all(tag, word)

    def first(self, tag=None, word=None):
        return next(self.all(tag, word), None)


class Tree(HTMLParser):
    """Reads a page, and refuses one whose tags do not close in turn."""

    def __init__(self):
        super().__init__(convert_charrefs=True)
        self.root = Node("root", [])
        self.open = [self.root]

    def handle_starttag(self, tag, attributes):
        names = [name for name, _ in attributes]
        if len(names) != len(set(names)):
            raise Broken(f"an attribute twice in <{tag}>")
        if tag in FOREIGN_TAGS:
            raise Broken(f"an element <{tag}>")
        for name in names:
            if name in FOREIGN_ATTRIBUTES or name.startswith("on"):
                raise Broken(f"an attribute {name} of <{tag}>")
            if name == "href" and (tag != "a" or not dict(attributes)[name].startswith("#")):
                raise Broken(f"a link {dict(attributes)[name]} of <{tag}>")
        node = Node(tag, attributes)
        self.open[-1].inside.append(node)
        if tag not in VOID:
            self.open.append(node)

    def handle_endtag(self, tag):
        if self.open[-1].tag != tag:
            raise Broken(f"</{tag}> closes <{self.open[-1].tag}>")
        self.open.pop()

    def handle_startendtag(self, tag, attributes):
        raise Broken(f"<{tag}/>")

    def handle_comment(self, data):
        raise Broken("a comment")

    def handle_data(self, data):
        self.open[-1].inside.append(data)


def tree_of(page):
    reader = Tree()
    reader.feed(page)
    reader.close()
    if len(reader.open) != 1:
        raise Broken(f"<{reader.open[-1].tag}> does not close")
    look_at_links(reader.root)
    return reader.root


def look_at_links(root):
    """Each link leads to one element of the page."""
    places = [node.attributes["id"] for node in root.all() if "id" in node.attributes]
    if len(places) != len(set(places)):
        raise Broken("a place twice")
    for link in root.all("a"):
        if link.attributes["href"][1:] not in places:
            raise Broken(f"a link to {link.attributes['href']}, which is not there")


def marks(track):
    """The steps with what is marked of each."""
    for item in track.all("li"):
        marked = [word for word in item.words if word not in ("set", "pause", "analysis", "end")]
        current = " (current)" if "aria-current" in item.attributes else ""
        yield f"{item.text()}: {' '.join(marked)}{current}"


def points(drawing):
    """How many points of each phase a chart has."""
    counts = {}
    for phase in ("Successful", "Failed", "Inconclusive", "Error"):
        found = sum(1 for node in drawing.all(word=phase))
        if found:
            counts[phase] = found
    return ", ".join(f"{count} {phase}" for phase, count in counts.items()) or "none"


def drawing_of(chart):
    spot, drawing = chart.first("p", "spot"), chart.first("svg")
    if spot:
        yield f"      chart {spot.text()}"
    yield f"      words {drawing.attributes['aria-label']}"
    yield f"      points {points(drawing)}"
    if spot:
        yield f"      heights {heights(drawing)}"
    for line in drawing.all("line", "limit"):
        kind = "good" if "good" in line.words else "bad"
        yield f"      bound {kind} {line.first('title').inside[0]}"
    numbers = [label.text() for label in drawing.all("text", "end")][1:]
    if spot:
        yield f"      limits {' '.join(numbers) or 'none'}"


def heights(drawing):
    """The heights of the points that have a number, in order: 1 is the highest."""
    curve = drawing.first("path", "curve")
    steps = re.findall(r"\d+ (\d+)", curve.attributes["d"]) if curve else []
    ranks = sorted(set(steps), key=int)
    return " ".join(str(ranks.index(step) + 1) for step in steps) or "none"


def metric(figure):
    yield f"    metric {figure.first('figcaption').text()}"
    yield f"      last {figure.first('p', 'last').text()}"
    for chart in figure.all("div", "chart"):
        yield from drawing_of(chart)
    for paragraph in figure.first("div", "notes").all("p"):
        yield f"      says {paragraph.text()}"


def runs(block):
    for run in block.all("section", "run"):
        yield f"  {run.first('h3').text()}"
        for figure in run.all("figure"):
            yield from metric(figure)


def ended(details):
    if "open" in details.attributes:
        raise Broken("an attempt that ended is not folded")
    yield f"  ended {details.first('summary').text()}"
    yield from ("  " + line for line in runs(details))


def index(nav):
    for part in nav.inside:
        if part.tag == "p":
            yield f"index {part.text()}"
        for item in part.all("li"):
            yield f"  link {item.text()}"


def card(article):
    name, attempt = article.first("h2").text(), article.first("span", "attempt").text()
    badge = article.first("span", "badge").text()
    yield f"card {name} {badge} {attempt} {article.first('span', 'weight').text()}"
    for mark in marks(article.first("ol")):
        yield f"  step {mark}"
    waits = article.first("p", "waits")
    says = [code.text() for code in waits.all("code")]
    sentence = waits.inside[:]
    plain = "".join(part if isinstance(part, str) else "" for part in sentence).strip()
    yield f"  waits {plain}"
    for say in says:
        yield f"  say {say}"
    for late in article.all("p", "late"):
        yield f"  late {late.text()}"
    for spent in article.all("p", "unmeasured"):
        yield f"  unmeasured {spent.text()}"
    for block in article.inside:
        if "runs" in block.words:
            yield from runs(block)
        if "ended" in block.words:
            yield from ended(block)
    if older := article.first("p", "older"):
        yield f"  older {older.text()}"
    history = article.first("details", "history")
    yield f"  history {history.first('summary').text()}"
    rows = list(history.all("tr"))
    for row in rows if len(rows) < 20 else rows[:1]:
        yield f"    {' '.join(cell.text() for cell in row.all('td'))}"


def table_row(row):
    if "attempts" in row.words:
        for details in row.all("details", "ended"):
            yield from ended(details)
    elif row.first("td") or row.first("th"):
        yield f"row {' | '.join(cell.text() for cell in row.inside)}"


def outline(root):
    """What a page says, line by line, without the moment at which it was drawn."""
    yield f"title {root.first('title').inside[0]}"
    for item in root.first("ul", "chips").all("li"):
        yield f"chip {item.text()}"
    for node in root.first("main").inside:
        if isinstance(node, str):
            raise Broken(f"a text between the parts: {node!r}")
        if node.tag == "h2":
            yield f"part {node.text()}"
        elif node.tag == "article":
            yield from card(node)
        elif node.tag == "nav":
            yield from index(node)
        elif node.tag == "table":
            for row in node.all("tr"):
                yield from table_row(row)
        elif "none" in node.words:
            yield f"none {node.text()}"
