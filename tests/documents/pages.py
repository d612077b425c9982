"""A page in Markdown: its headings, links, code and tables."""
import re

FENCE = re.compile(r" {0,3}(```+|~~~+)")
# What stands in backquotes, within a paragraph.
SPAN = re.compile(r"(?<!`)(`+)(?!`)((?:(?!\n[ \t]*\n).)+?)(?<!`)\1(?!`)", re.DOTALL)
LINK = re.compile(r"\]\(\s*<?([^)\s>]+)>?(?:\s+\"[^\"]*\")?\s*\)"
                  r"|^ {0,3}\[[^\]\n]+\]:[ \t]*(\S+)", re.MULTILINE)
HEADING = re.compile(r" {0,3}#{1,6}\s+(.*?)[ \t]*#*[ \t]*$", re.MULTILINE)
NAMED = re.compile(r"<a\s+(?:name|id)=\"([^\"]+)\"")
CELL_END = re.compile(r"(?<!\\)\|")


def split_fences(text):
    """The text without its fenced blocks, and the blocks alone; what is not there is empty
    lines."""
    prose, fenced, fence = [], [], None
    for line in text.split("\n"):
        mark = FENCE.match(line)
        is_prose = fence is None and not mark
        prose.append(line if is_prose else "")
        fenced.append("" if is_prose else line)
        if fence is None:
            fence = mark and mark[1]
        elif mark and mark[1].startswith(fence) and not line.strip().strip(fence[0]):
            fence = None
    return "\n".join(prose), "\n".join(fenced)


def emptied(match):
    """As many characters, of which none means anything."""
    return re.sub(r"[^\n]", "x", match[0])


def anchor_of(heading):
    """The anchor that a heading gets from its text."""
    text = re.sub(r"\[([^\]]*)\]\([^)]*\)", r"\1", heading).lower()
    return re.sub(r"[^\w\- ]", "", text).replace(" ", "-")


class Page:
    """The text of a file, in parts that are as long as the text up to where they stand."""

    def __init__(self, file):
        self.text = file.read_text(encoding="utf-8")
        self.prose, self.fenced = split_fences(self.text)

    def line_at(self, place):
        return self.text.count("\n", 0, place) + 1

    def links(self):
        """The targets of links, each with its line."""
        for link in LINK.finditer(SPAN.sub(emptied, self.prose)):
            yield self.prose.count("\n", 0, link.start()) + 1, link[1] or link[2]

    def anchors(self):
        found = set(NAMED.findall(self.prose))
        for heading in HEADING.findall(self.prose):
            anchor, count = anchor_of(heading), 0
            while (name := f"{anchor}-{count}" if count else anchor) in found:
                count += 1
            found.add(name)
        return found

    def code(self):
        """What stands in backquotes, and the lines of blocks of code, each with its line."""
        for span in SPAN.finditer(self.prose):
            yield self.prose.count("\n", 0, span.start()) + 1, span[2]
        for number, line in enumerate(self.text.split("\n"), 1):
            if line.startswith("    ") or self.fenced.split("\n")[number - 1]:
                yield number, line

    def cells(self):
        """The cells of tables, each with its line."""
        for number, line in enumerate(self.prose.split("\n"), 1):
            if line.lstrip().startswith("|"):
                for cell in CELL_END.split(line.strip().strip("|")):
                    yield number, cell.strip()
