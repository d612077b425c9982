"""Checks that each thing is said on one page, a part of documents.py.

- no sentence and no cell of eight words or more is on two pages of README.md, docs/ and examples/.
  README.md may say in short what docs/GUARANTEES.md says in full, and the two tables of crates are
  made from the crates' pages (index.py)
- the tables of the nine commands, of exit statuses and of faults are on the pages that HOMES names,
  and on no other
- only docs/TESTING.md has a heading on what is only tested; another page that speaks of it leads
  there, or to a page that does
- the words of docs/GLOSSARY.md are in the order of the alphabet, and each says what it means"""
import re

from pages import Page

LONG = 8
COMMANDS = {
    "template", "service", "start", "promote", "promotefull", "promote-full", "abort", "retry",
    "tick", "report",
}
# A table of the nine commands has most of them in its first cells.
MOST = 5
# What a table is about, and the pages that may have one.
HOMES = {
    "the nine commands": ("docs/API.md", "docs/RULES.md", "docs/CLIENT.md"),
    "exit statuses": ("docs/CLIENT.md", "docs/AGENT.md"),
    "faults": ("docs/NIGHT.md",),
}
TESTED = "docs/TESTING.md"
TESTED_HEADING = re.compile(r"^#+ (?:What is )?(?:only tested|neither proved nor tested)\b",
                            re.IGNORECASE | re.MULTILINE)
TESTED_WORDS = re.compile(r"\bonly\s+tested\b", re.IGNORECASE)
TESTED_LINK = re.compile(r"TESTING\.md|GUARANTEES\.md")
GLOSSARY = "docs/GLOSSARY.md"
# Pages that may share sentences, and why: a summary, and tables that are made.
SHARING = ({"README.md", "docs/GUARANTEES.md"}, {"docs/PROOFS.md", "docs/ARCHITECTURE.md"},
           {"docs/ARCHITECTURE.md", "docs/RULES.md"})
LINK = re.compile(r"\[([^\]]*)\]\([^)]*\)")
PARAGRAPH = re.compile(r"\n\s*\n|\n(?=\s*(?:[-*]|\d+\.) )")
SENTENCE_END = re.compile(r"(?<=[.:?!]) (?=[A-Z`\"])")


def is_for_users(name):
    return name == "README.md" or name.startswith(("docs/", "examples/"))


def plain(text):
    """The words alone, without links and emphasis."""
    return " ".join(LINK.sub(r"\1", " ".join(text.split())).replace("*", "").split())


def sentences_of(page):
    """The long sentences and cells of a page, each with its line."""
    lines = page.prose.split("\n")
    text = "\n".join("" if line.startswith(("    ", "|")) else line for line in lines)
    place = 0
    for part in PARAGRAPH.split(text):
        number = text.count("\n", 0, text.index(part, place)) + 1
        place = text.index(part, place) + len(part)
        for sentence in SENTENCE_END.split(plain(part)):
            yield number, sentence
    for number, cell in page.cells():
        yield number, plain(cell)


def faults_of_sentences(pages):
    seen = {}
    for name, page in pages.items():
        for number, sentence in sentences_of(page):
            if len(sentence.split()) < LONG:
                continue
            other = seen.setdefault(sentence.lower(), name)
            if other != name and {other, name} not in SHARING:
                yield name, number, f"{other} says the same: {sentence[:60]}"


def tables_of(page):
    """The tables of a page: the line of each, and its rows as lists of cells."""
    rows, first = [], 0
    for number, line in enumerate(page.prose.split("\n") + [""], 1):
        if line.startswith("|"):
            first = first or number
            rows.append([cell.strip() for cell in line.strip("|").split("|")])
        elif rows:
            yield first, rows
            rows, first = [], 0


def subject_of(rows):
    """What a table of HOMES is about; None if it is another one."""
    if rows[0][0] == "Status" and all(re.fullmatch(r"\d", row[0]) for row in rows[2:]):
        return "exit statuses"
    if any(row[0].startswith("`in-use`") for row in rows):
        return "faults"
    words = {word.lower() for row in rows for word in re.findall(r"[\w-]+", row[0])}
    return "the nine commands" if len(words & COMMANDS) >= MOST else None


def faults_of_homes(pages):
    found = set()
    for name, page in pages.items():
        for number, rows in tables_of(page):
            subject = subject_of(rows)
            if subject and name not in HOMES[subject]:
                yield name, number, f"a table of {subject}, which {HOMES[subject][0]} has"
            found.add((subject, name))
    for subject in HOMES:
        if (subject, HOMES[subject][0]) not in found:
            yield HOMES[subject][0], 1, f"it has no table of {subject}"


def faults_of_tested(pages):
    for name, page in pages.items():
        if name == TESTED:
            continue
        heading = TESTED_HEADING.search(page.prose)
        if heading:
            yield name, page.line_at(heading.start()), f"what is only tested stands in {TESTED}"
        words = TESTED_WORDS.search(page.prose)
        if words and not TESTED_LINK.search(page.text):
            yield name, page.line_at(words.start()), f"it does not lead to {TESTED}"


def faults_of_glossary(page):
    """The words, in order, each with what it means."""
    parts = re.split(r"^### (.+)\n", page.text, flags=re.MULTILINE)[1:]
    words, texts = parts[::2], parts[1::2]
    if words != sorted(words):
        yield GLOSSARY, 1, "its words are not in the order of the alphabet"
    for word, text in zip(words, texts):
        if not text.strip().endswith("."):
            yield GLOSSARY, 1, f"it does not say what {word} means"


def faults_of(root):
    """Each fault as a page, a line and what is wrong."""
    files = [root / "README.md", *sorted((root / "docs").glob("*.md")),
             *sorted((root / "examples").rglob("*.md"))]
    pages = {file.relative_to(root).as_posix(): Page(file) for file in files}
    yield from faults_of_sentences(pages)
    yield from faults_of_homes(pages)
    yield from faults_of_tested(pages)
    yield from faults_of_glossary(pages[GLOSSARY])
