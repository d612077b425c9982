"""The table of docs/CHANGING.md on the way of a Promote: a row for each function, with its file."""
import re
import sys

PAGE = "docs/CHANGING.md"
TITLE = "## The way of a Promote\n"
ROW = re.compile(r"\| (canary_\w+): (\w+\.rt) \| `([\w:]+)` \|")


def rows_of(root):
    """The rows of the table, each as its line, a crate, the end of a file's path, a function."""
    front, _, rest = (root / PAGE).read_text(encoding="utf-8").partition(TITLE)
    begin = front.count("\n") + 2
    rows = [(number, *ROW.match(line).groups())
            for number, line in enumerate(rest.split("\n## ")[0].split("\n"), begin)
            if line.startswith("| canary_")]
    if not rows:
        sys.exit(f"{PAGE} has no rows under {TITLE.strip()}")
    return rows
