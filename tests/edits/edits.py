"""Checks that the planted bugs fit the code: edits.py ROOT (tests/edits/run gives it).

A bug is a file NAME.edit of `crates/CRATE/planted` or `crates/CRATE/must-fail`, or, if no clause
refuses it and a test does, of `crates/CRATE/tested`: the line `file: FILE`, which names a file of
the crate, then pairs of lines `old: TEXT` and `new: TEXT`; and so on for another file, where a
clause is changed with its function. The pairs are applied one after another: each old text stands
in the file once as it is replaced, and in the end the file has changed. Those of
`tests/edits/itself/CRATE` are no bugs, but have to fit, too; and each name in `tests/edits/named`
has to be one of a bug."""
import collections
import pathlib
import re
import sys

import shares

PART = re.compile(r"file: (\S+)\n((?:old: .+\nnew:(?: .*)?\n)+)")
FOLDERS = ("planted", "must-fail", "tested")
PAIR = re.compile(r"old: (.+)\nnew: ?(.*)\n")


def fault_of(edit, crates):
    """Why the edit does not fit the code, or none."""
    told = edit.read_text(encoding="utf-8")
    parts = PART.findall(told)
    if not parts or PART.sub("", told):
        return "is not a file and pairs of an old and a new text, once or more"
    is_planted = edit.parent.name in FOLDERS
    crate = crates / (edit.parent.parent if is_planted else edit.parent).name
    faults = (fault_in(crate, name, pairs) for name, pairs in parts)
    return next((fault for fault in faults if fault), None)


def fault_in(crate, name, pairs):
    """Why the pairs do not fit a file of the crate, or none."""
    file = crate / name
    if not file.is_file():
        return f"there is no {name}"
    before = text = file.read_text(encoding="utf-8")
    for old, new in PAIR.findall(pairs):
        if text.count(old) != 1:
            return f"{name} has {text.count(old)} times: {old}"
        text = text.replace(old, new)
    return "changes nothing" if text == before else None


def main(root):
    crates = pathlib.Path(root) / "crates"
    edits = sorted(it for folder in FOLDERS for it in crates.glob(f"*/{folder}/*.edit"))
    others = sorted(pathlib.Path(root).glob("tests/edits/itself/*/*.edit"))
    faults = [(edit, fault) for edit in edits + others if (fault := fault_of(edit, crates))]
    faults += [(shares.NAMED, f"there is no {it}") for it in shares.named_in(root)
               if not (crates / f"{it.replace('/', '/planted/')}.edit").is_file()]
    for edit, fault in faults:
        print(f"edits: {edit}: {fault}")
    dealt = collections.Counter(shares.share_of(it.parent.parent.name) for it in edits
                                if it.parent.name == "planted")
    counts = ", ".join(f"{dealt[share]}" for share in range(shares.SHARES))
    print(f"edits: {len(edits)} planted bugs, {len(faults)} do not fit the code; shares: {counts}")
    return 1 if faults or not edits else 0


sys.exit(main(sys.argv[1]))
