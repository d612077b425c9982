"""Tries the trials of planted bugs themselves, by edits of which is known what they come to."""
import copies
import planting
import verdicts

CRATE = "canary_metric"
FOLDER = f"tests/edits/itself/{CRATE}"
WANTED = {
    "means-the-same": verdicts.PROVED,
    "names-nothing": verdicts.BAD,
    "renames-what-a-proof-cites": verdicts.BY_NAME,
}


def complaints_of(trial, root, rt):
    """What is wrong with the trials of these edits."""
    edits = planting.edits_in(f"{root}/{FOLDER}", trial.source, rt)
    if {it.name for it in edits} != set(WANTED):
        return [f"{FOLDER} does not have the edits {', '.join(WANTED)}"]
    for is_bad in (False, True):
        trial.run([it for it in edits if (WANTED[it.name] == verdicts.BAD) == is_bad])
    found = {name: trial.verdicts.get(name, (verdicts.UNTRIED, "", ""))[0] for name in WANTED}
    complaints = [f"{FOLDER}/{name}: {found[name]}, and not {wanted}"
                  for name, wanted in WANTED.items() if found[name] != wanted]
    return complaints + complaints_of_copy(trial, edits)


def complaints_of_copy(trial, edits):
    """What is wrong with a trial in a copy of the edit that has to be proved."""
    [edit] = [it for it in edits if WANTED[it.name] == verdicts.PROVED]
    copy = copies.Copy(*min(edit.changed), edit)
    verdict, said = verdicts.of_edit(trial.check_some("in-a-copy", [copy]), CRATE, copy)
    return [] if verdict == verdicts.PROVED else [f"{FOLDER}/{edit.name}, in a copy: {said}"]
