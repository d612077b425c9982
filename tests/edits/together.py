"""Plants many bugs at once: see tests/edits/together."""
import argparse
import collections
import concurrent.futures
import os
import shutil
import sys

import checks
import kit
import planting
import verdicts
from trial import Trial


def made_ready(crate, given):
    """Whether the libraries below the crate are built here; and, unless the trial is lean, the
    crate is proved, and what its check kept is there."""
    clone = given.clone and os.path.abspath(given.clone)
    for it in crate.below():
        if clone:
            kit.take_library(it, clone)
        if it.build_rlib(["--jobs", "1"], anew=False):
            return False
    os.makedirs(f"{crate.folder}/out", exist_ok=True)
    if given.lean:
        return True
    if clone and not crate.is_built() and kit.stamp_in(clone, crate) == crate.stamp():
        shutil.rmtree(f"{crate.folder}/out/incremental", ignore_errors=True)
        kit.take([crate], clone)
    is_proved = crate.build_rlib(["--jobs", "1"], anew=False) == 0
    return is_proved and (crate.has_kept() or crate.check(["--jobs", "1"]) == 0)


def words_given(words):
    made = argparse.ArgumentParser(prog="tests/edits/together")
    made.add_argument("--lanes", type=int, default=1, help="so many crates at a time")
    made.add_argument("--from", dest="clone", help="a clone whose proved work is taken")
    made.add_argument("--lean", action="store_true", help="for a crate that is not proved yet")
    made.add_argument("--limit", type=int, default=900,
                      help="processor seconds of a check, at most")
    made.add_argument("crates", nargs="*", metavar="CRATE[/EDIT]", help="these alone")
    return made.parse_intermixed_args(words)


def tried(crate, names, given, rt, root):
    """Tries the bugs of these names, or all of the crate. Whether each is refused."""
    of_trial = planting.with_never(crate) if given.lean else crate
    trial = Trial(of_trial, rt, f"{root}/tests/edits/out", given)
    try:
        if not made_ready(crate, given):
            print(f"{crate.name}: not proved, so no bug is tried", flush=True)
            return False
        edits = planting.edits_in(f"{crate.folder}/planted", trial.source, rt)
        trial.run([it for it in edits if not names or it.name in names])
    except checks.Stopped as why:
        print(f"{crate.name}: stopped: {why}", flush=True)
    for name, (verdict, how, said) in trial.verdicts.items():
        if verdict not in verdicts.GOOD:
            print(f"{crate.name}/{name}: {verdict}, {how}: {said}", flush=True)
    print(f"{crate.name}: {trial.told()}", flush=True)
    return trial.is_done and {it[0] for it in trial.verdicts.values()} <= verdicts.GOOD


def main():
    root, given = sys.argv[1], words_given(sys.argv[2:])
    rt = kit.load_rt()
    kit.share_stamps(rt.rtlib)
    os.chdir(root)
    rt.rtlib.guarded()
    crates = [it for it in rt.rtlib.crates_below(root) if os.path.isdir(f"{it.folder}/planted")]
    names = collections.defaultdict(set)
    for crate, _, edit in (it.partition("/") for it in given.crates):
        names[crate] |= {edit} - {""}
    if unknown := set(names) - {it.name for it in crates}:
        sys.exit(f"tests/edits/together: there are no planted bugs of the crate {min(unknown)}")
    chosen = [it for it in crates if not names or it.name in names]
    with concurrent.futures.ThreadPoolExecutor(given.lanes) as lanes:
        made = [lanes.submit(tried, it, names[it.name], given, rt, root) for it in chosen]
        return 0 if all([it.result() for it in made]) else 1


sys.exit(main())
