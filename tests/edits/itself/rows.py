"""Tries, without the prover, what a gate tries of the planted bugs and what it keeps of them:
rows.py (tests/edits/run gives it). The crates are three of a folder of its own, `low` below
`middle` below `high`, and the trials come to what a row says. The sums are those of `rt`."""
import collections
import contextlib
import json
import os
import pathlib
import subprocess
import sys
import tempfile
import time
import types

HERE = pathlib.Path(__file__).resolve().parent
sys.path.insert(0, str(HERE.parent))

# pylint: disable=wrong-import-position
import checks
import kept
import kit
import lanes
import parts
import shares
import verdicts

RT = kit.load_rt()
CRATES = {"low": "", "middle": "low", "high": "middle low", "apart": ""}
RULES = "specs/Rules.antt"
LIMIT = 1800
Edit = collections.namedtuple("Edit", "name")


class Tree:
    """A repository with a few crates, in which a trial of a bug comes to what `comes` has of it, or
    to a refusal."""

    def __init__(self, root):
        self.root, self.store, self.comes = pathlib.Path(root, "tree"), f"{root}/store", {}
        os.mkdir(self.store)
        self.write("crates.txt", "".join(f"{it}: {used}\n" for it, used in CRATES.items()))
        self.write("tests/edits/named", "high/named\n")
        self.write("tests/edits/trial.py", "")
        self.write("tests/lib/kit.py", "")
        for name in CRATES:
            self.put(name, "src/lib.rt", "")
            self.put(name, RULES, "a rule\n")
            self.put(name, "planted/bug.edit", f"a bug of {name}\n")
            self.build(name)
        self.put("high", "planted/named.edit", "a named bug\n")

    def write(self, path, text):
        file = self.root / path
        file.parent.mkdir(parents=True, exist_ok=True)
        file.write_text(text, encoding="utf-8")

    def put(self, crate, path, text):
        self.write(f"crates/{crate}/{path}", text)

    def build(self, name):
        """Builds the library of a crate: it hands on the crate's own definitions."""
        text = (self.root / "crates" / name / RULES).read_text(encoding="utf-8")
        self.put(name, f"out/rlib/{name}.rlib/specs", text)

    def change(self, name):
        """Changes a definition of a crate, and builds its library again."""
        self.put(name, RULES, f"another rule {time.monotonic_ns()}\n")
        self.build(name)

    def land(self):
        """Takes the turn of a landing, and gives the landing."""
        shares.take_turn(self.root)
        return shares.Landing(self.root)

    def tries(self, blind=False, trusted=True, limit=LIMIT, turns=None, meanwhile=None):
        """What comes of all bugs of the highest crate, as a run of its own tries them."""
        crate = "high"
        known = {it.name: it for it in RT.rtlib.crates_below(str(self.root))}
        names = sorted(it.stem for it in self.root.glob(f"crates/{crate}/planted/*.edit"))
        store, keys = kept.Store(self.store, blind), kept.Keys(RT, self.root, limit)
        if trusted:
            store.trust()
        made = parts.Tries(known[crate], FakeTrial(self.comes, meanwhile), store, keys,
                           turns or (lambda part: contextlib.nullcontext))
        made.run(parts.Part(crate, names, 1, True), {it: Edit(it) for it in names}, ())
        return made

    def entries(self):
        return sorted(pathlib.Path(self.store).iterdir())


class FakeTrial:
    """A trial that comes to what it is given, while something else may happen."""

    def __init__(self, comes, meanwhile):
        self.comes, self.meanwhile, self.verdicts, self.turn = comes, meanwhile, {}, None

    def run(self, edits, _):
        with self.turn():
            for it in edits:
                came = self.comes.get(it.name, verdicts.REFUSED)
                self.verdicts[it.name] = came, "at once", f"a goal of {it.name}"
            for name in (it for it in self.comes if it.endswith("as it is")):
                self.verdicts[name] = self.comes[name], "beside a group", "no proof"
            if self.meanwhile:
                self.meanwhile()

    def note(self, _):
        """A trial writes what came of a bug to its logs."""


def want(what, is_so):
    if not is_so:
        raise AssertionError(what)


def want_tried(tree, names, **how):
    found = sorted(tree.tries(**how).tried)
    want(f"tried: {found}, and not {names}", found == names)


BOTH = ["bug", "named"]


def row_refusal_is_kept(tree):
    want_tried(tree, BOTH)
    again = tree.tries()
    want(f"tried: {again.tried}", not again.tried)
    want(f"kept: {again.kept}", again.kept == {it: ("refused", f"a goal of {it}") for it in BOTH})


def row_crate_changed(tree):
    tree.tries()
    tree.put("high", "src/lib.rt", "changed\n")
    want_tried(tree, BOTH)


def row_definition_changed_two_crates_below(tree):
    tree.tries()
    tree.change("low")
    want_tried(tree, BOTH)
    want_tried(tree, [])


def row_definition_changed_apart(tree):
    tree.tries()
    tree.change("apart")
    want_tried(tree, [])


def row_bug_changed(tree):
    tree.tries()
    tree.put("high", "planted/bug.edit", "another bug\n")
    want_tried(tree, ["bug"])


def row_bug_has_another_name(tree):
    tree.tries()
    tree.put("high", "planted/other.edit", "a bug of high\n")
    want_tried(tree, ["other"])


def row_programs_changed(tree):
    for path in ("tests/edits/trial.py", "tests/lib/kit.py"):
        tree.tries()
        tree.write(path, "changed\n")
        want_tried(tree, BOTH)


def row_limit_changed(tree):
    tree.tries()
    want_tried(tree, BOTH, limit=LIMIT + 1)


def row_other_kit(tree):
    tree.tries()
    before = RT.kit_sum
    RT.kit_sum = lambda: "another kit"
    try:
        want_tried(tree, BOTH)
    finally:
        RT.kit_sum = before


def damages(text, other):
    """An entry as it may not be: without its end, with another letter, of another bug, with another
    verdict, and with no text at all."""
    told, _, entry = text.partition("\n")
    proved = json.dumps({**json.loads(entry), "verdict": verdicts.PROVED})
    yield text[:-1]
    yield text.replace("goal", "gaol")
    yield other
    yield f"{told}\n{proved}"
    yield f"{kept.sum_of(proved)}\n{proved}"
    yield f"{kept.sum_of('[]')}\n[]"
    yield ""


def row_damaged_entry_counts_for_nothing(tree):
    tree.tries()
    whole = {it: it.read_text(encoding="utf-8") for it in tree.entries()}
    file = next(it for it in whole if "a goal of bug" in whole[it])
    [other] = [it for it in whole.values() if it != whole[file]]
    for number, text in enumerate(damages(whole[file], other)):
        file.write_text(text, encoding="utf-8")
        tried = tree.tries().tried
        want(f"damage {number}: tried: {tried}", tried == ["bug"])
        want(f"damage {number} stays", file.read_text(encoding="utf-8") == whole[file])
    file.write_bytes(b"\xff")
    want_tried(tree, ["bug"])


def row_clear_refusals_alone_are_kept(tree):
    for verdict in (verdicts.PROVED, verdicts.BY_NAME, verdicts.AT_LIMIT, verdicts.BAD,
                    verdicts.UNTRIED):
        tree.comes = {"bug": verdict}
        tree.tries()
        made = tree.tries()
        want(f"{verdict}: tried: {made.tried}", made.tried == ["bug"])
        want(f"{verdict}: {made.complaints()}", len(made.complaints()) == 1)
        want(f"{verdict}: it is kept", len(tree.entries()) == 1)
    tree.comes = {"bug": verdicts.WITH_NAME}
    tree.tries()
    want_tried(tree, [])


def row_nothing_is_kept_beside_what_is_unsound(tree):
    tree.comes = {"f as it is": verdicts.UNSOUND}
    tree.tries()
    want_tried(tree, BOTH)


def row_nothing_is_kept_if_it_changed_meanwhile(tree):
    tree.tries(meanwhile=lambda: tree.change("low"))
    tree.put("low", RULES, "a rule\n")
    tree.build("low")
    want_tried(tree, BOTH)
    tree.change("low")

    def changes_and_comes_back():
        tree.put("high", "src/lib.rt", "changed\n")
        tree.put("high", "src/lib.rt", "")

    tree.tries(meanwhile=changes_and_comes_back)
    want_tried(tree, BOTH)


def row_nothing_is_kept_before_the_trials_are_trusted(tree):
    tree.tries(trusted=False)
    want_tried(tree, BOTH)


def row_no_folder_to_keep_in(tree):
    tree.store, folder = None, tree.store
    want_tried(tree, BOTH)
    want_tried(tree, BOTH)
    tree.store = f"{folder}/gone"
    want_tried(tree, BOTH)
    want_tried(tree, BOTH)


def row_all_finds_nothing_and_keeps(tree):
    tree.tries(blind=True)
    want_tried(tree, BOTH, blind=True)
    want_tried(tree, [])


def row_place_is_this_user_s_own(tree):
    rt = types.SimpleNamespace(STORE=f"{tree.root}/kept")
    folder = kept.place(rt)
    want(folder, folder == f"{tree.root}/kept/planted")
    want(oct(os.stat(folder).st_mode), os.stat(folder).st_mode & 0o777 == 0o700)
    os.rmdir(folder)
    os.symlink(tree.store, folder)
    before = os.environ.get("XDG_CACHE_HOME")
    os.environ["XDG_CACHE_HOME"] = f"{tree.root}/cache"
    try:
        want(kept.place(rt), kept.place(rt) == f"{tree.root}/cache/canary-planted")
    finally:
        del os.environ["XDG_CACHE_HOME"]
        os.environ.update({"XDG_CACHE_HOME": before} if before else {})


def row_what_is_long_unused_is_forgotten(tree):
    tree.tries()
    old, new = tree.entries()
    os.utime(old, (0, 0))
    kept.Store(tree.store).forget()
    want(tree.entries(), tree.entries() == [new])


def whys(landing):
    """Why the bugs of each crate are tried; none as long as it is the crate's turn alone."""
    return {it: why for it in CRATES if (why := landing.why(it)) not in (None, shares.IN_TURN)}


def row_changed_crate_and_those_above_it(tree):
    number = tree.land().number
    for changed, wanted in (
        ("low", {"low": shares.CHANGED, "middle": shares.ABOVE, "high": shares.ABOVE}),
        ("middle", {"middle": shares.CHANGED, "high": shares.ABOVE}),
        ("high", {"high": shares.CHANGED}),
        ("apart", {"apart": shares.CHANGED}),
    ):
        tree.change(changed)
        number += 1
        landing = tree.land()
        want(f"landing {landing.number}", landing.number == number)
        found = whys(landing)
        due = {it for it in wanted if landing.since_turn(it) or wanted[it] == shares.CHANGED}
        want(f"{changed}: {found}", found == {it: wanted[it] for it in due})


def row_a_new_bug_is_a_change(tree):
    tree.land()
    tree.put("middle", "planted/new.edit", "a new bug\n")
    want("it has no fault", shares.fault_of_turn(tree.root))
    want("it is no change", tree.land().changes("middle"))
    want("it has a fault", not shares.fault_of_turn(tree.root))


def row_each_crate_has_its_turn(tree):
    tree.land()
    others, found = set(CRATES) - {"apart"}, set()
    for _ in range(shares.SHARES):
        tree.change("apart")
        landing = tree.land()
        found |= {it for it in others if landing.why(it) == shares.IN_TURN}
    want(f"in turn: {found}", found == others)


def row_named_ones_are_first_and_do_not_wait(tree):
    landing = tree.land()
    bugs = {it: {"bug": 1} for it in CRATES}
    bugs["high"] = {"bug": 1, "named": 1}
    first, *others = parts.chosen(landing, ["high/named"], bugs)
    want(first, first == parts.Part("high", ["named"], 1, False))
    want(others, all(it.names == ["bug"] and it.may_wait for it in others))
    want(others, {it.crate for it in others} == set(CRATES))


def row_order_of_what_is_tried(_):
    turn = shares.Turn(40, {it: shares.Noted(40 - (it != "low"), "") for it in CRATES})
    names = [f"c{it}" for it in range(40)]
    turn.crates.update((it, shares.Noted(39, "")) for it in names)
    landing = types.SimpleNamespace(number=40, turn=turn, below={it: {"low"} for it in names})
    landing.below["low"] = set()
    for method in ("changes", "since_turn", "why"):
        setattr(landing, method, types.MethodType(getattr(shares.Landing, method), landing))
    found = parts.chosen(landing, [], {it: {"bug": 1} for it in [*names, "low"]})
    want("not all are tried", len(found) == len(names) + 1)
    want(found[0], found[0].crate == "low")
    since = [landing.since_turn(it.crate) for it in found[1:]]
    want(since, since == sorted(since) and since[0] == 0)


def row_parts_are_of_bounded_length(_):
    chunks = parts.in_chunks({**{f"b{it}": 1 for it in range(100)}, "own": 6})
    want([len(it) for it in chunks], [len(it) for it in chunks] == [60, 41])


def lanes_after(minutes):
    """Lanes whose clock has run for so many minutes of the 20 and 75."""
    rt = types.SimpleNamespace(processors=lambda: 2, free=lambda: 10**12)
    made = lanes.Lanes(rt, None, 20, 75, minutes is None)
    if minutes is not None:
        made.begun -= 60 * minutes
    return made


def row_what_there_is_no_time_for_waits(tree):
    for minutes, may_wait, wanted in (
        (None, True, None), (19, True, None), (21, True, checks.Waits), (21, False, None),
        (74, False, None), (76, False, checks.Stopped), (76, True, checks.Waits),
    ):
        made = lanes_after(minutes)
        try:
            with made.turn(1, may_wait):
                came = None
        except checks.Stopped as why:
            came = type(why)
        want(f"{minutes} minutes, {may_wait}: {came}", came == wanted)
    late = tree.tries(turns=lambda part: lambda: lanes_after(21).turn(1, part.may_wait))
    want(late.waiting, late.waiting == BOTH and not late.tried and not late.complaints())
    late = tree.tries(turns=lambda part: lambda: lanes_after(76).turn(1))
    want(late.complaints(), len(late.complaints()) == 2 and not late.waiting)
    want_tried(tree, BOTH)
    late = tree.tries(turns=lambda part: lambda: lanes_after(21).turn(1, part.may_wait))
    want(late.waiting, not late.waiting and sorted(late.kept) == BOTH)


def row_long_proofs_leave_less_time(_):
    for proofs, wanted in ((30, 20), (110, 20), (118, 12), (130, 0), (170, 0)):
        made = lanes_after(None)
        made.made -= 60 * proofs
        made.take_part()
        want(f"{proofs} minutes of proofs: {made.minutes}", abs(made.minutes - wanted) < 0.5)


def row_turn_is_taken_from_main(tree):
    git = ["git", "-C", str(tree.root), "-c", "user.name=a", "-c", "user.email=a@b"]

    def land():
        for words in (["add", "-A"], ["commit", "-qm", "a landing"],
                      ["update-ref", "refs/remotes/origin/main", "HEAD"]):
            subprocess.run([*git, *words], check=True)

    subprocess.run(["git", "init", "-q", str(tree.root)], check=True)
    tree.write("tests/edits/turn", f"landing 17\ncrates {'0' * 64}\n")
    land()
    want("of the old form", tree.land().number == 18)
    land()
    want("a landing without a change", tree.land().number == 18)
    for crate in ("low", "apart"):
        tree.change(crate)
        landing = tree.land()
        want(f"landing {landing.number}", landing.number == 19)
    found = {it for it in CRATES if landing.changes(it)}
    want(found, found == {"low", "apart"})


def main():
    rows, failed = [it for it in globals() if it.startswith("row_")], 0
    memory = "/dev/shm" if os.access("/dev/shm", os.W_OK) else None
    for name in rows:
        with tempfile.TemporaryDirectory(prefix="rows-", dir=memory) as root:
            try:
                globals()[name](Tree(root))
            except Exception as why:  # pylint: disable=broad-exception-caught
                failed += 1
                print(f"edits: {name}: {type(why).__name__}: {why}")
    print(f"edits: what a gate tries and keeps: {len(rows) - failed} rows passed, {failed} failed")
    return 1 if failed else 0


sys.exit(main())
