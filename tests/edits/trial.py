"""Tries planted bugs of one crate, many in one check: see tests/edits/together."""
import collections
import contextlib
import itertools
import os
import time

import checks
import copies
import kit
import planting
import verdicts

# The most bugs that one check tries at once, so that it ends within its limit.
LOT = 60
# So often a bug is tried with others, before it is tried in smaller groups.
ROUNDS = 2


def words_only(functions, laws=()):
    """The words that ask a check for these functions, each with its file, and for these modules of
    laws."""
    names = sorted({it.module + it.name for _, it in functions}) + list(laws)
    return [word for name in names for word in ("--only", name)]


class Trial:
    """The source of a crate, and what came of those of its planted bugs that were tried.

    A lean trial cuts off the functions that no bug of a group changes, and checks the others alone.
    Else a check reads the whole crate, over a copy by links of what its own check kept. Each check
    waits for its `turn`, if that is given."""

    def __init__(self, crate, rt, logs, given, turn=contextlib.nullcontext, kept=None):
        self.crate, self.kit_rt, self.turn = crate, rt, turn
        self.limit, self.is_lean = given.limit, given.lean
        self.source = planting.Source(crate.folder)
        self.logs = f"{logs}/{crate.name}"
        # What the checks of a lean trial keep for one another, and where they run.
        of_cut = f"of-cut/{os.path.basename(logs)}"
        self.kept = f"{kept}/{of_cut}/{crate.name}" if kept else f"{crate.folder}/out/{of_cut}"
        self.room = kept or f"{crate.folder}/out"
        self.checks, self.seconds, self.memory = 0, 0.0, 0
        self.verdicts, self.is_done = {}, False
        # The logs of what tries many bugs have a number each.
        self.numbers = itertools.count(1)
        # The laws that have to be proved as they are, and whether a check said that they are.
        self.laws, self.are_laws_proved = (), False
        for folder in (self.logs, self.kept) if given.lean else (self.logs,):
            os.makedirs(folder, exist_ok=True)

    def check(self, log, texts, flags=(), gone=(), kept=None, crate=None):
        """Checks the crate, or this one in its place, with these texts and without the folders
        `gone`, over what is in the folder `kept`, if it is given. One that is lost is run again,
        and so is one that fails when its files are taken."""
        own = log, texts, flags, gone, kept, crate or self.crate
        while (ran := self.ran(*own)).is_lost:
            pass
        if ran.status == 2:
            ran = self.ran(*own, keeps_files=True)
        # The prover stopped and judged nothing, and says why.
        errors = [it for it in ran.lines if ran.status == 2 and it.startswith("rattle: error")]
        return errors or ran.lines

    def ran(self, log, texts, flags, gone, kept, crate, keeps_files=False):
        """What a check came to."""
        rtlib = self.kit_rt.rtlib
        with self.turn() as turn, checks.room_in(self.room) as room:
            checks.copied(crate, rtlib.PARTS, room, texts, gone)
            words = crate.words(["--jobs", "1", *flags], keeps=False)
            words += ["--incremental", kept] if kept else []
            words = [*rtlib.guarded(), rtlib.RATTLE, "check", *words]
            said = f"{self.logs}/{log}.log"
            ran = checks.run(words, room, said, self.limit, turn, keeps_files)
        self.checks, self.seconds = self.checks + 1, self.seconds + ran.seconds
        self.memory = max(self.memory, ran.memory)
        return ran

    def check_whole(self, edit):
        """What a check of the whole crate with one bug says."""
        texts = self.source.planted([edit])
        if self.is_lean:
            # Nothing is cut off, so nothing calls the function of C.
            return self.check(edit.name, texts, crate=self.crate.without_never)
        with checks.room_in(self.room) as room:
            kit.link(f"{self.crate.folder}/out/incremental", f"{room}/kept")
            return self.check(edit.name, texts, kept=f"{room}/kept")

    def check_some(self, log, edits, also=(), laws=()):
        """What a check says of the functions that the bugs change and of those of `also`, of which
        each has its file, and of these modules of laws. In a lean trial a bug may be planted in a
        copy."""
        kept = {it for edit in edits for it in edit.changed} | set(also)
        if not self.is_lean:
            with checks.room_in(self.room) as room:
                kit.link(f"{self.crate.folder}/out/incremental", f"{room}/kept")
                texts, flags = self.source.planted(edits), words_only(kept, laws)
                return self.check(log, texts, flags, kept=f"{room}/kept")
        copied = [it for it in edits if isinstance(it, copies.Copy)]
        kept -= {it for copy in copied for it in copy.changed}
        texts, cut = self.source.cut_off([it for it in edits if it not in copied], kept, copied)
        flags = words_only(kept.union(*(it.changed for it in copied)), laws)
        gone = [folder for it in cut for folder in verdicts.folders_of(*it)]
        return self.check(log, texts, flags, gone, self.kept)

    def settle(self, name, verdict, how, said):
        self.verdicts[name] = (verdict, how, said)
        self.note(f"{name}: {verdict}, {how}: {said}")

    def note(self, text):
        with open(f"{self.logs}/verdicts", "a", encoding="utf-8") as it:
            it.write(f"{text}\n")

    def try_in_lots(self, edits, also):
        """Tries bugs, so many at once in each check, and once more those of which a check told
        nothing clear. It gives those of which these checks tell nothing clear either; those that
        are proved there; and those of `also`, if none was looked at."""
        left, proved = edits, []
        for _ in range(ROUNDS):
            tried, left = left, []
            for first in range(0, len(tried), LOT):
                lot, log = tried[first : first + LOT], f"at-once-{next(self.numbers)}"
                rest, more, also = self.try_at_once(lot, also, log)
                left, proved = left + rest, proved + more
            if len(left) == len(tried):
                break
        return left, proved, also

    def try_at_once(self, edits, also, log):
        """Tries all bugs that one check can try, of a function in copies of it, beside functions as
        they are: copies too, or else those of `also`. It gives the bugs of which the check tells
        nothing clear; those that are proved there; and those of `also`, if none was looked at."""
        made, as_they_are, left = copies.in_one(edits, self.source)
        copied = [it for it in made if isinstance(it, copies.Copy)]
        beside = self.unchanged(also, made)
        if not as_they_are and not beside:
            wanted = also or [it.of for it in copied[:1]]
            as_they_are = [copies.Copy(*it) for it in wanted if copies.can_copy(it[1])]
        laws = () if self.are_laws_proved else self.laws
        lines = self.check_some(log, made + as_they_are, beside, laws) if made else []
        if not verdicts.reads(lines):
            return edits, [], also
        self.are_laws_proved = self.are_laws_proved or self.laws_stand(lines)
        lost = {it.of for it in as_they_are if not self.stands(lines, *min(it.changed))}
        is_sound, proved = not as_they_are or len(lost) < len(as_they_are), []
        for it in made:
            verdict, said = verdicts.of_edit(lines, self.crate.name, it)
            is_clear = verdict in verdicts.CLEAR
            if is_clear and (it not in copied or is_sound and it.of not in lost):
                self.settle(it.name, verdict, "in a copy" if it in copied else "at once", said)
            else:
                unclear = proved if verdict == verdicts.PROVED else left
                unclear.append(it.edit if it in copied else it)
        self.look_at(beside, lines)
        return left, proved, () if is_sound else also

    def try_group(self, edits, number, also=()):
        """Plants a group at once, and gives the bugs of which it tells nothing clear, with why.
        The functions of `also` are not changed, so they have to be proved."""
        lines, unclear = self.check_some(f"group-{number}", edits, also), []
        if verdicts.reads(lines):
            for edit in edits:
                verdict, said = verdicts.of_edit(lines, self.crate.name, edit)
                if verdict in verdicts.CLEAR:
                    self.settle(edit.name, verdict, f"group {number}", said)
                else:
                    unclear.append((edit, said))
            self.look_at(also, lines)
            return unclear
        faulty = verdicts.faulty(lines, edits)
        rest = [it for it in edits if it not in [edit for edit, _ in faulty]]
        if len(edits) == 1:
            return faulty or [(edits[0], lines[0])]
        for place, part in enumerate([rest] if faulty else [rest[::2], rest[1::2]]):
            unclear += self.try_group(part, f"{number}-{place}", also) if part else []
        return faulty + unclear

    def look_at(self, functions, lines):
        """Settles functions that no bug changes: a trial in which one has no proof says nothing.
        One that calls a function with a bug waits for its proof, and shows nothing either way."""
        for file, function in functions:
            if not self.stands(lines, file, function):
                name = f"{function.module}{function.name} as it is"
                self.settle(name, verdicts.UNSOUND, "beside a group", "it has no proof there")

    def stands(self, lines, file, function):
        """Whether a check says that a function is proved, or that all of it is proved that does not
        wait for others."""
        own = (lines, self.crate.name, file, function)
        told = [it for it in lines if verdicts.is_about(it, file, function)]
        return verdicts.is_proved(*own) or (verdicts.waits(*own) and not told)

    def try_alone(self, edit, why):
        """Tries a bug once more, of which its group told nothing clear."""
        if not self.is_lean:
            return self.try_whole(edit)
        lines = self.check_some(edit.name, [edit])
        if verdicts.reads(lines):
            verdict, said = verdicts.of_edit(lines, self.crate.name, edit)
            return self.settle(edit.name, verdict or verdicts.UNTRIED, "alone", said)
        faulty = verdicts.faulty(lines, [edit])
        verdict = verdicts.BAD if faulty else verdicts.UNTRIED
        return self.settle(edit.name, verdict, "alone", faulty[0][1] if faulty else why)

    def try_beyond(self, edit):
        """Tries a bug that changes more than bodies: in a lean trial on the laws and the functions
        that it changes, then on all functions beside it, and on the whole crate if neither tells
        enough."""
        laws, beside = self.source.laws, self.source.beside(edit)
        for also, is_told in ((set(), laws or edit.changed), (beside, beside - edit.changed)):
            if self.is_lean and is_told:
                lines = self.check_some(edit.name, [edit], also, laws)
                verdict, said = self.read_whole(lines, edit)
                if verdict not in (verdicts.PROVED, verdicts.UNTRIED):
                    how = "with all beside it" if also else "with the laws"
                    return self.settle(edit.name, verdict, how, said)
        return self.try_whole(edit)

    def try_whole(self, edit):
        """Tries a bug on the whole crate."""
        verdict, said = self.read_whole(self.check_whole(edit), edit)
        self.settle(edit.name, verdict, "the whole crate", said)

    def read_whole(self, lines, edit):
        """The verdict on a bug by all that a check says, and the line that tells it."""
        unread = [it for it in lines if self.kit_rt.unread(it, edit.texts)]
        if unread:
            return verdicts.BAD, unread[0]
        return verdicts.of_all(lines)

    def look_at_all(self, functions):
        """Settles those of these functions that have no proof as they are."""
        lines = self.check_some("as-they-are", [], functions) if functions else []
        self.look_at(functions, lines)

    def laws_stand(self, lines):
        """Whether a check says that each law that has to be proved is."""
        functions = [(f"src/{law}.rt", it) for law in self.laws
                     for it in self.source.functions[f"src/{law}.rt"]]
        own = lines, self.crate.name
        return bool(functions) and all(verdicts.is_proved(*own, *it) for it in functions)

    def check_laws(self):
        """Settles the laws as they are: a lean trial in which one has no proof says nothing."""
        if self.laws and not self.are_laws_proved:
            lines = self.check_some("laws", [], laws=self.source.laws)
            verdict, said = verdicts.of_all(lines)
            self.are_laws_proved = verdict == verdicts.PROVED
            if not self.are_laws_proved:
                self.settle("the laws as they are", verdicts.UNSOUND, "alone", said)

    def run(self, edits, also=()):
        """Tries these bugs. The functions of `also` are looked at beside the first group."""
        begun = time.time()
        left, beyond = ([it for it in edits if it.stays_inside == which] for which in (True, False))
        self.laws = self.source.laws if self.is_lean and beyond else ()
        proved = []
        if self.is_lean:
            left, proved, also = self.try_in_lots(left, also)
        unclear = [(it, "") for it in proved]
        for group in planting.grouped(left):
            beside = self.unchanged(also, group)
            if self.is_lean and len(group) == 1 and not beside:
                # A check of it alone, which need not be run twice.
                unclear.append((group[0], ""))
            else:
                unclear += self.try_group(group, next(self.numbers), beside)
            also = ()
        for edit, why in unclear:
            self.try_alone(edit, why)
        if beyond:
            self.check_laws()
        for edit in beyond:
            self.try_beyond(edit)
        self.is_done = True
        self.note(f"{self.told()}, {time.time() - begun:.0f} s by the clock")

    def unchanged(self, functions, edits):
        changed = {it for edit in edits for it in edit.changed}
        return tuple(it for it in functions if it not in changed)

    def told(self):
        """How many of the bugs came to what, and how long that took."""
        counts = collections.Counter(verdict for verdict, _, _ in self.verdicts.values())
        told = ", ".join(f"{count} {verdict}" for verdict, count in counts.most_common())
        used = f"{self.seconds:.0f} s of a processor, at most {self.memory / 1e9:.1f} GB"
        return f"{told or 'none tried'}; {self.checks} checks, {used}"
