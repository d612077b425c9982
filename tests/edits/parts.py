"""The planted bugs that a run tries, in parts, and what comes of the parts of a crate. A bug whose
refusal is kept is not tried again, and one for which there is no time waits for its turn."""
import collections

import checks
import shares
import verdicts

# The most that one part takes, by the lengths of its bugs: once begun, it goes on to its end.
MOST = 60
# Some bugs of a crate, of which those of the lowest rank are first, and whether they may wait.
Part = collections.namedtuple("Part", "crate names rank may_wait")


def everything(bugs):
    """All bugs, those of a crate in one part, those that are likely to take longest first. `bugs`
    has the lengths of the trials of each crate's bugs, by their names."""
    longest = sorted(bugs, key=lambda it: sum(bugs[it].values()), reverse=True)
    return [Part(it, list(bugs[it]), rank, False) for rank, it in enumerate(longest, 1) if bugs[it]]


def chosen(landing, named, bugs):
    """What a landing tries: first the named ones, which do not wait; then those of the crates that
    it changes, of those whose turn it is, and of those above one that it changes. Of the last ones
    those are first whose turn was last, since they would wait longest."""
    found = []
    for crate, lengths in bugs.items():
        own = [it for it in lengths if f"{crate}/{it}" in named]
        found += [((0, 0, -len(own)), crate, own, False)] if own else []
        others = {it: lengths[it] for it in lengths if it not in own}
        if why := landing.why(crate):
            since = landing.since_turn(crate) if why == shares.ABOVE else 0
            order = why, since, -sum(others.values())
            found += [(order, crate, it, True) for it in in_chunks(others)]
    found.sort(key=lambda it: it[0])
    return [Part(*it[1:3], rank, it[3]) for rank, it in enumerate(found, 1)]


def in_chunks(lengths):
    """The names of bugs, so many at a time as one part may have."""
    chunks, length = [], MOST
    for name, own in lengths.items():
        if length + own > MOST:
            chunks.append([])
            length = 0
        chunks[-1].append(name)
        length += own
    return chunks


class Tries:
    """What came of the planted bugs of a crate: the refusals that are kept, the bugs that wait for
    their turn, and those that were not tried, each with why. `turns` says how each check of a part
    gets its turn."""

    def __init__(self, crate, trial, store, keys, turns):
        self.crate, self.trial, self.turns = crate, trial, turns
        self.store, self.keys = store, keys
        self.kept, self.waiting, self.left, self.tried = {}, [], {}, []

    def run(self, part, edits, also):
        """Tries those bugs of a part whose refusals are not kept, beside functions as they are.
        `edits` has the crate's bugs by their names."""
        names = self.names(part)
        found = {it: self.store.found(names[0][it]) for it in part.names}
        self.kept.update((name, it) for name, it in found.items() if it)
        left = [edits[it] for it in part.names if not found[it]]
        for name in (it for it in part.names if found[it]):
            self.trial.note(f"{name}: {found[name][0]}, in an earlier run: {found[name][1]}")
        if left:
            self.trial.turn = self.turns(part)
            self.try_now(left, also)
            self.keep(part, names)

    def names(self, part):
        """How the entries of a part's bugs are named, and what differs if the crate changes."""
        return self.keys.of(self.crate, part.names), self.keys.touched(self.crate)

    def try_now(self, edits, also):
        """Tries these bugs, as long as there is time."""
        why = "no verdict"
        try:
            self.trial.run(edits, also)
        except checks.Waits:
            self.waiting += [it.name for it in edits]
            return
        except checks.Ended:
            raise
        except checks.Stopped as stopped:
            why = stopped
        self.tried += [it.name for it in edits]
        self.left.update((it.name, why) for it in edits if it.name not in self.trial.verdicts)

    def keep(self, part, names):
        """Keeps the clear refusals of a part, if nothing changed meanwhile that they rest on, and
        if each function and law that had to be proved was."""
        found = self.trial.verdicts
        is_sound = all(it[0] != verdicts.UNSOUND for it in found.values())
        if is_sound and self.names(part) == names:
            for name in (it for it in part.names if it in found and it not in self.kept):
                verdict, _, said = found[name]
                self.store.keep(names[0][name], verdict, said)

    def complaints(self):
        """Each bug that is not refused, and each that was not tried and may not wait."""
        own = self.crate.name
        found = [f"{own}/{name}: {verdict}, {how}: {said}"
                 for name, (verdict, how, said) in self.trial.verdicts.items()
                 if verdict not in verdicts.GOOD]
        untried = verdicts.UNTRIED
        return found + [f"{own}/{name}: {untried}: {why}" for name, why in self.left.items()]
