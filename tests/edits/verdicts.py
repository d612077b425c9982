"""What a check of a crate with many planted bugs says of each of them."""
import re

from bodies import module_of

REFUSED, BY_NAME, AT_LIMIT = "refused", "refused by a name alone", "refused by a limit"
# A goal is open, and a proof file names what is gone: the first may be so for the second alone.
WITH_NAME = "refused, with a name gone"
PROVED, BAD, UNTRIED = "PROVED", "does not compile", "not tried"
# Nothing was changed, and it is not proved: a trial of its kind says nothing.
UNSOUND = "NOT PROVED AS IT IS"
# What a bug has to come to, and what a group says clearly.
GOOD = {REFUSED, WITH_NAME}
CLEAR = {*GOOD, BY_NAME}

LOCATED = re.compile(r"(?:note: )?(?:\./)?((?:src|specs|proofs)/\S+?):(\d+):\d+: (.*)")
# A line of a proof file that names what a bug took away; `rt must-fail` has the same.
NAMES = re.compile(r"(?:note: )?(?:\./)?proofs/.*"
                   r"(?:has no field|is not in scope|has no `|was not admitted)")
# An open goal, or one that its answer or a lemma does not prove.
GOAL = re.compile(r"it is not proved that|`search` found no proof|^(?:\./)?proofs/.*: error: `")
COMPILER = re.compile(r"(?:\./)?(src/\S+?):(\d+):\d+: error\[[\w-]+\]")
# A definition or a clause that has no type or no meaning.
UNTYPED = re.compile(r"(?:\./)?specs/\S+?:\d+:\d+: error")


def paths_of(file, function):
    """How a function's name begins below its crate, and how that of a closure in it may."""
    yield function.module + function.name
    for module in sorted({function.module, module_of(file)}):
        yield f"{module}fn::{function.name}"


def folders_of(file, function):
    """The folders of a function's proof, with its cycle's, and of those of its closures."""
    paths = [*paths_of(file, function)]
    paths += [f"{function.module}+{function.cycle}"] if function.cycle else []
    return ["proofs/" + it.replace("::", "/") + "/" for it in paths]


def is_about(line, file, function):
    """Whether a line names a place in the function or in its proof."""
    at = LOCATED.match(line)
    if not at:
        return False
    if at[1] == file:
        return function.first <= int(at[2]) <= function.last
    return any(at[1].startswith(it) for it in folders_of(file, function))


def heads_of(crate, file, function):
    """How the lines begin in which a check says whether a function, and a closure in it, is
    proved."""
    own, *closures = (f"fn {crate}::{it}" for it in paths_of(file, function))
    return f"{own}: ", tuple(f"{it}::" for it in closures)


def said_of(lines, crate, file, function):
    """The lines in which a check says that the function, or a closure in it, has no proof."""
    own, closures = heads_of(crate, file, function)
    said = [it for it in lines if it.startswith((own, *closures))]
    return [it for it in said if re.search(": (?:no proof|not proved|could not tell)", it)]


def is_proved(lines, crate, file, function):
    """Whether a check says that the function is proved, with all closures in it."""
    own = heads_of(crate, file, function)[0] + "proved"
    return own in lines and not said_of(lines, crate, file, function)


def waits(lines, crate, file, function):
    """Whether a check says of the function only that it calls one which is not proved, as one with
    a bug beside it."""
    own = heads_of(crate, file, function)[0]
    told = [it[len(own):] for it in lines if it.startswith(own)]
    return any(re.match(r"(?:no proof:|not proved;) it calls `", it) for it in told)


def reads(lines):
    """Whether the check came to the prover, and went through all that it could."""
    return bool(lines) and lines[-1].startswith(("logic=", "only=", "rattle: no verdict"))


def of_lines(told):
    """The verdict by these lines of a check, and the line that says so; no verdict, and why, if it
    is not clear."""
    named = [it for it in told if NAMES.match(it)]
    goals = [it for it in told if GOAL.search(it) and it not in named]
    gone = [it for it in named if "was not admitted" not in it]
    if goals:
        return WITH_NAME if gone else REFUSED, goals[0]
    if named:
        return BY_NAME, named[0]
    return None, f"not clear: {told[0]}" if told else "it is proved"


def of_edit(lines, crate, edit):
    """The verdict on a bug of a group, by what is said of the functions that it changes."""
    told, unproved = [], []
    for file, function in sorted(edit.changed):
        said = said_of(lines, crate, file, function)
        told += [it for it in lines if said and is_about(it, file, function)]
        unproved += said
    verdict, said = of_lines(told)
    waits_too = any("it calls `" in it for it in unproved)
    if waits_too and verdict in GOOD and not said.startswith("note: "):
        # The answer may want what the function calls, which has a bug too.
        return None, f"not clear: {said}"
    limits = [it for it in unproved if ": could not tell" in it]
    if verdict or not limits + unproved:
        proved = all(is_proved(lines, crate, *it) for it in edit.changed)
        return (verdict, said) if verdict else (PROVED if proved else None, said)
    # A function may have no proof for what it calls alone.
    return (AT_LIMIT, limits[0]) if limits else (None, f"not clear: {unproved[0]}")


def of_all(lines):
    """The verdict on a bug, by all that a check of the crate, or of a part of it, says."""
    errors = [it for it in lines if COMPILER.match(it)]
    if not reads(lines):
        return (BAD, errors[0]) if errors else (UNTRIED, lines[0])
    if re.match(r"logic=proved|only=(\d+) proved=\1$", lines[-1]):
        return PROVED, lines[-1]
    untyped = [it for it in lines if UNTYPED.match(it)]
    if untyped:
        return BAD, untyped[0]
    verdict, said = of_lines([it for it in lines if LOCATED.match(it)])
    limits = [it for it in lines if ": could not tell" in it]
    if verdict or not limits:
        return verdict or UNTRIED, said
    return AT_LIMIT, limits[0]


def faulty(lines, edits):
    """The bugs of a group in whose functions the compiler finds an error, with its first line."""
    errors = [(it[1], int(it[2]), it.string) for it in map(COMPILER.match, lines) if it]
    found = []
    for edit in edits:
        told = [said for at, line, said in errors
                if any(at == file and function.first <= line <= function.last
                       for file, function in edit.changed)]
        found += [(edit, told[0])] if told else []
    return found
