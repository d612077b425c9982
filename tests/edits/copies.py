"""Copies of functions, so that one check tries many bugs of a function. A copy stands at the end of
the file under a name of its own, and has a copy of the proof. If the proof has files, the first bug
is planted in the function and each other one in a copy, and one more copy is as the function is: if
that is not proved, the others say nothing. A function whose proof has no file has no name that a
copy could lose. So each bug of it is planted in a copy, and no function that calls it waits."""
import re

import bodies
import verdicts


def can_copy(function):
    """Whether a function can be copied: it is in no cycle of calls and in no impl of a trait."""
    return not function.cycle and function.head is not None


def can_be_made(edit):
    """Whether a copy can have the bug: it changes one function, all in its body."""
    if len(edit.changed) != 1:
        return False
    [(path, function)] = edit.changed
    is_inside = all(file == path and bodies.with_body([function], number)
                    for file, number in edit.lines)
    return is_inside and can_copy(function)


class Copy:
    """A copy of a function, with a bug, or as the function is. It has what a bug has, `name`,
    `lines` and `changed`, of which the last is known if the texts of a trial are made."""

    def __init__(self, path, function, edit=None):
        self.path, self.function, self.edit = path, function, edit
        self.of = path, function
        self.name = edit.name if edit else f"{function.module}{function.name} as it is"
        self.lines, self.changed = {}, set()

    def own_name(self):
        """The last part of the copy's name."""
        which = re.sub(r"\W", "_", self.edit.name) if self.edit else "as_it_is"
        return f"{self.function.name.split('::')[-1]}_in_{which}"

    def text(self, source):
        """The lines of the copy, in an impl of its own if the function stands in one."""
        lines, function = source.texts[self.path].split("\n"), self.function
        for (_, number), new in (self.edit.lines if self.edit else {}).items():
            lines[number - 1] = new
        own = function.name.split("::")[-1]
        made, is_named = [], False
        for line in lines[function.first - 1 : function.last]:
            head = None if is_named else bodies.HEAD.match(line)
            if head and head[2] == own:
                line, is_named = line[: head.start(2)] + self.own_name() + line[head.end(2) :], True
            made.append(line)
        return [*self.head(), *made, "}"] if function.head else made

    def head(self):
        """The lines before the copy's own: the head of its impl, if the function stands in one."""
        return self.function.head.split("\n") if self.function.head else []

    def add(self, source, texts):
        """Adds the copy and its proof to the texts of a crate, by their paths."""
        above = texts[self.path].rstrip("\n").split("\n") + [""]
        texts[self.path] = "\n".join([*above, *self.text(source), ""])
        moved = len(above) + len(self.head()) + 1 - self.function.first
        *block, _ = self.function.name.split("::")
        places = (getattr(self.function, it) + moved for it in ("first", "body", "last"))
        first, body, last = places
        made = self.function._replace(name="::".join([*block, self.own_name()]), first=first,
                                      body=body, last=last)
        self.changed = {(self.path, made)}
        for old, new in zip(verdicts.folders_of(self.path, self.function),
                            verdicts.folders_of(self.path, made)):
            for file, text in source.proofs_in(old):
                texts[new + file] = text.replace(dotted(old), dotted(new))


def has_files(path, function, source):
    """Whether the proof of a function has files."""
    folders = verdicts.folders_of(path, function)
    return any(True for it in folders for _ in source.proofs_in(it))


def dotted(folder):
    """How the files of a proof name its folder."""
    return "." + folder.replace("/", ".")


def fits_beside(edit, others, source):
    """Whether one check can try the bug where it stands, beside these others that stand where they
    are, and has to: a copy would want one more copy, or cannot be made."""
    is_bare = can_be_made(edit) and not has_files(*min(edit.changed), source)
    return not is_bare and all(map(edit.is_apart, others))


def in_one(edits, source):
    """The bugs that one check can try, as they are or in copies; a copy as it is of each function
    that has copies with files of a proof; and the other bugs."""
    stand, copied, left = [], [], []
    for edit in sorted(edits, key=can_be_made):
        if fits_beside(edit, stand, source):
            stand.append(edit)
        elif can_be_made(edit):
            copied.append(Copy(*min(edit.changed), edit))
        else:
            left.append(edit)
    as_they_are = dict.fromkeys(it.of for it in copied if has_files(*it.of, source))
    return stand + copied, [Copy(*it) for it in as_they_are], left
