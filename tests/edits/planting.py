"""A crate's source, its planted bugs, and the texts of copies in which many of them are planted."""
import copy
import os
import re

import bodies
import cutting

# The files of the functions whose clauses are laws; they call laws alone.
LAWS = re.compile(r"src/(\w*laws)\.rt")
# A line beside the functions in whose place another one only adds something: a comment, an import.
ADDS = re.compile(r"\s*//|use ")


class Source:
    """The files of a crate's folder `src`, by their paths, and the functions of each."""

    def __init__(self, folder):
        self.folder, self.texts = folder, {}
        for below, _, names in os.walk(f"{folder}/src"):
            for path in (f"{below}/{it}" for it in names if it.endswith(".rt")):
                self.texts[os.path.relpath(path, folder)] = text_of(path)
        homes = bodies.homes_of(self.texts)
        self.functions = {path: bodies.functions_of(path, text, homes)
                          for path, text in self.texts.items()}
        self.laws = sorted(it[1] for it in map(LAWS.fullmatch, self.texts) if it)

    def planted(self, edits):
        """The texts of the files that the bugs change, with all of them."""
        lines = {}
        for (path, number), text in (line for edit in edits for line in edit.lines.items()):
            if path not in lines:
                lines[path] = text_of(f"{self.folder}/{path}").split("\n")
            lines[path][number - 1] = text
        return {path: "\n".join(it) for path, it in lines.items()}

    def proofs_in(self, folder):
        """The files of a folder of the crate's proofs, by their paths there, with their texts."""
        for below, _, names in os.walk(f"{self.folder}/{folder}"):
            for path in (f"{below}/{it}" for it in names):
                yield os.path.relpath(path, f"{self.folder}/{folder}"), text_of(path)

    def cut_off(self, edits, kept, copied=()):
        """The texts of all files, with the bugs and copies of functions, in which no other function
        stays but those of `kept`, of their cycles of calls, and the laws; and those that are cut
        off, each with its file."""
        texts, cut = {**self.texts, **self.planted(edits)}, []
        cycles = cycles_of(kept)
        for path, functions in self.functions.items():
            gone = [it for it in functions if (path, it) not in kept and not LAWS.fullmatch(path)
                    and not cycles & cycles_of([(path, it)])]
            texts[path] = cutting.cut_off(texts[path], gone)
            cut += [(path, it) for it in gone]
        for it in copied:
            it.add(self, texts)
        cutting.add_never(texts)
        return texts, cut

    def beside(self, edit):
        """The functions with a body of each file of code in which the bug changes more than bodies.
        """
        return {(path, it) for path in edit.beyond if not LAWS.fullmatch(path)
                for it in self.functions.get(path, ()) if it.body < it.last}


class Edit:
    """A planted bug: the lines that it changes, the functions in whose bodies they stand, and the
    files of those that stand beyond these and change something. It `stays_inside` if none does."""

    def __init__(self, file, source, rt):
        self.lines = {}
        self.name = os.path.basename(file).removesuffix(".edit")
        self.texts = rt.read_edit(file, source.folder)[0] or {}
        found = []
        for path, text in self.texts.items():
            before = text_of(f"{source.folder}/{path}")
            pairs = zip(before.split("\n"), text.split("\n"), strict=True)
            for number, (old, new) in enumerate(pairs, 1):
                if old != new:
                    self.lines[path, number] = new
                    of_file = source.functions.get(path, ())
                    found.append((path, bodies.with_body(of_file, number), ADDS.match(old)))
        self.changed = {(path, function) for path, function, _ in found if function}
        self.beyond = {path for path, function, adds in found if not function and not adds}
        self.stays_inside = bool(self.changed) and not self.beyond

    def is_apart(self, other):
        """Whether two bugs can be planted at once: they change no function, no line and no cycle of
        calls both."""
        if cycles_of(self.changed) & cycles_of(other.changed):
            return False
        return not self.changed & other.changed and not self.lines.keys() & other.lines.keys()


def with_never(crate):
    """The crate, with checks that allow the function that proves everything, which is one of C."""
    made = copy.copy(crate)
    made.has_c, made.without_never = True, crate
    return made


def edits_in(folder, source, rt):
    """The planted bugs of a folder, by their names."""
    files = sorted(it for it in os.listdir(folder) if it.endswith(".edit"))
    return [Edit(f"{folder}/{it}", source, rt) for it in files]


def text_of(path):
    with open(path, encoding="utf-8") as file:
        return file.read()


def cycles_of(functions):
    """The cycles of calls in which these functions are, each with its file: one proof is of all."""
    return {(path, it.cycle) for path, it in functions if it.cycle}


def grouped(edits):
    """The bugs in groups, of which each two can be planted at once."""
    groups = []
    for edit in edits:
        free = (it for it in groups if all(map(edit.is_apart, it)))
        group = next(free, None)
        if group is None:
            groups.append(group := [])
        group.append(edit)
    return groups
