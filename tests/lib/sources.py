"""Where the functions of this repository's crates stand: each file of crates/*/src is read by its
lines, which are in the layout of `rt fmt`."""
import collections
import re

# A function: its crate, the type or the trait that it is of, if any, its name, and its file from
# the crate's folder `src` on.
Function = collections.namedtuple("Function", "crate owner name file")

FN = re.compile(r"^( {4})?(?:pub(?:\([^)]*\))? )?(?:const )?(?:unsafe )?fn (\w+)")
IMPL = re.compile(r"^(?:unsafe )?impl\b(?:<.*?>)? ?(.*?)(?: where .*)?(?: \{|$)")
TRAIT = re.compile(r"^(?:pub(?:\([^)]*\))? )?trait (\w+)")
# A symbol ends with what a generic function was made for.
INSTANCE = re.compile(r"::<.*>$")
# What the compiler adds to the functions of the source: drops, closures, starts of threads.
ADDED = re.compile(r"\+|::fn::|[^\w:]")


def words_of(text):
    """The names of a type or a trait, as they stand in a symbol: `&Dock` is `RefDock`."""
    text = re.sub(r"&(?:'\w+ )?(?:mut )?", "Ref", re.sub(r"<.*", "", text.strip()))
    return text.rpartition("::")[2]


def owner_of(line):
    """Of a line that begins an impl or a trait, its type and its trait; none of another line."""
    if found := TRAIT.match(line):
        return found[1], ""
    if found := IMPL.match(line):
        of, is_of_trait, name = found[1].partition(" for ")
        return (words_of(name), words_of(of)) if is_of_trait else (words_of(of), "")
    return None


def functions_of(file, crate, name):
    """The functions of a file, each with the trait that an impl is of."""
    owner = None
    for line in file.read_text(encoding="utf-8").split("\n"):
        if line[:1] not in (" ", ")", ""):
            owner = owner_of(line)
        if found := FN.match(line):
            of, trait = owner if found[1] and owner else ("", "")
            yield Function(crate, of, found[2], name), trait


class Sources:
    """The functions of all crates."""

    def __init__(self, root):
        self.named = collections.defaultdict(list)
        for file in sorted((root / "crates").glob("*/src/**/*.rt")):
            crate, _, name = file.relative_to(root / "crates").as_posix().split("/", 2)
            for function, trait in functions_of(file, crate, name):
                self.named[crate, function.name].append((function, trait))

    def of_symbol(self, symbol):
        """The function that a symbol of a program is, or none if it stands in no source: what a
        `derive` writes, or the compiler."""
        parts = INSTANCE.sub("", symbol).split("::")
        if ADDED.search("::".join(parts)) or len(parts) < 2:
            return None
        crate, *modules, name = parts
        owner = modules.pop() if modules and modules[-1][:1].isupper() else ""
        found = [one for one, trait in self.named[crate, name]
                 if (one.owner == owner if not trait else owner.startswith(one.owner + trait))]
        beside = [one for one in found if one.file == "/".join(modules) + ".rt"]
        return (beside or found or [None])[0]

    def has(self, crate, file, name):
        """Whether such a file of a crate has the function NAME or TYPE::NAME."""
        owner, _, name = name.rpartition("::")
        return any(one.owner == owner and one.file.rpartition("/")[2] == file
                   for one, _ in self.named[crate, name])
