"""The functions of a source file in the layout of `rt fmt`, by its lines, and their names in what a
check says: `Seconds::new` of the module `durations::`, `NameDisplay::fmt` of `names::`."""
import collections
import re

# A function of a file: the module by which it is named, which is that of its type if the impl is of
# no trait; its name there; the numbers of its first line, attributes among them, of the line that
# opens its body and of its last line, from 1; the cycle of calls that it names, or nothing; and the
# head of the impl in which it stands, with the lines of its `ghost use`, nothing if it stands in
# none, or None if that is of a trait.
Function = collections.namedtuple("Function", "module name first body last cycle head")

CYCLE = re.compile(r" *#\[cycle\((\w+)\)\]")
HEAD = re.compile(r"( *)(?:pub(?:\(\w+\))? )?fn (\w+)")
TYPE = re.compile(r"^(?:pub(?:\(\w+\))? )?(?:struct|enum) (\w+)", re.MULTILINE)
BLOCK = re.compile(r"(?:pub(?:\(\w+\))? )?(?:impl\b|trait (\w+))(.*)")


def without_parameters(text):
    """The text without what stands between `<` and `>`."""
    made, depth = "", 0
    for letter in text:
        depth += letter == "<"
        made += letter * (depth == 0)
        depth -= letter == ">"
    return made


def after_parameters(text):
    """The text after the parameters with which it begins, if it does."""
    depth = 0
    for at, letter in enumerate(text if text.startswith("<") else ""):
        depth += (letter == "<") - (letter == ">")
        if depth == 0:
            return text[at + 1 :]
    return text


def name_of_impl(text):
    """The type of an impl that is of no trait, and the name of the impl: `Seconds` twice for
    `Seconds`; none and `MemoryFromAllocError` for `From<AllocError> for Memory`."""
    first, is_of_trait, second = after_parameters(text).partition(" for ")
    of_type = without_parameters(second or first).partition(" where ")[0].strip()
    name = re.search(r"\w+$", of_type)[0]
    if not is_of_trait:
        return name, name
    trait, _, given = first.strip().partition("<")
    given = re.findall(r"\w+(?![\w:'])", without_parameters(given.removesuffix(">")))
    return None, name + trait.split("::")[-1] + "".join(given)


def module_of(file):
    """`a::b::` for the file b in the folder a of src, and nothing for the root."""
    path = file.removeprefix("src/").removesuffix(".rt").removesuffix("/mod")
    return "" if path in ("lib", "main") else path.replace("/", "::") + "::"


def homes_of(files):
    """The modules of the types that the files declare, by name; `files` has texts by paths."""
    return {name: module_of(file) for file, text in files.items() for name in TYPE.findall(text)}


def item_at(lines, at):
    """The lines of the item that begins at a place and ends with a `;`."""
    last = next(place for place in range(at, len(lines)) if lines[place].endswith(";"))
    return lines[at : last + 1]


def body_of(lines, at, indent):
    """The places of the lines that open and close the body of the function that begins at a place;
    both are the last line of the head if there is no body."""
    depth = 0
    for place in range(at, len(lines)):
        line = lines[place]
        is_clause = place > at and line.startswith(f"{indent}  ")
        depth += sum(line.count(it) for it in "({") - sum(line.count(it) for it in ")}")
        if depth == 0 and line.endswith(("{}", ";")):
            return place, place
        if line.endswith("{") and not is_clause:
            return place, lines.index(f"{indent}}}", place)
    raise ValueError(f"no body: {lines[at]}")


def first_of(lines, at):
    """The place of the first line of the function at a place, with its attributes."""
    while at > 0 and lines[at - 1] and not lines[at - 1].endswith(("}", ";", "{")):
        at -= 1
    return at


def functions_of(file, text, homes):
    """The functions of a file, in their order. `homes` has the modules of types, by name."""
    lines, found, place = text.split("\n"), [], 0
    block, own, head_of_block = "", module_of(file), ""
    module = own
    while place < len(lines):
        line = lines[place]
        opened = BLOCK.match(line)
        if opened and not line.endswith("}"):
            head = opened[2]
            while not head.endswith("{"):
                place += 1
                head += " " + lines[place]
            name = (None, opened[1]) if opened[1] else name_of_impl(head[:-1].strip())
            module, block = homes.get(name[0], own), name[1] + "::"
            head_of_block = line[: opened.start(2)] + head if name[0] else None
        elif line == "}":
            module, block, head_of_block = own, "", ""
        elif head_of_block and line.startswith("    ghost use "):
            head_of_block = "\n".join([head_of_block, *item_at(lines, place)])
        head = HEAD.match(lines[place])
        if head and head[1] == (" " * 4 if block else ""):
            body, last = body_of(lines, place, head[1])
            first = first_of(lines, place)
            named = (it[1] for it in map(CYCLE.match, lines[first:place]) if it)
            at = first + 1, body + 1, last + 1
            cycle = next(named, "")
            found.append(Function(module, block + head[2], *at, cycle, head_of_block))
            place = last
        place += 1
    return found


def with_body(functions, line):
    """The function in whose body the line is, or None."""
    return next((it for it in functions if it.body < line < it.last), None)
