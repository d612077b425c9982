"""Checks the names in documents, a part of documents.py.

- a crate, a module `canary_x::module` and what stands in it, `canary_x::module::name`, are there; a
  name that begins so may also be a family of `status --prometheus` or of a follower's report
- a name in backquotes that is written as code is (`is_broken`, `BookState`) stands in some source,
  script, test or example of the repository, or is one of another's (NOT_OURS)
- the first line of each file of specs/ and proofs/ says what it is about
- a module of proofs/ that another crate cites stands in the first table of docs/ARCHITECTURE.md,
  and on the page of its crate; such a module alone is `pub mod`"""
import re

CRATE = re.compile(r"(?<![\w/.-])(canary_[a-z_]+)\b(?!/)")
IN_CRATE = re.compile(r"(?<![\w/])(canary_\w+)::(\w+)(?:::(\w+))?(?:::(\w+))?")
# Words with an underscore or with a capital inside.
NAME = re.compile(r"[A-Za-z]\w*_\w+|[A-Z]?[a-z]+[A-Z]\w+|[A-Z][a-z]\w*[A-Z]\w*")
# How a file cites a module of proofs, by its suffix.
CITED = {
    ".antt": re.compile(r"^use Rattle\.(canary_\w+)\.proofs\.(\w+)", re.MULTILINE),
    ".rt": re.compile(r"\b(canary_\w+)::proofs::(\w+)"),
}
PUBLIC = re.compile(r"^pub mod (\w+)$")
EXCEPTIONS = "docs/ARCHITECTURE.md"
SOURCES = ("crates", "tests", "bench", "examples", ".ci")
# Programs that are built beside the crates.
PROGRAMS = {"canary_quick"}
# A text of `status --prometheus` with all families.
FAMILIES = "tests/page/textfile.prom"
# What has those of a report.
REPORTED = "examples/operations/following.py"
# Names of the kit, of systems, of programs by others, and names that a document makes up.
NOT_OURS = {
    "analysisRunMetadata", "LimitFSIZE", "O_NOFOLLOW", "RENAME_NOREPLACE", "set_step_limit",
    "writes_back",
}


def words_of_sources(root, files):
    """All words of the sources, of files that are text."""
    words = set()
    for file in files:
        is_source = file.relative_to(root).parts[0] in SOURCES and file.suffix != ".md"
        if is_source or file.parent == root and not file.suffix:
            try:
                words.update(re.findall(r"\w+", file.read_text(encoding="utf-8")))
            except UnicodeDecodeError:
                continue
    return words


def has_name(file, name):
    return re.search(rf"\b{name}\b", file.read_text(encoding="utf-8")) is not None


def fault_of_path(root, crate, names):
    """What is wrong with such a path of modules and names."""
    folder, path, names = root / "crates" / crate / "src", crate, list(names)
    while names and (folder / f"{names[0]}.rt").exists():
        file, folder, path = folder / f"{names[0]}.rt", folder / names[0], f"{path}::{names[0]}"
        names.pop(0)
    if path == crate:
        return f"there is no module {crate}::{names[0]}"
    lacking = [name for name in names if not has_name(file, name)]
    return f"{path} has no {lacking[0]}" if lacking else None


def families(root):
    text = (root / FAMILIES).read_text(encoding="utf-8")
    reported = (root / REPORTED).read_text(encoding="utf-8")
    return {*re.findall(r"^# TYPE (\w+) gauge$", text, re.MULTILINE),
            *re.findall(r'^    "(canary_\w+)":', reported, re.MULTILINE)}


def faults_of_crates(root, name, page):
    known = {folder.name for folder in (root / "crates").iterdir()} | PROGRAMS | families(root)
    for number, line in enumerate(page.text.split("\n"), 1):
        for crate in CRATE.findall(line):
            if crate not in known:
                yield name, number, f"there is no crate {crate}"
        for crate, *names in IN_CRATE.findall(line):
            fault = crate in known and fault_of_path(root, crate, [each for each in names if each])
            if fault:
                yield name, number, fault


def faults_of_code(name, page, words):
    for number, code in page.code():
        if NAME.fullmatch(code) and code not in words and code not in NOT_OURS:
            yield name, number, f"{code} is nothing in the repository"


def faults_of_heads(root):
    for folder in ("specs", "proofs"):
        for file in (root / "crates").glob(f"*/{folder}/*.antt"):
            if file.name != "Lib.antt" and not file.read_text(encoding="utf-8").startswith("-- "):
                yield file.relative_to(root).as_posix(), 1, "its first line does not say what it is"


def citations(root):
    """Each module of proofs that another crate cites, as the file, the crate and its module."""
    files = [(file, form) for suffix, form in CITED.items()
             for file in sorted((root / "crates").glob(f"*/*/**/*{suffix}"))]
    for file, form in files:
        name = file.relative_to(root)
        for other, module in form.findall(file.read_text(encoding="utf-8")):
            if other != name.parts[1]:
                yield name.as_posix(), other, module


def faults_of_exceptions(root, cited):
    """The modules of proofs that another crate cites, and the table of these does not have."""
    text = (root / EXCEPTIONS).read_text(encoding="utf-8")
    rows = [line.strip("| ").split(" | ") for line in text.split("\n")
            if line.startswith("| canary_")]
    named = {(crate, module) for cells in rows for crate in re.findall(r"canary_\w+", cells[0])
             for module in re.split(r", ", cells[1])}
    for name, other, module in cited:
        if (other, module) not in named:
            yield name, 1, f"{EXCEPTIONS} does not say that it cites {module} of {other}"


def faults_of_public(root, cited):
    """The modules of proofs that are public for nobody, and those that their page does not name."""
    modules = {(other, module) for _, other, module in cited}
    for file in sorted((root / "crates").glob("*/proofs/Lib.antt")):
        crate, name = file.parent.parent, file.relative_to(root).as_posix()
        page = (crate / "README.md").read_text(encoding="utf-8")
        lines = enumerate(file.read_text(encoding="utf-8").split("\n"), 1)
        for number, module in ((at, it) for at, line in lines for it in PUBLIC.findall(line)):
            if (crate.name, module) not in modules:
                yield name, number, f"no other crate cites {module}, so it is no `pub mod`"
            elif f"proofs/{module}" not in page:
                yield name, number, f"the crate's page does not name proofs/{module}"


def faults_of(root, files, pages):
    """Each fault as a page, a line and what is wrong."""
    words = words_of_sources(root, files)
    for file, page in pages.items():
        name = file.relative_to(root).as_posix()
        if not name.startswith("CHANGELOG"):
            yield from faults_of_crates(root, name, page)
            yield from faults_of_code(name, page, words)
    yield from faults_of_heads(root)
    cited = list(citations(root))
    yield from faults_of_exceptions(root, cited)
    yield from faults_of_public(root, cited)
