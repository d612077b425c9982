"""What the program's help texts say: the one source of its manual pages and completions."""
import re
import subprocess

# A word of `Arguments:` or `Options:`, and what it is about.
ENTRY = re.compile(r" {2,6}(\S.*?)(?: {2,}(.*))?")
COMMAND = re.compile(r"  ([a-z]+) {2,}(.*)")
HEADINGS = ("Arguments:", "Options:", "Commands:")


class Help:
    """The help of the program, or of one of its commands: what it is about, how it is called, its
    entries by their headings, and the paragraphs below them."""

    def __init__(self, text):
        paragraphs = [it.split("\n") for it in text.rstrip("\n").split("\n\n")]
        self.about = paragraphs[0][0]
        self.usage, self.entries, self.rest = [], {}, []
        for lines in paragraphs[1:]:
            if lines[0].startswith("Usage:"):
                self.usage = [it.removeprefix("Usage:").strip() for it in lines]
            elif lines[0] in HEADINGS:
                self.entries[lines[0].rstrip(":")] = [entry_of(it) for it in lines[1:]]
            else:
                self.rest.append(lines)

    def options(self):
        """Its long options, and the placeholder of the value that each takes, or none."""
        found = {}
        for spelled, _ in self.entries.get("Options", ()):
            if it := re.search(r"--([a-z-]+)(?: <([^>]+)>)?", spelled):
                found["--" + it[1]] = it[2]
        return found


def entry_of(line):
    found = ENTRY.fullmatch(line)
    return found[1], found[2] or ""


def help_of(program, *command):
    """What the program prints of itself, or of this command."""
    words = [program, *command, "--help"]
    made = subprocess.run(words, check=True, capture_output=True, text=True)
    return Help(made.stdout)


def helps_of(program):
    """The help of the program, and that of each of its commands, by name."""
    whole = help_of(program)
    names = [name for name, _ in whole.entries["Commands"] if name != "help"]
    return whole, {name: help_of(program, name) for name in names}


def asked_words(help_of_do):
    """The commands that `canary do` asks of a desk."""
    for lines in help_of_do.rest:
        if lines[0].startswith("Each COMMAND has these words"):
            return list(dict.fromkeys(it.split()[0] for it in lines[1:] if "--argo" not in it))
    return []
