"""Manual pages in the language of man(7), from the program's help texts."""
import time

import helps


def escaped(text):
    """A text of which man(7) reads no letter as a request."""
    text = text.replace("\\", "\\e").replace("-", "\\-")
    return "\\&" + text if text.startswith((".", "'")) else text


def with_lines(lines):
    """Lines as they are: those that are indented, or that follow one that is."""
    return [".nf", *map(escaped, lines), ".fi"]


def section(title, lines):
    return [f".SH {title}", *lines]


def entries(found):
    made = []
    for spelled, about in found:
        made += [".TP", f"\\fB{escaped(spelled)}\\fR", escaped(about)]
    return made


def paragraph(lines):
    """A paragraph of the help below its options: examples and lists keep their lines."""
    head, *rest = lines
    if any(it.startswith(" ") for it in rest):
        first = next(at for at, it in enumerate(lines) if it.startswith(" "))
        return [".PP", *map(escaped, lines[:first]), *with_lines(lines[first:])]
    if head.startswith("  "):
        return [".PP", *with_lines(lines)]
    return [".PP", *map(escaped, lines)]


def page(name, found, version, epoch, beside):
    """The manual page of a command; `beside` are the names of other pages."""
    date = time.strftime("%Y-%m-%d", time.gmtime(epoch))
    made = [f'.TH {escaped(name.upper())} 1 {date} "Bucketreed {version}" "User Commands"']
    made += section("NAME", [f"{escaped(name)} \\- {escaped(found.about)}"])
    made += section("SYNOPSIS", with_lines(found.usage))
    for heading, title in (("Arguments", "ARGUMENTS"), ("Options", "OPTIONS"),
                           ("Commands", "COMMANDS")):
        if heading in found.entries:
            made += section(title, entries(found.entries[heading]))
    below = [line for lines in found.rest for line in paragraph(lines)]
    made += section("DESCRIPTION", below) if below else []
    made += section("SEE ALSO", [escaped(", ".join(f"{it}(1)" for it in beside))])
    return "\n".join(made) + "\n"


def pages(program, version, epoch):
    """All manual pages, by the names of their files."""
    whole, found = helps.helps_of(program)
    names = [f"canary-{it}" for it in found]
    made = {"canary.1": page("canary", whole, version, epoch, names)}
    for command, its in found.items():
        made[f"canary-{command}.1"] = page(f"canary-{command}", its, version, epoch, ["canary"])
    return made
