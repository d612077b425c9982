"""Cuts functions off: their clauses stay, and their bodies call a function whose clause is false,
which proves whatever they ensure. So they are proved in no time, and the functions that call them
as ever: each is proved against the clauses of the others. Such a copy is for a trial alone."""
from bodies import CYCLE

MODULE = "cut_off"
NEVER = """//! Proves everything.
unsafe extern "C" {
    safe fn rattle_never() -> u8
        ensures { ⊥ };
}

pub fn never() -> u8
    ensures { ⊥ }
{
    rattle_never()
}
"""
BODY = f"{{ let _ = crate::{MODULE}::never(); unreachable!() }}"


def cut_off(text, functions):
    """The text with these functions of it cut off. Each line keeps its number."""
    lines = text.split("\n")
    for function in functions:
        if function.body < function.last:
            opening = lines[function.body - 1].removesuffix("{")
            lines[function.body - 1] = opening + BODY
            lines[function.body : function.last] = [""] * (function.last - function.body)
            for place in range(function.first - 1, function.body):
                # It calls nothing any more.
                lines[place] = "" if CYCLE.match(lines[place]) else lines[place]
    return "\n".join(lines)


def add_never(texts):
    """Gives the crate of these texts, by their paths, the function that proves everything."""
    root = "src/main.rt" if "src/main.rt" in texts else "src/lib.rt"
    texts[root] += f"\nmod {MODULE};\n"
    texts[f"src/{MODULE}.rt"] = NEVER
