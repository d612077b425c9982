"""Which parts of a script are tried."""
import os
import sys


def is_without(tool):
    """Whether CHECK_WITHOUT leaves out what needs this tool."""
    return tool in os.environ.get("CHECK_WITHOUT", "").split()


def chosen(script, parts, names, left_out=()):
    """The parts of these names, or all if no name is given, without those that are left out. A name
    that no part has ends the script."""
    unknown = set(names) - {part.__name__ for part in parts}
    if unknown:
        sys.exit(f"{script}: unknown part: {' '.join(sorted(unknown))}")
    return [part for part in parts
            if part not in left_out and (not names or part.__name__ in names)]
