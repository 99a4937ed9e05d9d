"""How a script of the tests takes its words, and what it prints last."""

import inspect
import os
import sys
from pathlib import Path

PLACES = {"program": os.path.abspath, "folder": lambda word: Path(word).resolve()}
LONGEST = 2_000  # characters of a line that is printed


def main(doc, run, then=lambda status: status):
    """Calls `run` with the words of the command line, which must take so many, and ends with the status that `then` makes of
    what it gives. What it names `program` or `folder` is given as a whole path."""
    try:
        given = inspect.signature(run).bind(*sys.argv[1:])
    except TypeError:
        end_with_usage(doc)
    for name in PLACES.keys() & given.arguments.keys():
        given.arguments[name] = PLACES[name](given.arguments[name])
    sys.exit(then(run(*given.args)))


def part(doc, tried):
    """The `main` of a part of the gate: `tried` gives the name of each thing that it tries, with a list of its faults."""
    main(doc, tried, reported)


def checks(doc, checked):
    """The same, where `checked` gives what would be wrong, each with whether all is well."""
    main(doc, checked, lambda found: reported((what, [] if is_well else [None]) for what, is_well in found))


def end_with_usage(doc):
    """Says how a script is used, as the text at its top does."""
    print(doc, end="", file=sys.stderr)
    sys.exit(2)


def reported(tried):
    """Prints a line for each fault, and last how much is as it must be; gives the status. A fault None is said by its name."""
    passed = failed = 0
    for name, faults in tried:
        passed, failed = passed + (not faults), failed + bool(faults)
        for fault in faults:
            print((name if fault is None else f"{name}: {fault}")[:LONGEST], flush=True)
    return ended(passed, failed)


def ended(passed, failed):
    """Prints the last line of a part, and gives its status."""
    print(f"{passed} passed, {failed} failed")
    return 1 if failed else 0


def same(what, wanted, found):
    """The faults of what is found: none where it is what is wanted."""
    return [] if wanted == found else [f"{what} must be {wanted!r} and is {found!r}"]
