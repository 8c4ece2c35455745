"""The first line of each crate says its layer, what it touches and who calls it, and crates.txt says the same.

It is `//! Layer: X. Touches: Y. Called by: Z.` in src/lib.rt or src/main.rt. X is the heading of crates.txt above the crate, up to its
colon. Z names the crates that use it: all that aren't under the heading Tests, or all where only tests use it. It may name some
and end with `and others above`, or be `most crates above`. `nobody`, with a reason or without, is right where no crate uses it.
"""

import re

from tools.picture import layers
from tools.source import crates

from .tree import TOP

TESTS = "Tests"
LINE = re.compile(r"//! Layer: (?P<layer>[^.]+)\. Touches: (?P<touched>[^.]+)\. Called by: (?P<callers>[^.]+)\.")
OTHERS, MOST, NOBODY = "others above", "most crates above", "nobody"


def check(tree, faults):
    uses, layer_of = crates(), {name: layer for layer, _, names in layers() for name in names}
    for name in tree.crates:
        users = [it for it in uses if name in uses[it]]
        file = first_file(name)
        place = f"{file.relative_to(TOP)}:1"
        line = LINE.fullmatch(file.read_text().partition("\n")[0])
        if faults.check(line, place, "isn't //! Layer: .. Touches: .. Called by: .."):
            layer = layer_of.get(name, "none")
            layer = layer[0].lower() + layer[1:]
            faults.check(line["layer"] == layer, place, f"has the layer {line['layer']}, and crates.txt has {layer}")
            check_callers(faults, place, line["callers"], users, [it for it in users if layer_of[it] != TESTS])


def first_file(name):
    folder = TOP / "crates" / name / "src"
    return next((it for it in (folder / "lib.rt", folder / "main.rt") if it.is_file()), folder / "lib.rt")


def check_callers(faults, place, text, users, no_tests):
    """Whether the callers that a line names are a crate's users."""
    if text.split(",")[0] == NOBODY:
        faults.check(not users, place, f"nobody calls it, and {', '.join(users)} uses it")
    elif text == MOST:
        faults.check(len(users) > 1, place, "most crates above call it, and at most one does")
    else:
        named = re.split(r", | and ", text)
        has_others = named[-1] == OTHERS
        named = named[:-1] if has_others else named
        for it in named:
            faults.check(it in users, place, f"is called by {it}, which doesn't use it")
        for it in no_tests or users:
            faults.check(has_others or it in named, place, f"doesn't name {it}, which uses it")
        faults.check(not has_others or set(users) - set(named), place, "has others above that call it, and there are none")
