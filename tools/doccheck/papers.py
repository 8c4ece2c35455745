"""No file cites a paper by its number or section."""

import re

from .tree import TOP

CITED = re.compile(r"\bpapers?\b[\s/'s]{0,4}(?:\d|section|§)|\bpapers/\w", re.IGNORECASE)


def check(tree, faults):
    for file in tree.files():
        if TOP / "tools" / "doccheck" in file.parents:
            continue
        try:
            text = file.read_text()
        except UnicodeDecodeError:
            continue
        found = CITED.search(text) if "paper" in text.lower() else None
        number = text.count("\n", 0, found.start()) + 1 if found else 0
        faults.check(found is None, f"{file.relative_to(TOP)}:{number}", "cites a paper")
