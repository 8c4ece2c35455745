"""Dates stand in docs/RESULTS.md and docs/results, in CHANGELOG.md and at the head of decisions alone, but for examples in code."""

import re

DATED = {"docs/RESULTS.md", "CHANGELOG.md"}
DATED_FOLDERS = re.compile(r"docs/(decisions|results)/[\w-]+\.md")
DATE = re.compile(r"\b20\d\d-\d\d-\d\d\b")


def check(tree, faults):
    for document in tree.documents:
        if document.name in DATED or DATED_FOLDERS.fullmatch(document.name):
            continue
        for number, line in document.prose():
            found = DATE.search(re.sub(r"(`+).+?\1", "", line))
            faults.check(found is None, f"{document.name}:{number}", f"has a date: {found and found[0]}")
