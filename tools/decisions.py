"""Writes docs/decisions/README.md: the decisions by subject, from the heads of their pages.

A page is a file of docs/decisions: a title, a line `SUBJECT, DATE`, a paragraph with what was chosen, and **Why.** with
the reason. The list has the words of its name. Some other document links to each.
"""

import re
import sys

from tools.made import add_check, make
from tools.source import TOP
from harness.command import Parser

FOLDER = TOP / "docs" / "decisions"
FILE = FOLDER / "README.md"
FORM = re.compile(r"# (.+)\n\n([a-z]+), (\d{4}-\d\d-\d\d)\n\n.+\n\n\*\*Why\.\*\* .+\n")
SUBJECTS = {
    "structure": "Structure", "decision": "The decision", "keys": "Keys", "messages": "Messages", "connections": "Connections",
    "service": "The service", "journal": "The journal", "lookups": "The book and lookups", "kdc": "The KDC",
    "configuration": "Configuration",
}
HEAD = """# Decisions

What the standards and our own rules leave open, what was chosen, and why. `tools.decisions` makes this list.

"""


def pages():
    """Each page, with its title, its subject and its date, which the form asks for."""
    for file in sorted(FOLDER.glob("*.md")):
        if file != FILE:
            match = FORM.fullmatch(file.read_text())
            if match is None or match[2] not in SUBJECTS:
                sys.exit(f"{file.relative_to(TOP)}: hasn't the form that --help describes")
            yield file, *match.groups()


def document(found):
    """The list: of each subject its pages, in the order of their names."""
    parts = [HEAD]
    for subject, heading in SUBJECTS.items():
        links = (f"[{file.stem.replace('-', ' ')}]({file.name})" for file, _, its, _ in found if its == subject)
        parts.append(f"- {heading}: {', '.join(links)}\n")
    return "".join(parts)


def without_link(found):
    """The pages to which no document but the list links."""
    texts = [it.read_text() for it in TOP.rglob("*.md") if it != FILE and "out" not in it.parts]
    linked = set(re.findall(r"\]\((?:[\w./-]*/)?([\w-]+\.md)\b", "\n".join(texts)))
    return [file for file, *_ in found if file.name not in linked]


def main():
    parser = Parser(__doc__, None, "a page hasn't the form or no document links to it, or, with --check, the list differs")
    add_check(parser, "whether the list differs")
    given = parser.parse_args()
    found = list(pages())
    if lost := without_link(found):
        sys.exit(f"no document links to {', '.join(str(it.relative_to(TOP)) for it in lost)}")
    make(FILE, document(found), given.check, "docs/decisions/README.md differs from the pages: run python3 -m tools.decisions")


if __name__ == "__main__":
    main()
