"""Copies contracts and definitions from the sources into documents.

A quote is a fenced block below a comment that says what stands in it:

    <!-- contract CRATE PATH -->                 a function's signature and contract
    <!-- clause CRATE PATH NAME .. -->           these clauses alone
    <!-- definition CRATE MODULE NAME .. -->     definitions of specs/MODULE.antt, with their comments
    <!-- type CRATE NAME -->                     a type, with its invariant
    <!-- believe CRATE PATH NAME .. -->          how much tools.believe has one read for these words
"""

import pathlib
import re
import sys
import textwrap

from harness.command import Parser
from tools.made import add_check, remake
from tools.source import CRATES, TOP, Sources, clauses_of, contracts, count_of, items, rests_on

QUOTE = re.compile(
    r"(<!-- (contract|clause|definition|type|believe) (\S+) (.*?) -->\n+```(\w+)\n)(.*?)(^```$)", re.DOTALL | re.MULTILINE
)


def quoted(sources, kind, crate, words):
    """What stands in the sources."""
    if kind == "believe":
        return count_of(rests_on(sources, contracts(sources, [crate, *words]))[0])
    if kind == "definition":
        module, *names = words
        path = CRATES / crate / "specs" / f"{module}.antt"
        found = items(sources.text(path))
        missing = [it for it in names if it not in found]
        if missing:
            sys.exit(f"{path.relative_to(TOP)} has no {', '.join(missing)}")
        return "\n\n".join(textwrap.dedent(found[it]) for it in names)
    path, *clauses = words
    text = sources.contract(crate, path, clauses).text
    if kind == "clause":
        text = "\n".join(it.lstrip("\n") for it in clauses_of(text)[1].values())
    return textwrap.dedent(text)


def main():
    parser = Parser(__doc__, None, "a quote differs, with --check, or has no source")
    add_check(parser, "a quote that differs")
    parser.add_argument("file", nargs="*", metavar="FILE", default=[TOP / "README.md", TOP / "docs" / "PROOFS.md"],
                        help="by default README.md and docs/PROOFS.md")
    given = parser.parse_args()
    sources = Sources()

    def changed(text):
        return QUOTE.sub(lambda it: it[1] + quoted(sources, it[2], it[3], it[4].split()) + "\n" + it[7], text)

    sys.exit(remake(map(pathlib.Path, given.file), changed, given.check, "a quote differs from the sources"))


if __name__ == "__main__":
    main()
