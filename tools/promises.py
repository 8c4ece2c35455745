"""Writes docs/promises.md, which the repository doesn't keep: all promises, from the tables of the crates' READMEs, in the
order of crates.txt.

A table of promises is the first one of a README whose heading begins with `Promise`:
`| Promise | Call | Clause | Spec |`, or the same with `Call, clause` in one column or `Definition` for `Spec`.
"""

import pathlib
import re
import sys

from harness.command import Parser
from tools.source import CRATES, TOP, crates

FILE = TOP / "docs" / "promises.md"
HEAD = """# All promises

Made by `tools.promises` from the tables in the crates' READMEs, in the order of [crates.txt](../crates.txt): edit them
there. [PROOFS](PROOFS.md) says what a contract and a clause are, and which of them make up the main theorem. A file of
definitions without a path is that of `specs/` in the same crate.
"""


def table_of(text):
    """The lines of the first table of promises; none where there is none."""
    lines = text.splitlines()
    start = next((it for it, line in enumerate(lines) if re.match(r"\| Promise\b", line)), None)
    if start is None:
        return []
    end = next((it for it in range(start, len(lines)) if not lines[it].startswith("|")), len(lines))
    return lines[start:end]


def relinked(line, crate):
    """A line with its relative links as they are from docs/."""
    return re.sub(r"\]\((?!https?:|#|/)([^)]+)\)", rf"](../crates/{crate}/\1)", line)


def document(tables):
    """The page, of each crate's table."""
    parts, without = [HEAD], []
    for crate, table in tables.items():
        if table:
            lines = "\n".join(relinked(line, crate) for line in table)
            parts.append(f"## {crate}\n\n{lines}\n")
        else:
            without.append(f"[{crate}](../crates/{crate}/README.md)")
    if without:
        parts.append(f"## Crates without promises\n\nPrograms, cases and tests: {', '.join(without)}.\n")
    return "\n".join(parts)


def main():
    parser = Parser(__doc__, "ROWS promises of CRATES crates: FILE", "a crate has no README")
    parser.add_argument("--to", type=pathlib.Path, default=FILE, metavar="FILE", help="another file to write")
    file = parser.parse_args().to
    without = [it for it in crates() if not (CRATES / it / "README.md").is_file()]
    if without:
        sys.exit(f"no README.md of {', '.join(without)}")
    tables = {it: table_of((CRATES / it / "README.md").read_text()) for it in crates()}
    file.write_text(document(tables))
    rows = sum(len(table) - 2 for table in tables.values() if table)
    print(f"{rows} promises of {sum(map(bool, tables.values()))} crates: {file}")


if __name__ == "__main__":
    main()
