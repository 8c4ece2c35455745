"""Holds the documents against the source.

Reads README.md, CONTRIBUTING.md, SECURITY.md, CHANGELOG.md, those of docs/ and each README.md of a folder, or the documents named, and
checks:

    links     relative links and their anchors lead somewhere
    names     crates, functions, modules and files that are named in backquotes exist
    tables    in a crate's table of promises, the calls, their clauses and their definitions exist; each public call with named
              clauses is in its README
    prose     a call with clauses in parentheses has them, a crate with definitions in brackets has these, and each identifier
              in backquotes stands in some source
    counts    numbers of crates, edits, tests, cases and samples are right, and no program of cases is left out
    made      what other scripts of tools/ write into the documents is as they would write it now
    reading   how many lines there are to read for a contract is what tools.believe prints
    lines     each line that the program prints on standard error stands in docs/ADMIN.md
    replies   the rows of PROTOCOL's decision have the codes and texts of the definition
    printed   what the manual pages quote, and the texts of PROTOCOL's frames, stand in some source
    commands  the program's commands and options, and those for a running service, are the same wherever they are written
    pages     the manual pages in packaging/man have the options and defaults of each command's help, and no others
    rooted    no command that is printed for root meets a name that the service's user could have made
    tasks     the blocks of docs/ADMIN.md that can be copied whole are those that tests.packages runs
    samples   blocks of commands, and the scripts of samples/drill, print what stands there (with --program)
    dates     no document but docs/RESULTS.md, docs/results, docs/decisions and CHANGELOG.md has a date
    papers    no file cites a paper by its number
    versions  the version and the toolchain that the program prints are those of CHANGELOG.md, of the documents, and of rt
    widths    no source, definition or proof has a line of more than 160 characters
    first     each crate's first line has its layer and its callers as crates.txt has them

A line is printed for each fault, `PLACE: what is wrong`. tools.check shows that such faults are found.
"""

import sys

from harness.command import Parser
from tools.doccheck import (commands, counts, dates, first_lines, lines, links, made, names, pages, papers, printed, prose, reading, replies, rooted,
                            samples, tables, tasks, versions, widths)
from tools.doccheck.tree import Faults, Tree

CHECKS = {
    "links": links.check,
    "names": names.check,
    "tables": tables.check,
    "prose": prose.check,
    "counts": counts.check,
    "made": made.check,
    "reading": reading.check,
    "lines": lines.check,
    "replies": replies.check,
    "printed": printed.check,
    "commands": commands.check,
    "pages": pages.check,
    "rooted": rooted.check,
    "tasks": tasks.check,
    "samples": samples.check,
    "dates": dates.check,
    "papers": papers.check,
    "versions": versions.check,
    "widths": widths.check,
    "first": first_lines.check,
}


def main():
    parser = Parser(__doc__, "N checked, M wrong", "M isn't 0")
    parser.add_program("--program", None, "the built chpw_server, to run the samples with")
    parser.add_argument("--only", choices=CHECKS, action="append", help="this check alone; may be repeated")
    parser.add_argument("documents", nargs="*", metavar="DOCUMENT", help="these documents alone")
    options = parser.parse_args()
    tree, faults = Tree(options.documents, options.program), Faults()
    for name in options.only or CHECKS:
        CHECKS[name](tree, faults)
    print(f"{faults.checked} checked, {faults.wrong} wrong")
    return 1 if faults.wrong else 0


if __name__ == "__main__":
    sys.exit(main())
