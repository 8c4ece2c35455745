"""What one has to read to believe a contract: the definitions that it rests on, each once.

    python3 -m tools.believe chpw_book Desk::close              the whole contract of a function
    python3 -m tools.believe chpw_book Desk::close legal        one or more of its clauses
    python3 -m tools.believe chpw_book RecordedTable            a type with its invariant
    python3 -m tools.believe chpw_book AtDesk as Decider        a type's instance of a trait
    python3 -m tools.believe chpw_book Desk::close + chpw_serve answer_message answers
                                                     several of these

Printed are the contracts, then each definition of this repository that they name, then those that these name, and so
on, the nearest first, each with its file; then the words that come from the libraries; and last
how much that is. Comments, imports and empty lines don't count.

Of an instance there is what its ghost members stand for, and what its methods say beyond the trait's clauses; the trait
is among the definitions. Laws are proofs, and so left out: what they show stands in the trait.

A type of the program is followed only through what contracts can see of it: of a type with a model its view, and of
that, as of any struct, only the fields of which the contract or a definition speaks. Its invariant is left out, since
no claim rests on it.
"""

import signal

from harness.command import Parser
from tools.source import Sources, contracts, count_of, rests_on


def main():
    parser = Parser(__doc__, "N lines in M definitions", "there is no such contract",
                    usage="python3 -m tools.believe [-h] [--list] CRATE PATH [CLAUSE ..] [+ CRATE PATH [CLAUSE ..]] ..\n"
                    "       python3 -m tools.believe [-h] [--list] CRATE TYPE as TRAIT [MEMBER ..] [+ ..] ..")
    parser.add_argument("--list", action="store_true", help="print files, names and counts of lines alone")
    parser.add_argument("word", nargs="+", metavar="WORD", help="a crate, a function or type of it, its clauses; by default all")
    given = parser.parse_args()
    sources = Sources()
    asked = contracts(sources, given.word)
    for it in [] if given.list else asked:
        print(f"-- {it.place}\n{it.text}\n")
    found, foreign = rests_on(sources, asked)
    for it in found:
        print(f"{it.lines():4} {it.place}: {it.name}" if given.list else f"-- {it.place}\n{it.text}\n")
    print("From the libraries:", ", ".join(sorted(foreign)))
    print(count_of(found))


if __name__ == "__main__":
    # whoever reads the first lines alone ends it, and sees nothing of that
    signal.signal(signal.SIGPIPE, signal.SIG_DFL)
    main()
