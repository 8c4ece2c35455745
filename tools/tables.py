"""Makes the tables of docs/RESULTS.md that come from data.

Such a table stands between a line `<!-- made by tools.tables WORDS -->` and a line `<!-- end of tools.tables -->`. WORDS are

    runs TABLE           the newest row of each run of that table in docs/results/runs.csv
    brief TABLE          how many of these there are, and what came of those that didn't pass at once
    csv NAME             docs/results/NAME.csv

In runs.csv a row is a run, and one further down is the newer one of the same `table` and `run`. `result` has the last line that was
printed, or the figures; `program` says whether it was proved, `load` whether anything else ran beside it; what isn't known is left
empty. Rows of a table that no document names, such as `once`, are kept as a record. bench.all and tests.clients.compare write their own files
of docs/results/.
"""

import csv
import re
import sys

from harness.command import TOP, Parser
from tools.made import add_check, remake

DATA = TOP / "docs/results"
DOCUMENT = TOP / "docs/RESULTS.md"
PART = re.compile(r"(^<!-- made by tools.tables (.*?) -->\n)(.*?)(^<!-- end of tools.tables -->$)", re.DOTALL | re.MULTILINE)
# The last line of a script of cases, of which the tables have the number alone.
CASES = re.compile(r"`cases (\d+) failed 0`")
# The last line of a script of which nothing failed.
PASSED = re.compile(r"`[^`]*\b(?:failed 0|0 (?:failed|not|wrong))`")


def rows_of(name):
    with open(DATA / f"{name}.csv", newline="") as file:
        return list(csv.reader(file))


def table(head, rows):
    """A table in Markdown."""
    lines = ["| " + " | ".join(it) + " |" for it in (head, *rows)]
    return "\n".join([lines[0], "|---" * len(head) + "|", *lines[1:]])


# ---- runs

def newest(name):
    """The last row of each run of a table, as a dictionary, the newest first."""
    head, *rows = rows_of("runs")
    last = {}
    for row in (dict(zip(head, it)) for it in rows):
        if row["table"] == name:
            last.pop(row["run"], None)
            last[row["run"]] = row
    return list(reversed(last.values()))


def said(row):
    """A run with what came of it."""
    found = CASES.fullmatch(row["result"])
    return f"{row['run']} {found[1]}" if found else f"{row['run']}: {row['result']}"


def groups(name, columns):
    """The runs of a table, those of one day and one source with the same in these columns together."""
    found = {}
    for row in newest(name):
        how = ", ".join(row[it] for it in columns if row[it])
        found.setdefault((row["date"], row["commit"], how), []).append(row)
    return found


def runs(name):
    """What came of the runs."""
    found = groups(name, ("program", "machine", "load", "cost"))
    if not any(date for date, _, _ in found):
        return table(["What", "Cost"], [[row["run"], row["cost"]] for row in reversed(newest(name))])
    return table(["Date", "Sources", "How", "Result"], [[*group, "; ".join(sorted(map(said, its)))] for group, its in found.items()])


def brief(name):
    """How many runs there are of each kind, and what came of those that didn't pass at once."""
    rows = [[*group, str(len(its)), "; ".join(sorted(said(it) for it in its if not PASSED.fullmatch(it["result"]))) or "all passed"]
            for group, its in groups(name, ("program",)).items()]
    return table(["Date", "Sources", "How", "Scripts", "But"], rows)


# ---- data

def whole(name):
    head, *rows = rows_of(name)
    return table(head, rows)


KINDS = {"runs": runs, "brief": brief, "csv": whole}


def made(words):
    kind, _, name = words.partition(" ")
    return KINDS[kind](name)


def main():
    parser = Parser(__doc__, None, "a table differs, with --check")
    add_check(parser, "a table that differs")
    given = parser.parse_args()

    def changed(text):
        return PART.sub(lambda it: f"{it[1]}\n{made(it[2])}\n\n{it[4]}", text)

    sys.exit(remake((DOCUMENT,), changed, given.check, "a table differs from its data"))


if __name__ == "__main__":
    sys.exit(main())
