"""Tries `rt plant`'s wrong bodies on the libraries' contracts: those that a contract lets through have to be known.

`rt plant` makes wrong bodies by itself for each function, and lists those that are proved. trials/passing.csv has each that is
known to be, by crate, function and kind, and says why no clause refuses it. Any other is printed, and counts as unknown.

A crate whose texts are as they were when it was tried isn't tried again. What was tried is written into trials/plants.csv, a
line for each crate, unless a body is unknown: a sum of the crate, all crates below and the toolchain; the day; how many
functions had bodies planted, and how many bodies were refused, passed, and were not judged or not reached in the time.
`rt plant` checks the crate first, over what its checks kept.
"""

import csv
import datetime
import functools
import hashlib
import os
import re
import subprocess
import sys
from concurrent.futures import ThreadPoolExecutor
from typing import NamedTuple

from harness.command import TOP, Parser
from tools.source import crates
from trials.verdicts import Verdicts

PLANTS, PASSING = TOP / "trials/plants.csv", TOP / "trials/passing.csv"
HEAD = ("crate", "sum", "day", "functions", "refused", "passed", "not judged")
# a line of `rt plant`: the kind, where the function stands, its name, and the body
ROW = re.compile(r"(proves|no-ensures|untested) +\S+:\d+ (.+?)(?:\(\)|: \{.*)")
LAST = re.compile(r"plants crate=\w+ .*")
COUNT = re.compile(r"([\w-]+)=(\d+)")


class Passed(NamedTuple):
    """A body that passes: of which function, and of which kind."""
    crate: str
    function: str
    kind: str


@functools.lru_cache(None)
def all_below(crate):
    return frozenset(crates()[crate]).union(*map(all_below, crates()[crate]))


def rows(path):
    """The rows of a table below its head; none where there is no file."""
    if not path.exists():
        return []
    with open(path, newline="", encoding="utf-8") as file:
        return list(csv.reader(file))[1:]


def sum_of(texts, crate):
    """The sum of a crate, of all below it and of the toolchain."""
    found = hashlib.sha256(texts.kit)
    texts.add_crates(found, crate)
    return found.hexdigest()[:32]


def planted(crate, minutes):
    """What `rt plant` says of a crate: the bodies that pass, with its lines, and its counts; None if it ended without these."""
    command = ["rt", "plant", "--jobs", "1", "--minutes", str(minutes), "--max", "1000"]
    ended = subprocess.run(command, cwd=TOP / "crates" / crate, stdout=subprocess.PIPE, text=True, check=False)
    lines = ended.stdout.split("\n")
    last = next(filter(LAST.fullmatch, lines), None)
    if last is None:
        return None
    found = [(ROW.match(line), line) for line in lines]
    passed = [(Passed(crate, it[2], it[1]), line) for it, line in found if it and it[1] != "untested"]
    return passed, {name: int(count) for name, count in COUNT.findall(last)}


def row_of(texts, crate, count):
    """What is written down of a crate that was tried."""
    unjudged = sum(count[it] for it in ("elsewhere", "not-judged", "not-source", "not-run"))
    passed = count["proves"] + count["no-ensures"]
    return crate, sum_of(texts, crate), datetime.date.today(), count["planted-in"], count["refused"], passed, unjudged


def tried(texts, crate, minutes, known):
    """Tries a crate, and prints what passes and isn't known; its row, or None if there is none."""
    found = planted(crate, minutes)
    if found is None:
        print(f"{crate}: rt plant ended without an answer", flush=True)
        return None
    passed, count = found
    unknown = [line for it, line in passed if it not in known]
    for line in unknown:
        print(f"{crate}: {line}", flush=True)
    print(f"{crate}: {count['refused']} refused, {len(passed)} pass, {len(unknown)} of them unknown", flush=True)
    return None if unknown else row_of(texts, crate, count)


def write(found):
    """Writes the rows of crates into the table, in the order of their names."""
    with open(PLANTS, "w", newline="", encoding="utf-8") as file:
        csv.writer(file, lineterminator="\n").writerows([HEAD, *(found[it] for it in sorted(found) if it in crates())])


def libraries():
    return [it for it in crates() if (TOP / "crates" / it / "src/lib.rt").is_file()]


def main():
    parser = Parser(__doc__, "N crates tried, M not, K as they were", "M isn't 0")
    parser.add_argument("crates", nargs="*", metavar="CRATE", default=libraries(), help="by default all libraries")
    parser.add_argument("--minutes", type=int, default=10, metavar="N", help="for the bodies of one crate, by default 10")
    parser.add_argument("--jobs", type=int, default=len(os.sched_getaffinity(0)), metavar="N", help="so many crates side by side")
    given = parser.parse_args()
    texts = Verdicts(TOP / "trials/verdicts", TOP, all_below)
    found = {row[0]: row for row in rows(PLANTS)}
    known = {Passed(*row[:3]) for row in rows(PASSING)}
    left = [it for it in given.crates if it not in found or found[it][1] != sum_of(texts, it)]
    with ThreadPoolExecutor(given.jobs) as pool:
        ended = list(pool.map(lambda it: tried(texts, it, given.minutes, known), left))
    found.update((row[0], row) for row in ended if row)
    write(found)
    good = sum(row is not None for row in ended)
    print(f"{good} crates tried, {len(ended) - good} not, {len(given.crates) - len(left)} as they were")
    return good < len(ended)


if __name__ == "__main__":
    sys.exit(main())
