"""How long proofs take, and how long is left of work that goes on.

docs/results/crates.csv has the processor seconds of crates. Machines differ, and other work slows them down: how fast this one
is shows in what has ended.
"""

import csv
import os
import time

from harness.command import TOP

CRATES = TOP / "docs/results/crates.csv"
# the seconds of a byte of sources where the table has no crate
BYTE = 0.0008
# for so many seconds a machine counts as being as fast as the tables have it
BELIEVED = 60


def table(file):
    """Seconds by name, of a file with a head and a row for each; none where there is no file."""
    if not file.exists():
        return {}
    with open(file, newline="", encoding="utf-8") as opened:
        return {row[0]: float(row[1]) for row in list(csv.reader(opened))[1:]}


def write_table(file, head, seconds):
    """Writes such a file, of whole seconds, by this word for what each is of."""
    with open(file, "w", newline="", encoding="utf-8") as opened:
        csv.writer(opened, lineterminator="\n").writerows([(head, "seconds"), *((it, round(own)) for it, own in seconds.items())])


def sources(crate):
    """What is known of each file that a crate's proof reads."""
    trees = [os.walk(TOP / "crates" / crate / it) for it in ("src", "specs", "proofs")]
    return [os.stat(f"{at}/{it}") for tree in trees for at, _, files in tree for it in files]


def of_proofs(crates):
    """About how many seconds of a processor each crate's proof takes: by the table, else by the size of its sources."""
    known = table(CRATES)
    sizes = {it: sum(file.st_size for file in sources(it)) for it in crates}
    both = known.keys() & sizes.keys()
    size = sum(sizes[it] for it in both)
    byte = sum(known[it] for it in both) / size if size else BYTE
    return {it: known.get(it, sizes[it] * byte) for it in crates}


def spoken(seconds):
    """A time that is to come, as it is told."""
    minutes = round(seconds / 60)
    return "less than a minute" if minutes < 1 else f"about {minutes} minute{'s' if minutes > 1 else ''}"


class Left:
    """How long is left of parts that take about so many seconds each of a processor, on so many of them."""

    def __init__(self, seconds, processors):
        self.seconds = seconds
        self.processors = processors
        self.began = time.time()

    def left(self, done, running=(), since=()):
        """The seconds that are left when these parts have ended, and those of `running` have run for so many seconds. `since`
        is when the parts began that run, one on each processor, where nobody knows which they are."""
        now = time.time()
        made = sum(self.seconds[it] for it in done) + sum(min(self.seconds[it], ran) for it, ran in dict(running).items())
        under_way = sum(now - it for it in since)
        spent = self.processors * (now - self.began) - under_way
        speed = (made + BELIEVED * self.processors) / (spent + BELIEVED * self.processors)
        rest = sum(self.seconds.values()) - made - speed * under_way
        return max(0, rest) / (speed * self.processors)
