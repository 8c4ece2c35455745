"""Nanoseconds to look up the name in the middle of a realm at a desk, beside its lock.

They are taken by one worker, by each of four at once, and by one while another's decision holds the lock, for a second at a
time: first in realms of 100, 1,000 and 10,000 principals, then in one of 16. A figure is elapsed time, the least of ROUNDS
rounds, over the lookups of one worker; so the second needs four free processors. The program is built first if a source has
changed.
"""

import re
import subprocess

from bench.build import built
from harness.command import Parser


def nanos(program, principals):
    """The three figures of one run."""
    words = [program, "lookup", "time", str(principals)]
    line = subprocess.run(words, capture_output=True, text=True, check=True).stdout
    return [int(figure) for figure in re.findall(r"(\d+) ns", line)]


def main():
    parser = Parser(__doc__, "lookup N ns, four N ns, beside a held lock N ns", "it can't be measured")
    parser.add_argument("rounds", nargs="?", type=int, default=5, metavar="ROUNDS", help="by default 5")
    rounds = parser.parse_args().rounds
    program = built("support_bench")
    for principals in (100, 1_000, 10_000, 16):
        one, four, beside = map(min, zip(*(nanos(program, principals) for _ in range(rounds))))
        if principals > 16:
            print(f"of {principals} principals:", end=" ")
        print(f"lookup {one} ns, four {four} ns, beside a held lock {beside} ns", flush=True)


if __name__ == "__main__":
    main()
