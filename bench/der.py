"""Megabytes read and written a second, of an AP-REQ of about 700 bytes with its ticket.

The program is built first if a source has changed. Of ROUNDS rounds of processor time the least counts, of a high and of a
low count of texts; a figure is what the high count takes longer, so that the start of the program is taken off.
"""

import subprocess

from bench.build import built
from bench.timing import spent
from harness.command import Parser

LOW, HIGH = 10_000, 210_000


def megabytes(program, what, size, rounds):
    """Megabytes a second, by the least times of either count."""
    low = min(spent([program, "der", what, LOW]) for _ in range(rounds))
    high = min(spent([program, "der", what, HIGH]) for _ in range(rounds))
    return size * (HIGH - LOW) / (high - low) / 1e6


def main():
    parser = Parser(__doc__, "read R written W", "it can't be measured")
    parser.add_argument("rounds", nargs="?", type=int, default=7, metavar="ROUNDS", help="by default 7")
    rounds = parser.parse_args().rounds
    program = built("support_bench")
    once = subprocess.run([program, "der", "read", "1"], capture_output=True, text=True, check=True)
    size = int(once.stdout.split()[0])
    print(f"an AP-REQ of {size} bytes")
    print("read {:.0f} written {:.0f}".format(*(megabytes(program, what, size, rounds) for what in ("read", "write"))))


if __name__ == "__main__":
    main()
