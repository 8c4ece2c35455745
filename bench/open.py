"""Microseconds to open an AP-REQ of a usual client, of about 700 bytes, and its KRB-PRIV.

That is what a request costs before its password is looked at. The figure is the least of ROUNDS rounds of processor time; the
start of the program is taken off by running two counts. The program is built first if a source has changed.
"""

import subprocess

from bench.build import built
from bench.timing import spent
from harness.command import TOP, Parser

MESSAGES = TOP / "crates/support_bench/stdin"
LOW, HIGH = 200, 4_200


def main():
    parser = Parser(__doc__, "open N us", "it can't be measured")
    parser.add_argument("rounds", nargs="?", type=int, default=15, metavar="ROUNDS", help="by default 15")
    rounds = parser.parse_args().rounds
    program = built("support_bench")
    with open(MESSAGES, encoding="utf-8") as messages:
        subprocess.run([program, "open", "it", "1"], stdin=messages, check=True)
    low, high = (min(spent([program, "open", "it", count], MESSAGES) for _ in range(rounds)) for count in (LOW, HIGH))
    print(f"open {(high - low) / (HIGH - LOW) * 1e6:.0f} us")


if __name__ == "__main__":
    main()
