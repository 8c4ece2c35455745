"""Processor seconds of the drill over 200 principals for so many requests, each of which changes a key.

A figure is the least of three runs, less that of a script without requests. The program is built first if a source has changed.
"""

import tempfile

from bench.build import built
from bench.timing import spent
from harness.command import Parser

REQUESTS = [2_000, 40_000, 100_000, 1_000_000]
PRINCIPALS = 200
# requests of one second, so that some 30,000 ids are held at a time
EACH_SECOND = 100


def write_script(file, requests):
    """Each principal in turn, each time with another key; the first key of all is 00."""
    file.write("realm EXAMPLE.COM\npolicy 6 2 3 4096 no\n")
    for number in range(PRINCIPALS):
        file.write(f"principal client{number} 1 4096:00\n")
    file.write(f"open {max(requests, 1)} -1\n")
    for number in range(requests):
        turn, client = divmod(number, PRINCIPALS)
        second, micros = 1_000 + number // EACH_SECOND, number % EACH_SECOND
        times = f"{second} client{client} {second}.{micros} 0 9999999"
        file.write(f"ask {times} i - 9 3 4096:{turn % 255 + 1:02x}\n")


def drill_seconds(program, requests):
    with tempfile.NamedTemporaryFile("w", suffix=".script") as script:
        write_script(script, requests)
        script.flush()
        return spent([program], script.name)


def least_seconds(program, requests):
    return min(drill_seconds(program, requests) for _ in range(3))


def main():
    parser = Parser(__doc__, "N requests over 200 principals in S s", "it can't be measured")
    parser.add_argument("requests", nargs="*", type=int, default=REQUESTS, metavar="REQUESTS",
                        help="by default " + ", ".join(map(str, REQUESTS)))
    words = parser.parse_args()
    program = built("chpw_drill")
    empty = least_seconds(program, 0)
    for requests in words.requests:
        seconds = least_seconds(program, requests) - empty
        print(f"{requests} requests over {PRINCIPALS} principals in {seconds:.4f} s", flush=True)


if __name__ == "__main__":
    main()
