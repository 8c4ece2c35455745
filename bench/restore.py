"""Processor seconds that `serve` takes to restore a journal in which each principal has as many records as another.

What it takes to start with an empty journal is taken off. The program is built first if a source has changed.
"""

import pathlib
import resource
import tempfile

from bench.build import built
from harness.command import Parser
from harness.journal import plain_record
from harness.sample_realm import write_configuration
from harness.server import Server

RECORDS = 1_048_576
PRINCIPALS = [100, 1_000, 10_000]
# coprime to the counts above, so that the principals follow one another in no order
STEP = 7_919


def names_of(principals):
    return [f"client{number:05}" for number in range(principals)]


def write_journal(path, records, names):
    """Each name in turn, one version after the other; the configuration has version 1."""
    with open(path, "wb") as file:
        for number in range(records):
            kvno, place = divmod(number, len(names))
            file.write(plain_record(names[place * STEP % len(names)], kvno + 2))


def start_seconds(server):
    """Processor seconds of `serve` until it listens."""
    before = resource.getrusage(resource.RUSAGE_CHILDREN)
    server.start(connections=1)
    server.end()
    after = resource.getrusage(resource.RUSAGE_CHILDREN)
    return after.ru_utime + after.ru_stime - before.ru_utime - before.ru_stime


def restore_seconds(program, records, principals):
    names = names_of(principals)
    with tempfile.TemporaryDirectory(prefix="chpw-restore-") as folder:
        server = Server(program, pathlib.Path(folder), workers=1)
        write_configuration(server.configuration, names)
        empty = start_seconds(server)
        write_journal(server.journal, records, names)
        return start_seconds(server) - empty


def add_sizes(parser, records, principals):
    """The words of the command line that say how long a journal is, and over how many principals; these by default."""
    parser.add_argument("records", nargs="?", type=int, default=records, metavar="RECORDS", help=f"by default {records}")
    parser.add_argument("principals", nargs="*", type=int, default=principals, metavar="PRINCIPALS",
                        help="by default " + ", ".join(map(str, principals)))


def main():
    parser = Parser(__doc__, "restored N records over M principals in S s", "it can't be measured")
    add_sizes(parser, RECORDS, PRINCIPALS)
    words = parser.parse_args()
    program = built("chpw_server")
    for principals in words.principals:
        seconds = restore_seconds(program, words.records, principals)
        print(f"restored {words.records} records over {principals} principals in {seconds:.1f} s", flush=True)


if __name__ == "__main__":
    main()
