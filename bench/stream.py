"""Microseconds to answer a message of a stream, from memory to memory, with a table that one thread has alone.

There are 2,000 changes of passwords in one realm, whose keys are derived under an iteration count of 1, so that all but the
derivation is seen: first in realms of 1,000 and of 10,000 principals, then in one of 100. A figure is the least of ROUNDS
rounds of processor time; what it takes to read the configuration and the messages is taken off. The program is built first if
a source has changed.
"""

import pathlib
import subprocess
import tempfile

from bench.build import built
from bench.timing import spent
from harness import wire as client
from harness.command import Parser
from harness.sample_realm import configuration

MESSAGES = 2_000


def name_of(number):
    return f"client{number:05}"


def lines(principals, messages):
    """The configuration, and the messages of clients that are spread over all of it."""
    names = map(name_of, range(principals))
    text = configuration(names, iterations=1, max_entries=1_000_000)
    yield from ("| " + line for line in text.splitlines())
    for i in range(messages):
        name = name_of(i * 7919 % principals).encode()
        yield client.request(name, f"Password-{i}".encode(), i).hex()


def write_input(path, principals, messages):
    path.write_text("".join(f"{line}\n" for line in lines(principals, messages)))


def micros(program, messages, rounds):
    """Microseconds of a message, by the least times of answering and of reading alone."""
    serving, reading = (min(spent([program, "stream", what, MESSAGES], messages) for _ in range(rounds)) for what in ("serve", "read"))
    return (serving - reading) / MESSAGES * 1e6


def main():
    parser = Parser(__doc__, "answered N us a message", "it can't be measured")
    parser.add_argument("rounds", nargs="?", type=int, default=5, metavar="ROUNDS", help="by default 5")
    rounds = parser.parse_args().rounds
    program = built("support_bench")
    with tempfile.TemporaryDirectory(prefix="chpw-stream-") as folder:
        messages = pathlib.Path(folder) / "messages"
        write_input(messages, 100, 1)
        with open(messages, encoding="utf-8") as first:
            subprocess.run([program, "stream", "serve", "1"], stdin=first, check=True)
        for principals in (1_000, 10_000, 100):
            write_input(messages, principals, MESSAGES)
            found = micros(program, messages, rounds)
            print(f"of {principals} principals {found:.0f} us" if principals > 100 else f"answered {found:.0f} us a message", flush=True)


if __name__ == "__main__":
    main()
