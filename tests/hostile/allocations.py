"""Each allocation refused in turn: of programs, and of a service.

A program is run once with all memory, and then once for each of the allocations that it made, which is refused; no run is left
out (allocation_runs.py). So is `serve` (allocation_service.py). What a call leaves that was refused memory is a clause of its
contract. Needs gcc.

A line of the output says where the refused allocations fell: `refused`, the program ended so; `beside`, it left a warning out;
`nowhere`, where it did without, as a list does that was to grow by a hint.
"""

import concurrent.futures
import functools
import os
import pathlib
import sys
import tempfile

from harness.command import PROGRAM, TOP, Parser
from harness.sample_realm import write_configuration
from harness.server import Server
from tests.hostile import allocation_runs, allocation_service
from tests.hostile.refusing import Refusing, library, report, sweep

SCRIPT = TOP / "samples/drill/changes.script"


def arguments():
    parser = Parser(__doc__, "calls N, refused allocations M, failed F")
    parser.add_program("--server", PROGRAM)
    return parser.parse_args()


def swept_service(made, program):
    run = functools.partial(allocation_service.serve, Refusing(made, "/"), program)
    return sweep("serve", run, allocation_service.place, ["refused", "a connection ended"])


def sweeps(given, made, port):
    """What is swept, the longest first."""
    script = SCRIPT.read_text()
    yield functools.partial(swept_service, made, given.server)
    for command in allocation_runs.COMMANDS:
        yield functools.partial(allocation_runs.swept_command, made, given.server, script, port, command)
    for case in allocation_runs.cases():
        yield functools.partial(allocation_runs.swept_case, made, *case)


def swept(given, folder):
    """All that is swept, beside a service for the command `client`."""
    server = Server(given.server, pathlib.Path(folder), workers=1)
    write_configuration(server.configuration, ["alice", "bob"], iterations=4)
    server.start("unlimited")
    try:
        with concurrent.futures.ThreadPoolExecutor(os.cpu_count()) as pool:
            yield from pool.map(lambda it: it(), sweeps(given, library(folder), server.port))
    finally:
        server.end()


def main():
    given = arguments()
    calls = refused = failed = 0
    with tempfile.TemporaryDirectory() as folder:
        for it in swept(given, folder):
            report(it)
            calls += 1
            refused += sum(it.fell.values())
            failed += len(it.faults)
    print(f"calls {calls}, refused allocations {refused}, failed {failed}")
    return 1 if failed or not calls else 0


if __name__ == "__main__":
    sys.exit(main())
