"""Changes a second of `serve` on this machine at 4096 iterations: one client and one worker, then four of each.

Each client changes the password of a principal of its own over one connection, one change after the other, and has made its
requests before the clock starts. Of the rounds the best counts. It takes port 48464. The program is built first if a source has
changed.
"""

import pathlib
import subprocess
import tempfile
import time
from concurrent.futures import ThreadPoolExecutor

from bench.build import built
from harness.asking import Connection, request_now, said
from harness.changing import CHANGED
from harness.command import Parser
from harness.sample_realm import write_configuration
from harness.server import Server

PORT = 48_464
NAMES = [f"c{number}" for number in range(16)]


class Failed(Exception):
    """Why a round can't be measured."""


def asked(port, requests):
    """The replies to a client's requests, each sent once the one before is answered."""
    connection = Connection(port)
    try:
        for request in requests:
            connection.send(request)
            yield connection.reply()
    finally:
        connection.close()


def one_round(program, folder, clients, changes):
    """Changes a second of so many clients, and as many workers."""
    server = Server(program, folder, workers=clients)
    server.port = PORT
    write_configuration(server.configuration, NAMES)
    server.start(connections=clients)
    requests = [[request_now(name, f"New-pass{number}", number) for number in range(changes)] for name in NAMES[:clients]]
    try:
        began = time.monotonic()
        with ThreadPoolExecutor(clients) as pool:
            replies = list(pool.map(lambda of_client: list(asked(PORT, of_client)), requests))
        took = time.monotonic() - began
        server.process.communicate(timeout=60)
    except (OSError, subprocess.SubprocessError) as fault:
        raise Failed(fault) from fault
    finally:
        server.end()
    if server.process.returncode != 0:
        raise Failed("serve failed")
    pairs = [pair for each in zip(requests, replies) for pair in zip(*each)]
    if not all(reply and said(request, reply) == CHANGED for request, reply in pairs):
        raise Failed("a change wasn't answered with code 0")
    return len(pairs) / took


def best(program, rounds, clients, changes):
    found = []
    for _ in range(rounds):
        with tempfile.TemporaryDirectory(prefix="chpw-serve-") as folder:
            found.append(one_round(program, pathlib.Path(folder), clients, changes))
    return max(found)


def main():
    parser = Parser(__doc__, "changes c1 N c4 N", "a round fails")
    parser.add_argument("rounds", nargs="?", type=int, default=3, metavar="ROUNDS", help="by default 3")
    parser.add_argument("changes", nargs="?", type=int, default=500, metavar="CHANGES", help="of each client, by default 500")
    words = parser.parse_args()
    program = built("chpw_server")
    try:
        one, four = (best(program, words.rounds, clients, words.changes) for clients in (1, 4))
    except Failed as fault:
        parser.exit(1, f"{parser.prog}: {fault}\n")
    print(f"changes c1 {one:.0f} c4 {four:.0f}")


if __name__ == "__main__":
    main()
