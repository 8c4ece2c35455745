"""Measures how long a request waits for the journal's sync of another one.

`serve` has four workers, and each sync of its journal takes so many milliseconds (harness/machine.c). Clients change
passwords as fast as they are answered, none of them at first and then so many; beside them one client asks, one request
after the other, each over a connection of its own, of four kinds in turn: a password that is too short, a message that
was answered before, a forged ticket, and a change. A line for each number of changers and kind has the median and the
longest time from the request to its answer, in milliseconds. What each answer says is looked at. Needs gcc.

Only the change is written to the journal. A forged ticket is refused before any decision. The two others are decided
under the lock, since each decision has its place in the history.
"""

import os
import pathlib
import socket
import statistics
import subprocess
import sys
import tempfile
import threading
import time

from harness import asking, wire
from harness.command import TOP, Parser
from harness.report import Report
from harness.sample_realm import write_configuration
from harness.server import Server

WORKERS = 4
CONNECTIONS = 4_294_967_295
CHANGED = "code 0 password changed"
KINDS = {
    "too short": "code 4 password too short",
    "replayed": "code 3 error 34 request replayed",
    "forged ticket": "code 3 error 31 authentication failed",
    "a change": CHANGED,
}


def answered(port, message):
    """The reply, over a connection of its own."""
    with socket.create_connection(("127.0.0.1", port)) as it:
        it.sendall(len(message).to_bytes(4, "big") + message)
        text = b""
        while len(text) < 4 or len(text) < 4 + int.from_bytes(text[:4], "big"):
            more = it.recv(65_536)
            if not more:
                raise RuntimeError("no answer")
            text += more
    return text[4:]


class Changer(threading.Thread):
    """Changes the password of a principal until it is told to stop."""

    def __init__(self, port, name):
        super().__init__(daemon=True)
        self.port, self.name_changed, self.stops, self.done = port, name, threading.Event(), 0

    def run(self):
        while not self.stops.is_set():
            self.done += 1
            answered(self.port, asking.request_now(self.name_changed, f"Changer{self.done}", self.done).message)


class Asker:
    """Makes requests of each kind; no two have the same microseconds but one that is sent again."""

    def __init__(self, name):
        self.name, self.number = name, 0
        self.last = None

    def next(self, kind):
        self.number += 1
        if kind == "replayed":
            return self.last
        password = "Ab1" if kind == "too short" else f"New-pass{self.number}"
        request = asking.request_now(self.name, password, self.number)
        if kind == "forged ticket":
            now = request.ctime
            message = wire.request(self.name.encode(), password.encode(), self.number, ctime=now, starts=now - 60,
                                   service=bytes(32))
            return asking.Request(now, self.number, message)
        self.last = request
        return request


def measured(report, server, asker, count, changers):
    """The times of each kind."""
    times = {kind: [] for kind in KINDS}
    wrong = 0
    for _ in range(count):
        for kind, wanted in KINDS.items():
            request = asker.next(kind)
            start = time.perf_counter()
            reply = answered(server.port, request.message)
            times[kind].append((time.perf_counter() - start) * 1_000)
            wrong += asking.said(request, reply) != wanted
    for kind, its in times.items():
        print(f"{changers} changing: {kind}: median {statistics.median(its):.1f} ms, longest {max(its):.1f} ms")
    report.tell(f"{changers} changing: wrong answers", wrong, 0)


def main():
    parser = Parser(__doc__, "limits N failed M", "an answer is wrong")
    parser.add_program()
    parser.add_argument("--slow", type=int, default=20, metavar="MILLISECONDS", help="of a sync, by default 20")
    parser.add_argument("--count", type=int, default=50, metavar="N", help="requests of each kind, by default 50")
    parser.add_argument("--changers", type=int, nargs="*", default=[1, 3], metavar="N", help="by default 1 and then 3")
    arguments = parser.parse_args()
    report = Report("limits {} failed {}")
    with tempfile.TemporaryDirectory(prefix="chpw-sync-") as folder:
        library = pathlib.Path(folder) / "slow.so"
        subprocess.run(["gcc", "-shared", "-fPIC", "-O1", "-o", library, TOP / "harness/machine.c"], check=True)
        server = Server(arguments.server, pathlib.Path(folder), workers=WORKERS)
        names = [f"changer{number}" for number in range(max(arguments.changers, default=0))]
        write_configuration(server.configuration, ["asker", *names], iterations=16)
        try:
            server.start(CONNECTIONS, env={**os.environ, "LD_PRELOAD": str(library), "SLOW": str(arguments.slow)})
            asker = Asker("asker")
            for changers in [0, *arguments.changers]:
                threads = [Changer(server.port, name) for name in names[:changers]]
                for it in threads:
                    it.start()
                time.sleep(0.5 if threads else 0)
                measured(report, server, asker, arguments.count, changers)
                for it in threads:
                    it.stops.set()
                for it in threads:
                    it.join()
        finally:
            server.end()
    return report.status()


if __name__ == "__main__":
    sys.exit(main())
