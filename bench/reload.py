"""Measures for how long a reload holds up decisions, and how soon `status` is answered.

`serve` has four workers and a large realm, each principal with three keys. Clients change passwords as fast as they are
answered, and one asks, request after request over one connection, for a password that is too short: such an answer takes a
fraction of a millisecond, so what it waits longer is what holds it up. First there is nothing beside them, and then reloads,
a second after one another, each of a file that has one principal more. Another client asks for `status` twenty times a
second all the time. A line for each has how many answers there were, the median, the 99th of 100 and the longest, in
milliseconds. No answer may be wrong.
"""

import itertools
import multiprocessing
import pathlib
import socket
import statistics
import tempfile
import time

from bench.sync import Changer
from harness import asking
from harness.command import Parser
from harness.report import Report
from harness.sample_realm import write_configuration
from harness.server import Server

CONNECTIONS = 4_294_967_295
TOO_SHORT = "code 4 password too short"
KEYS = 3
# how long the peace is
SECONDS = 5
OPTIONS = [
    ("principals", 10_000, "of the realm"),
    ("changers", 4, "clients that change passwords"),
    ("reloads", 10, "how often it is reloaded"),
    ("held", 200, "limit: milliseconds that an answer waits longer among the reloads than in peace"),
    ("status", 50, "limit: milliseconds within which 99 of 100 are answered"),
]


def ordered(folder, line):
    """The answer at the control socket, and how long it took, in milliseconds."""
    start = time.perf_counter()
    with socket.socket(socket.AF_UNIX) as it:
        it.connect(str(folder / "control"))
        it.sendall(f"{line}\n".encode())
        text = b""
        while more := it.recv(65_536):
            text += more
    return text.decode(), (time.perf_counter() - start) * 1_000


class Client(multiprocessing.Process):
    """Asks until it is told to stop; the times of all answers, and how many were wrong. A process of its own, so that it
    doesn't wait for what other clients compute."""

    def __init__(self):
        super().__init__(daemon=True)
        self.stops = multiprocessing.Event()
        self.receiver, self.sender = multiprocessing.Pipe(duplex=False)

    def run(self):
        times, wrong = [], 0
        for spent, is_right in self.answers():
            times.append(spent)
            wrong += not is_right
            if self.stops.is_set():
                break
        self.sender.send((times, wrong))

    def result(self):
        self.stops.set()
        found = self.receiver.recv()
        self.join()
        return found


class Asker(Client):
    """Asks for a password that is too short."""

    def __init__(self, port):
        super().__init__()
        self.port = port

    def answers(self):
        connection = asking.Connection(self.port)
        for number in itertools.count(1):
            request = asking.request_now("asker", "Ab1", number)
            start = time.perf_counter()
            connection.send(request)
            reply = connection.reply()
            yield (time.perf_counter() - start) * 1_000, asking.said(request, reply) == TOO_SHORT


class Watcher(Client):
    """Asks for the status, twenty times a second."""

    def __init__(self, folder):
        super().__init__()
        self.folder = folder

    def answers(self):
        while True:
            text, spent = ordered(self.folder, "status")
            yield spent, text.endswith("\nok\n")
            time.sleep(0.05)


def told(what, times):
    """The line of these times; the 99th of 100 and the longest."""
    last = statistics.quantiles(times, n=100)[98]
    print(f"{what}: {len(times)} answers, median {statistics.median(times):.1f} ms, 99th {last:.1f} ms, "
          f"longest {max(times):.1f} ms", flush=True)
    return last, max(times)


def measured(report, what, server, folder, work):
    """What the asker and the watcher saw while the work was done."""
    asker, watcher = Asker(server.port), Watcher(folder)
    asker.start()
    watcher.start()
    work()
    (asked, wrong), (watched, cut_off) = asker.result(), watcher.result()
    report.tell(f"{what}: wrong answers", (wrong, cut_off), (0, 0))
    _, longest = told(f"{what}: a password that is too short", asked)
    last, _ = told(f"{what}: status", watched)
    return longest, last


def main():
    parser = Parser(__doc__, "limits N failed M", "a limit is passed")
    parser.add_program()
    for name, usual, words in OPTIONS:
        parser.add_argument(f"--{name}", type=int, default=usual, metavar="N", help=f"{words}, by default {usual}")
    words = parser.parse_args()
    report = Report("limits {} failed {}")
    with tempfile.TemporaryDirectory(prefix="chpw-reload-") as place:
        folder = pathlib.Path(place)
        server = Server(words.server, folder, workers=4, options=["--control", "control"])
        names = ["asker", *(f"changer{it}" for it in range(words.changers))]
        names += [f"user{it:05}" for it in range(words.principals - len(names) - words.reloads)]
        write_configuration(server.configuration, names, versions=KEYS)
        server.launch(CONNECTIONS, cwd=folder)
        server.listens()
        changers = [Changer(server.port, f"changer{it}") for it in range(words.changers)]
        for it in changers:
            it.start()
        peace, last = measured(report, "in peace", server, folder, lambda: time.sleep(SECONDS))
        report.tell(f"status within {words.status} ms", last <= words.status, True)
        spent = []
        longest, last = measured(report, "reloads", server, folder, lambda: reload(report, server, folder, names, words, spent))
        print(f"reloads: {len(spent)}, median {statistics.median(spent):.0f} ms, longest {max(spent):.0f} ms")
        report.tell(f"held up for at most {words.held} ms ({longest - peace:.0f})", longest - peace <= words.held, True)
        report.tell(f"status within {words.status} ms", last <= words.status, True)
        for it in changers:
            it.stops.set()
            it.join()
        server.end()
    raise SystemExit(report.status())


def reload(report, server, folder, names, words, spent):
    for number in range(words.reloads):
        names.append(f"later{number:05}")
        write_configuration(server.configuration, names, versions=KEYS)
        text, took = ordered(folder, "reload")
        spent.append(took)
        report.tell(f"reload {number}", text.strip(), "ok")
        time.sleep(1)


if __name__ == "__main__":
    main()
