"""An honest client of a service beside hostile ones: how soon it is answered, and what the service takes meanwhile."""

import contextlib
import dataclasses
import gc
import math
import os
import pathlib
import signal
import socket
import statistics
import sys
import tempfile
import threading
import time

from bench.besiegers import PATIENCE, Besiegers
from harness import asking
from harness.sample_realm import write_configuration
from harness.server import Server

WORKERS = 4
# what `serve` takes by itself
CLIENTS, BUFFERS = 1_024, 32
ENDLESS = 4_294_967_295
# principals of the honest client, at the most
NAMES = 5_000
# the principal of the hostile ones, which they changed the password of once
HOSTILE = "hostile"
CHANGED = "code 0 password changed"
FULL = b"history full"
# unanswered requests after which a run ends
MOST_UNANSWERED = 5
# requests between two looks at the open files
A_LOOK = 20


def asked(port, text):
    """The reply to a request, over a connection of its own; none where there is none."""
    try:
        with socket.socket() as connection:
            connection.settimeout(PATIENCE)
            connection.connect(("127.0.0.1", port))
            connection.sendall(text)
            got = b""
            while len(got) < 4 or len(got) < 4 + int.from_bytes(got[:4], "big"):
                more = connection.recv(65_536)
                if not more:
                    return None
                got += more
            return got[4:]
    except OSError:
        return None


def ask_all(port, texts, look):
    """Seconds and reply of each request, and how often `history full` was told."""
    answers, full, unanswered = [], 0, 0
    gc.collect()
    gc.disable()
    for number, text in enumerate(texts):
        start = time.perf_counter()
        reply = asked(port, text)
        while reply is not None and reply.endswith(FULL) and time.perf_counter() - start < PATIENCE:
            full += 1
            reply = asked(port, text)
        answers.append((time.perf_counter() - start, reply))
        unanswered += reply is None
        if unanswered == MOST_UNANSWERED:
            break
        if number % A_LOOK == 0:
            look()
    gc.enable()
    return answers, full


def said(request, reply):
    """In words, also where there is no reply, or none that opens."""
    if reply is None:
        return "nothing"
    try:
        return asking.said(request, reply)
    except (ValueError, KeyError) as fault:
        return f"no reply: {fault!r}"


class Lines(threading.Thread):
    """Counts the lines that `serve` prints: one for each history that was full."""

    def __init__(self, stream):
        super().__init__(daemon=True)
        self.stream = stream
        self.histories = 0

    def run(self):
        for line in self.stream:
            self.histories += line.startswith("entries ")


class Watched:
    """What the system tells of the service."""

    def __init__(self, process):
        self.place = pathlib.Path(f"/proc/{process.pid}")
        self.files = 0
        try:
            # the peak from here on
            (self.place / "clear_refs").write_text("5")
        except OSError:
            print("the peak of memory counts from the program's start: /proc/PID/clear_refs can't be written")
        self.at_start = self.peak()

    def peak(self):
        """The most memory, in mebibytes."""
        for line in (self.place / "status").read_text().splitlines():
            if line.startswith("VmHWM:"):
                return int(line.split()[1]) / 1024
        return math.nan

    def look(self):
        # where it has ended, that is told at the end
        with contextlib.suppress(OSError):
            self.files = max(self.files, len(os.listdir(self.place / "fd")))


def percentile(times):
    """The 99th."""
    return sorted(times)[math.ceil(0.99 * len(times)) - 1]


class StatusAsker(threading.Thread):
    """Asks how the service stands, twenty times a second, until it is to leave: how long each answer took, in
    milliseconds, and how many weren't whole."""

    def __init__(self, server):
        super().__init__()
        self.path = str(server.control)
        self.is_over = threading.Event()
        self.times = []
        self.cut_off = 0

    def run(self):
        while not self.is_over.wait(0.05):
            start = time.monotonic()
            with socket.socket(socket.AF_UNIX) as asked:
                asked.connect(self.path)
                asked.sendall(b"status\n")
                text = b"".join(iter(lambda: asked.recv(4096), b""))
            self.times.append(1000 * (time.monotonic() - start))
            self.cut_off += not text.endswith(b"\nok\n")

    def leave(self):
        self.is_over.set()
        self.join()


@dataclasses.dataclass
class Run:
    """What came of one run; times in milliseconds."""

    times: list
    replies: list
    full: int
    histories: int
    at_start: float
    peak: float
    files: int
    stood: bool
    # what the hostile ones did before the first request and from then on, for so many seconds
    before: dict
    beside: dict
    seconds: float
    # what the service said where it ended by itself
    ended: str
    # how long it took to say how it stands, and how often it didn't
    status: list
    cut_off: int

    def rate(self):
        return 1000 * len(self.times) / sum(self.times)

    def median(self):
        return statistics.median(self.times)

    def late(self):
        """The 99th percentile."""
        return percentile(self.times)

    def longest(self):
        return max(self.times)


@contextlib.contextmanager
def service(options, names, entries=None):
    """A service that listens, with a journal of its own."""
    with tempfile.TemporaryDirectory(prefix="chpw-siege-") as folder:
        server = Server(options.server, pathlib.Path(folder), WORKERS, options.idle)
        server.seed = pathlib.Path("/dev/urandom")
        server.control = pathlib.Path(folder) / "control"
        server.options += ["--control", server.control]
        for name in ("clients", "buffers"):
            if getattr(options, name) is not None:
                server.options += [f"--{name}", getattr(options, name)]
        write_configuration(server.configuration, names, iterations=options.iterations, max_entries=entries)
        try:
            server.start(connections=ENDLESS)
            yield server
        finally:
            server.end()


def run(options, requests, entries, parts_of):
    """One run; `parts_of` tells the besiegers, by a request that was accepted."""
    with service(options, [*names_of(len(requests)), HOSTILE], entries) as server:
        watched = Watched(server.process)
        lines = Lines(server.process.stdout)
        besiegers = Besiegers(server.port, parts_of(accepted(server.port)))
        status = StatusAsker(server)
        try:
            lines.start()
            stood = besiegers.stand()
            watched.look()
            before, histories = besiegers.counts(), lines.histories
            start = time.monotonic()
            status.start()
            answers, full = ask_all(server.port, list(map(asking.framed, requests)), watched.look)
            status.leave()
            seconds = time.monotonic() - start
            beside = besiegers.counts()
            beside.subtract(before)
            histories = lines.histories - histories
            watched.look()
            peak = watched.peak()
        finally:
            besiegers.leave()
        ended = "" if server.process.poll() is None else server.process.stderr.read() or "with no word"
        server.stop(signal.SIGTERM)
        lines.join(PATIENCE)
    return Run(times=[1000 * took for took, _ in answers], replies=[reply for _, reply in answers], full=full,
               histories=histories, at_start=watched.at_start, peak=peak, files=watched.files, stood=stood, before=before,
               beside=beside, seconds=seconds, ended=ended, status=status.times, cut_off=status.cut_off)


def accepted(port):
    """A request of the hostile ones' that was."""
    request = asking.request_now(HOSTILE, "Hostile-pass1", 1)
    text = asking.framed(request)
    told = said(request, asked(port, text))
    if told != CHANGED:
        sys.exit(f"the first change is answered {told}")
    return text


def names_of(count):
    return [f"user{number:04}" for number in range(min(count, NAMES))]


def requests_of(count):
    """Changes that were asked for at this moment, each name's one after the other."""
    names = names_of(count)
    for number in range(count):
        yield asking.request_now(names[number % len(names)], f"New-pass{number}", number)
