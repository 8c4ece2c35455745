"""Honest clients over TCP and UDP of the service, and of MIT's kadmind, beside junk: the sieges 7 to 12 of siege.py.

One client asks over TCP, over a connection of its own each time, and four over UDP, each request in one datagram that is sent
once. They ask at a pace, for as long as the siege lasts; their requests are made before. The servers have the same users and
keys (harness/three_servers.py), and the same junk, one after the other.
"""

import contextlib
import dataclasses
import pathlib
import random
import statistics
import subprocess
import tempfile
import threading
import time

from bench.besieged import CLIENTS
from bench.besiegers import SETTLED, Besiegers, Silent, forged
from harness import crafting, three_servers, wire

# users of the client over TCP, and of those over UDP
OVER_TCP, OVER_UDP = "tcp", ("udp1", "udp2", "udp3", "udp4")
# seconds between two requests of a client, and for which it waits for an answer; the limit of TCP's, milliseconds
PACE, PATIENCE, LATE = 0.1, 1, 100
# datagrams of a sender at the most, by second; and how many there are to choose from
MOST, KINDS = 2_000_000, 64


def random_bytes():
    """Of any length, as they come."""
    return random.randbytes(random.randrange(9, 700))


def framed_junk():
    """A whole frame of RFC 3244, whose AP-REQ and KRB-PRIV have the right tag and length and no sense."""
    return wire.framed(0xFF80, wire.tlv(0x6E, random.randbytes(random.randrange(100, 500))), wire.tlv(0x75, random.randbytes(100)))


def forged_junk():
    """A request that has all it needs, whose ticket nobody sealed."""
    return forged(random.randrange(100, 300))


@dataclasses.dataclass(frozen=True)
class Siege:
    what: str
    junk: object = None
    senders: int = 0


SIEGES = {
    7: Siege("silent connections, as many as there are places"),
    8: Siege("one sender of random bytes", random_bytes, 1),
    9: Siege("three senders of random bytes", random_bytes, 3),
    10: Siege("one sender of frames without a request", framed_junk, 1),
    11: Siege("three senders of frames without a request", framed_junk, 3),
    12: Siege("three senders of requests with forged tickets", forged_junk, 3),
}


class Honest(threading.Thread):
    """Asks at a pace until the time is over; `times` has the milliseconds of each answer, and None where there was none."""

    def __init__(self, user, ask, options):
        super().__init__()
        self.ask, self.seconds, self.times = ask, options.seconds, []
        # a password that is refused needs no derivation of keys
        self.wanted, self.password = ("code 4", b"%d") if options.short else ("code 0", b"Junk-pass%d")
        self.drafts = [self.draft(user, number) for number in range(int(options.seconds / PACE))]

    def draft(self, user, number):
        made = crafting.Draft(client=user.encode(), cusec=number, now=int(time.time()), service=three_servers.SERVICE_KEYS,
                              kvno=three_servers.KVNO, version=1, password=self.password % number)
        return made, made.message()

    def run(self):
        end = time.monotonic() + self.seconds
        for draft, message in self.drafts:
            begun = time.monotonic()
            if begun > end:
                break
            told = crafting.told(draft, self.ask(message, PATIENCE))
            took = time.monotonic() - begun
            self.times.append(1000 * took if told == self.wanted else None)
            time.sleep(max(0, PACE - took))


@dataclasses.dataclass
class Figures:
    """Of one server: milliseconds of the answers over TCP and over UDP, None where none came; junk a second."""

    tcp: list
    udp: list
    sent: float

    @staticmethod
    def share(times):
        return sum(it is not None for it in times) / len(times)

    def line(self, name):
        words = []
        for what, times in (("TCP", self.tcp), ("UDP", self.udp)):
            made = [it for it in times if it is not None]
            spread = f", median {statistics.median(made):.1f} ms, longest {max(made):.1f} ms" if made else ""
            words.append(f"{what} {len(made)} of {len(times)} answered{spread}")
        return f"  {name}: {'; '.join(words)}; {self.sent:,.0f} datagrams of junk a second"


@contextlib.contextmanager
def senders(siege, program, port, seconds):
    """The senders, who end by themselves; gives a list that has how many datagrams each sent, afterwards."""
    datagrams = b"".join(len(it).to_bytes(2, "big") + it for it in (siege.junk() for _ in range(KINDS)))
    running, sent = [], []
    try:
        for _ in range(siege.senders):
            words = [program, str(port), str(seconds), str(int(MOST * seconds))]
            running.append(subprocess.Popen(words, stdin=subprocess.PIPE, stdout=subprocess.PIPE, start_new_session=True))
            running[-1].stdin.write(datagrams)
            running[-1].stdin.close()
        yield sent
        sent += [int(it.stdout.read() or 0) for it in running]
    finally:
        for it in running:
            it.kill()
            it.wait()


def besieged(server, siege, options, program):
    """What the honest clients get of a server beside the siege."""
    seconds, places = options.seconds, options.clients or CLIENTS
    over_tcp = lambda message, patience: crafting.over_tcp(server.tcp, message, seconds=patience)
    over_udp = lambda message, patience: crafting.over_udp(server.udp, message, patience)
    clients = [Honest(OVER_TCP, over_tcp, options), *(Honest(user, over_udp, options) for user in OVER_UDP)]
    besiegers = Besiegers(server.tcp, () if siege.junk else [(Silent, places, b"")])
    try:
        besiegers.stand()
        with senders(siege, program, server.udp, seconds + SETTLED) if siege.junk else contextlib.nullcontext([]) as sent:
            time.sleep(SETTLED if siege.junk else 0)
            for it in clients:
                it.start()
            for it in clients:
                it.join()
    finally:
        besiegers.leave()
    return Figures(clients[0].times, [time_ for it in clients[1:] for time_ in it.times], sum(sent) / (seconds + SETTLED))


def ours(options):
    server = three_servers.Ours(options.server, [OVER_TCP, *OVER_UDP], ())
    for name in ("clients", "buffers"):
        if getattr(options, name) is not None:
            server.server.options += [f"--{name}", getattr(options, name)]
    return server


def compiled(folder):
    program = pathlib.Path(folder) / "junk"
    subprocess.run(["gcc", "-std=c11", "-O2", "-Wall", "-Wextra", "-Werror", "-o", program, pathlib.Path(__file__).with_name("junk.c")], check=True)
    return program


def measure(report, options, numbers):
    """Each siege of the service, and then of kadmind, where its packages can be had."""
    lacking = three_servers.packages_are_there()
    if lacking is not None:
        print(f"kadmind isn't there to be compared with: {lacking}", flush=True)
    with tempfile.TemporaryDirectory(prefix="chpw-junk-") as folder:
        program = compiled(folder)
        for number in numbers:
            siege = SIEGES[number]
            print(f"junk {number}: {siege.what}", flush=True)
            with ours(options) as server:
                found = besieged(server, siege, options, program)
                report.tell(f"{number}: the service ended by itself", server.has_ended(), False)
            print(found.line(three_servers.Ours.NAME), flush=True)
            beside = None
            if lacking is None:
                with three_servers.MitServer(None, [OVER_TCP, *OVER_UDP], ()) as server:
                    beside = besieged(server, siege, options, program)
                print(beside.line(three_servers.MitServer.NAME), flush=True)
            tell(report, number, found, beside)


def tell(report, number, found, beside):
    """A line for each limit."""
    late = [it for it in found.tcp if it is None or it > LATE]
    report.tell(f"{number}: of {len(found.tcp)} over TCP not answered within {LATE} ms", len(late), 0)
    if beside is not None:
        ours_, its = found.share(found.udp), beside.share(beside.udp)
        what = f"{number}: of a hundred over UDP {100 * ours_:.0f} answered, by kadmind {100 * its:.0f}: no fewer"
        report.tell(what, ours_ >= its, True)
