"""Measures an honest client of `serve` beside hostile ones.

The honest client changes the passwords of many principals, one after the other, each over a connection of its own;
its requests are made before the clock starts, and the replies opened after it stopped. Each siege is two runs of
four workers with the same requests, each with a journal of its own: first in peace, then beside the hostile
clients, which are processes of their own and have stood for two seconds. The sieges:

    1  nobody: how far two runs lie apart anyway
    2  2,000 connections that keep silent
    3  200 that announce the longest message and send it a byte a second
    4  16 that send requests and read no reply, with the smallest receive buffer there is
    5  all of these, and one that runs the history of 1,000 entries full again and again
    6  1,000 that send, as fast as they can, the message that costs the most to refuse: one of 65,535 bytes whose
       ticket is forged and nearly as long, so that all of it is deciphered

    7       as many silent connections as there are places
    8, 9    one sender of random datagrams, and three, as fast as the system takes them
    10, 11  the same of whole frames without a request
    12      three senders of requests whose ticket is forged

7 to 12 (junk.py) are compared with MIT's kadmind beside the same, if Debian's packages can be had, and not with peace:
clients change passwords over TCP and over UDP, where each request is sent once. The limits: over TCP each is answered
within 100 ms; over UDP no fewer than by kadmind. They need gcc.

A hostile connection that has ended comes again a second later. The requests of siege 4 don't open, so that what is
measured isn't the memory of the history; those of siege 5 do. There an honest request may be told `history full`;
it is asked again, and its time goes on.

A file is open or memory in use for the service alone. Its memory at the start is that of a service which listens, and the
peak is that since then. The limits: in sieges 2 to 5 the median at most 5 ms later than in peace, and the longest answer
100 ms; in siege 6 the longest answer a second; memory at most that of the start, --buffers and 20 MiB; files at most
--clients and 16; in siege 5 three full histories at least; `status`, twenty times a second, in 50 ms in 99 of 100.
"""

import collections
import dataclasses
import functools
import statistics
import sys

from bench import junk
from bench.besieged import BUFFERS, CHANGED, CLIENTS, HOSTILE, ask_all, percentile, requests_of, run, said, service
from bench.besiegers import Filling, Flood, Mute, Silent, Slow, as_sent, most_expensive, raise_files
from harness import wire
from harness.command import Parser
from harness.report import Report

ENTRIES = 1_000
# the limits: milliseconds, mebibytes and files more, milliseconds under the flood and for an answer about how the service
# stands, histories of siege 5
MEDIAN_LATER, LONGEST_LATER = 5, 100
MORE_MEMORY, MORE_FILES = 20, 16
FLOODED = 1_000
STATUS = 50
HISTORIES = 3
FORGED = "code 3 error 31 authentication failed"


@dataclasses.dataclass(frozen=True)
class Siege:
    what: str
    # kinds of hostile clients, and the option that says how many of them
    kinds: tuple = ()
    entries: int = None
    is_flood: bool = False
    is_compared: bool = True


SIEGES = {
    1: Siege("nobody", is_compared=False),
    2: Siege("silent ones", ((Silent, "silent"),)),
    3: Siege("slow ones", ((Slow, "slow"),)),
    4: Siege("ones that don't read", ((Mute, "mute"),)),
    5: Siege(
        "all of these, and full histories",
        ((Silent, "silent"), (Slow, "slow"), (Mute, "mute"), (Filling, None)),
        entries=ENTRIES,
    ),
    # two processes, so that they are no slower than the service
    6: Siege("a flood of the most expensive message", ((Flood, "flood"), (Flood, "flood")), is_flood=True, is_compared=False),
}


def parts_of(siege, options, own):
    """Kind, number and text of each process."""
    text = b""
    if siege.is_flood:
        text = as_sent(most_expensive())
    elif siege.entries:
        text = own
    elif siege.kinds:
        # a ticket that another service's key sealed
        text = as_sent(wire.request(b"nobody", b"Nothing-1", 1, service=bytes(32)))
    for kind, option in siege.kinds:
        count = getattr(options, option) if option else 1
        shares = sum(other is kind for other, _ in siege.kinds)
        yield kind, -(-count // shares), text


def lines_of(calm, beside):
    """What is printed of two runs."""
    for what, it in (("in peace", calm), ("beside them", beside)):
        yield (
            f"  {what}: {it.rate():.0f} changes a second, median {it.median():.2f} ms, "
            f"99th percentile {it.late():.2f} ms, longest {it.longest():.2f} ms"
        )
    yield (
        f"  beside them {beside.rate() / calm.rate():.2f} times as many, "
        f"median {beside.median() - calm.median():+.2f} ms, longest {beside.longest() - calm.longest():+.2f} ms"
    )
    yield (
        f"  memory {beside.at_start:.1f} MiB at the start, {beside.peak:.1f} MiB at its peak "
        f"(in peace {calm.peak:.1f}); {beside.files} files"
    )
    if beside.before:
        for what, counts in (("before", beside.before), (f"in these {beside.seconds:.1f} s", beside.beside)):
            yield (
                f"  {what} {counts['connections']} hostile connections came, {counts['bytes'] / 1e6:.1f} MB were "
                f"sent and {counts['replies']} replies read over them"
            )
    yield (
        f"  status beside them: {len(beside.status)} answers, median {statistics.median(beside.status):.1f} ms, "
        f"99th percentile {percentile(beside.status):.1f} ms, longest {max(beside.status):.1f} ms"
    )
    if beside.histories:
        yield f"  {beside.histories} histories were full, {beside.full} requests told so and asked again"


def answers_of(requests, it):
    """How many requests were told what."""
    return dict(collections.Counter(said(request, reply) for request, reply in zip(requests, it.replies)))


def tell(report, options, number, requests, calm, beside):
    """A line for each limit."""
    siege = SIEGES[number]

    def tell(what, found, wanted):
        report.tell(f"{number}: {what}", found, wanted)

    def within(what, found, most):
        tell(f"{what}: {round(found, 1)}, at the most {round(most, 1)}", found <= most, True)

    for what, it in (("in peace", calm), ("beside them", beside)):
        tell(f"answers {what}", answers_of(requests, it), {CHANGED: len(requests)})
        tell(f"the service ended by itself {what}", it.ended, "")
    tell("all hostile ones came", beside.stood, True)
    if siege.is_compared:
        within("median, ms later than in peace", beside.median() - calm.median(), MEDIAN_LATER)
        within("longest, ms later than in peace", beside.longest() - calm.longest(), LONGEST_LATER)
    if siege.is_flood:
        within("longest, ms", beside.longest(), FLOODED)
    if siege.entries:
        tell(f"{beside.histories} full histories, at least {HISTORIES}", beside.histories >= HISTORIES, True)
    tell("answers about how it stands that were cut off", beside.cut_off, 0)
    within("status, ms", percentile(beside.status), STATUS)
    within("memory, MiB", beside.peak, beside.at_start + (options.buffers or BUFFERS) + MORE_MEMORY)
    within("files", beside.files, (options.clients or CLIENTS) + MORE_FILES)


def tell_most_expensive(report, options, number):
    """What the flood's message is told, and in how many milliseconds where it comes alone."""
    with service(options, [HOSTILE]) as server:
        answers, _ = ask_all(server.port, [as_sent(most_expensive()) for _ in range(5)], lambda: None)
    took = statistics.median(1000 * seconds for seconds, _ in answers)
    told = said(None, answers[-1][1])
    report.tell(f"{number}: the most expensive message, alone answered in {took:.1f} ms", told, FORGED)


def measure(report, options, number):
    siege = SIEGES[number]
    print(f"siege {number}: {siege.what}", flush=True)
    if siege.is_flood:
        tell_most_expensive(report, options, number)
    requests = list(requests_of(options.flooded if siege.is_flood else options.requests))
    calm = run(options, requests, siege.entries, lambda _: ())
    beside = run(options, requests, siege.entries, functools.partial(parts_of, siege, options))
    for line in lines_of(calm, beside):
        print(line, flush=True)
    tell(report, options, number, requests, calm, beside)


def main():
    parser = Parser(__doc__, "limits N failed M", "a limit is passed")
    parser.add_program()
    parser.add_argument("--clients", type=int, help=f"of serve; where it isn't given {CLIENTS} are taken for its own")
    parser.add_argument("--idle", type=int, help="of serve")
    parser.add_argument("--buffers", type=int, help=f"of serve; where it isn't given {BUFFERS} are taken for its own")
    parser.add_argument("--requests", type=int, default=1_000, help="of the honest client, sieges 1 to 5")
    parser.add_argument("--flooded", type=int, default=100, help="of the honest client, siege 6")
    parser.add_argument("--iterations", type=int, default=4096, help="of each key")
    parser.add_argument("--silent", type=int, default=2_000, help="silent connections")
    parser.add_argument("--slow", type=int, default=200, help="connections that send a byte a second")
    parser.add_argument("--mute", type=int, default=16, help="connections that read no reply")
    parser.add_argument("--flood", type=int, default=1_000, help="connections of the flood")
    parser.add_argument("--seconds", type=int, default=10, help="of each server in sieges 7 to 12")
    parser.add_argument("--short", action="store_true", help="clients of sieges 7 to 12 ask for passwords that are too short")
    parser.add_argument("sieges", nargs="*", type=int, metavar="SIEGE", help="1 to 12; all where none is given")
    options = parser.parse_args()
    wanted = options.sieges or [*SIEGES, *junk.SIEGES]
    if not set(wanted) <= SIEGES.keys() | junk.SIEGES.keys():
        parser.error("a siege is one of 1 to 12")
    hostile = options.silent + options.slow + options.mute
    raise_files(max(hostile, options.flood, options.clients or CLIENTS) + 64)
    report = Report("limits {} failed {}")
    for number in wanted:
        if number in SIEGES:
            measure(report, options, number)
    if of_junk := [number for number in wanted if number in junk.SIEGES]:
        junk.measure(report, options, of_junk)
    sys.exit(report.status())


if __name__ == "__main__":
    main()
