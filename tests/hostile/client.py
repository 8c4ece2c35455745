"""What `client` sends, and what it prints for the reply, with its exit status.

`cases/client` has blocks:

    asked       requests to a service of its own
    answered    replies to one request

A request is `NAME: PASSWORD` or `NAME for TARGET: PASSWORD`, with `, not initial` and then `, old` (in the earlier protocol) before
the colon; a password `N * TEXT` is that text N times. `again` is the same bytes once more, `journal` names and versions in the
service's journal. Each request is a second after the one before it; `clocks N M` sets the seconds of client and service, `realm EDITS`
the configuration of both, `client EDITS` that of the client: `OLD -> NEW`, with ` | ` between.

A reply is hexadecimal, or sealed: `reply`, the `prefixes` of that, each of its bytes `changed by 01`, and the `reply to another`
request. Needs gcc.
"""

import socket
import threading

from harness import wire
from harness.cases import main
from harness.chacha import block
from harness.journal import read_journal
from harness.kept import keys_of
from harness.machine import machine
from harness.program import answer_one, with_length
from harness.sample_realm import any_keys, configuration, principal
from harness.server import Server
from harness.serving import START, SetClock
from tests.case_files import FileCase, blocks_of, edited, expanded
from tests.model.changed_bytes import changed

ITERATIONS = 4
# the names of eight components of 128 bytes
LONGEST = {"LONGEST": "/".join(8 * ["m" * 128]), "OTHER": "/".join(8 * ["n" * 128])}
RULES = (("admin", "bob"), ("admin", "zoe"), (LONGEST["LONGEST"], LONGEST["OTHER"]))
FLAGS = {"not initial": "--no-initial", "old": "--old"}
SETTINGS = ("clocks", "realm", "client")
# The one request of `answered`, and the seed of its words.
ALICES, SEED = "alice: New-pass2", bytes(range(32))
# Requests whose bytes are compared, each with what harness.wire makes them of.
SENT = [
    (ALICES, b"alice", {}),
    ("admin for bob, not initial: New-pass2", b"admin", {"target": b"bob", "initial": False}),
    ("alice, old: New-pass2", b"alice", {"old": True}),
]
# seconds in which a client has connected
PATIENCE = 10


def realm():
    """The configuration of client and service."""
    rules = "".join(f'[[rule]]\nactor = "{actor}"\ntarget = "{target}"\n' for actor, target in RULES)
    keys = {name: [(1, *keys_of(name, "Old-pass1", ITERATIONS))] for name in ("alice", "bob")}
    keys |= {name: any_keys() for name in LONGEST.values()}
    principals = "".join(principal(name, found, ITERATIONS) for name, found in keys.items())
    return configuration([], ITERATIONS) + rules + principals


def options_of(request):
    """The words of the command line."""
    who, _, password = request.partition(": ")
    names, *flags = who.split(", ")
    client, is_set, target = names.partition(" for ")
    words = [f"--client={LONGEST.get(client, client)}", f"--password={expanded(password)}", *map(FLAGS.get, flags)]
    return words + ([f"--target={LONGEST.get(target, target)}"] if is_set else [])


def drawn_from(seed):
    """What is drawn for a request with this seed."""
    octets = block(seed, 0) + block(seed, 1)
    parts = (octets[start:end] for start, end in ((0, 32), (32, 64), (64, 80), (80, 96), (96, 112)))
    return wire.Drawn(*parts, number=0)


def sealed_reply(seed):
    """The reply of a changed password to the request with this seed."""
    return wire.reply(0, b"password changed", START, 0, range(1, 10), drawn_from(seed))


REPLIES = {"reply": sealed_reply(SEED), "reply to another": sealed_reply(bytes(32))}


class Asked:
    """A service, and the client's configuration and next second as the lines of a block have set them."""

    def __init__(self, case, lines):
        self.case = case
        self.lines = lines
        self.configuration = case.realm
        self.second = START
        # the options of the last request, and its seed
        self.request = None
        folder = case.folder / f"service {next(case.numbers)}"
        folder.mkdir()
        self.server = Server(case.program, folder, workers=1)
        case.addCleanup(self.server.end)
        self.server.configuration.write_text(case.realm)
        case.clocks["service"].set(START)

    def set(self, what, text):
        if what == "clocks":
            self.second, second = map(int, text.split(" "))
            self.case.clocks["service"].set(second)
        else:
            self.configuration = edited(self.case.realm, text)
        if what == "realm":
            self.server.configuration.write_text(self.configuration)

    def start(self):
        """For as many connections as there are requests."""
        requests = [it for it in self.lines if it != "journal" and it.split(" ")[0] not in SETTINGS]
        self.server.start(len(requests), env=self.case.environment("service"))

    def ask(self, line):
        if self.server.process is None:
            self.start()
        if line != "again":
            self.request = options_of(line), self.second.to_bytes(32, "big")
            self.case.clocks["client"].set(self.second)
            self.second += 1
        options, seed = self.request
        return self.case.told(options, self.server.port, seed, self.configuration)

    def journal(self):
        names = {name: word for word, name in LONGEST.items()}
        records, _ = read_journal(self.server.journal.read_bytes())
        return ", ".join(f"{names.get(it.name, it.name)} {it.kvno}" for it in records)

    def answer(self, line):
        what, _, text = line.partition(" ")
        if what in SETTINGS:
            self.set(what, text)
            return line
        return self.journal() if what == "journal" else self.ask(line)


class Client(FileCase):
    def setUp(self):
        super().setUp()
        self.realm = realm()
        self.machine = machine(self.folder)
        self.clocks = {}
        for who in "client", "service":
            folder = self.folder / who
            folder.mkdir()
            self.clocks[who] = SetClock(folder)

    def environment(self, who):
        return self.machine | {"CLOCK": str(self.clocks[who].file)}

    def told(self, options, port, seed, text):
        """What `client` prints under this configuration, and its status."""
        words = ["client", "--config=realm.toml", "--seed=/dev/stdin", f"--port={port}", *options]
        printed, errors, status = self.ran(words, {"realm.toml": text.encode()}, seed, self.environment("client"))
        return f"{' '.join([*printed.splitlines(), *errors])}, status {status}"

    def exchanged(self, request, reply=b""):
        """What it sends, and what it prints when these bytes, or none, come back."""
        heard = []
        with socket.create_server(("127.0.0.1", 0)) as listener:
            listener.settimeout(PATIENCE)
            answering = threading.Thread(target=answer_one, args=(listener, reply, heard))
            answering.start()
            told = self.told(options_of(request), listener.getsockname()[1], SEED, self.realm)
            answering.join()
        return b"".join(heard), told

    def replied(self, reply):
        return self.exchanged(ALICES, with_length(reply))[1]

    def answered(self, line):
        if line in ("prefixes", "changed by 01"):
            text = REPLIES["reply"]
            return self.census(self.replied, (changed(line, text, place) for place in range(len(text))))
        return self.replied(REPLIES[line] if line in REPLIES else bytes.fromhex(line))

    def test_blocks(self):
        for it in blocks_of("client"):
            lines = it.body.split("\n")
            self.clocks["client"].set(START)
            answer = self.answered if it.kind == "answered" else Asked(self, lines).answer
            self.tell_same(it.title, "\n".join(map(answer, lines)), it.answer)

    def test_sent(self):
        """The bytes are those that harness.wire makes, of what is drawn from the seed."""
        for request, name, terms in SENT:
            wanted = wire.request(name, b"New-pass2", 0, ctime=START, starts=START, drawn=drawn_from(SEED), **terms)
            self.tell(f"sent: {request}", self.exchanged(request)[0] == with_length(wanted), True)


if __name__ == "__main__":
    main(__doc__)
