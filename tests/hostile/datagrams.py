"""`serve --udp`: a message in a datagram, the very same again, and datagrams that get no answer.

What is answered, what counts as a connection, what has a place and what is said again is what docs/PROTOCOL has
(Datagrams). Needs gcc.
"""

import os
import resource
import socket
import threading
import time

from harness import wire
from harness.cases import main
from harness.asking import request_now, said
from harness.controlling import OK, ask
from harness.false_agent import Agent, hexed
from harness.serving import CHANGED, PATIENCE, REPLAYED, Hold, SetClock, Watch, both_requests, ServiceCase

LONGEST = 65_507
KPASSWD = 464
# seconds for which a client waits for a reply; and how often it asks
A_WHILE = 0.2
TRIES = 50
# silent connections: as many as `--clients` allows by default
SILENT = 1_024
ASKS = 10
# datagrams after which a request stands in the socket
BURST = 20
# milliseconds for which a datagram is read, and after which the next one comes, where they come faster than that
DRIP, FLOOD = 10, 2
# within how many seconds others have their turn meanwhile; on a machine that has nothing else to do it is half a second
TURN = 7


def tailed(ap, tail=b""):
    """A frame with this AP-REQ, and no KRB-PRIV after it."""
    return wire.framed(0xFF80, ap, tail)


def presenting(realm=wire.REALM, service=wire.CHANGEPW):
    """An AP-REQ that is right in each outer part, with a ticket for this service that nobody has sealed."""
    ticket = wire.application(1, wire.sequence(
        (0, wire.integer(5)), (1, wire.string(realm)), (2, service), (3, part(18))))
    return wire.application(14, wire.sequence(
        (0, wire.integer(5)), (1, wire.integer(14)), (2, wire.flags(0)), (3, ticket), (4, part(18))))


def part(etype):
    """An EncryptedData without a byte (RFC 4120 section 5.2.9)."""
    return wire.sequence((0, wire.integer(etype)), (2, wire.octets(b"")))


# datagrams that present no ticket for kadmin/changepw of the realm in a whole frame
UNANSWERED = [
    ("nothing", ""),
    ("too little", "0006ff8000"),
    ("a length that isn't theirs", "0008ff8000026e"),
    ("a version of no protocol", "0008123400016e00"),
    ("no AP-REQ", "0008000100007e00"),
    ("an AP-REQ that is no DER", "000700010001" + "00"),
    ("an AP-REQ that is cut off", tailed(presenting()[:-1]).hex()),
    ("a byte after an AP-REQ", tailed(presenting() + b"\0").hex()),
    ("an AP-REP in its place", tailed(b"\x6f" + presenting()[1:]).hex()),
    ("a ticket of another realm", tailed(presenting(realm=b"EXAMPLE.ORG")).hex()),
    ("a ticket of a longer realm", tailed(presenting(realm=b"EXAMPLE.COM.")).hex()),
    ("a ticket for another service", tailed(presenting(service=wire.name(2, b"kadmin", b"admin"))).hex()),
    ("a ticket for the first component", tailed(presenting(service=wire.name(2, b"kadmin"))).hex()),
    ("a ticket for three components", tailed(presenting(service=wire.name(2, b"kadmin", b"changepw", b""))).hex()),
    # its reply would have 21 bytes of text, and so be longer
    ("a question shorter than its answer", tailed(presenting()).hex()),
]
# how many of those a worker answers all the same, and so count as connections
DECIDED = 1


class Client:
    """A socket of its own, and so a port; or of this address."""

    def __init__(self, server, address=None):
        self.socket = socket.socket(type=socket.SOCK_DGRAM)
        if address:
            self.socket.bind(address)
        self.socket.connect(("127.0.0.1", server.port))
        self.socket.settimeout(A_WHILE)

    def later(self):
        """The next reply, if one comes in the longest time that a case waits."""
        self.socket.settimeout(PATIENCE)
        try:
            return self.socket.recv(LONGEST)
        except TimeoutError:
            return None
        finally:
            self.socket.settimeout(A_WHILE)

    def reply(self, message):
        """The reply to a message that is sent once, if one comes."""
        self.socket.send(message)
        try:
            return self.socket.recv(LONGEST)
        except TimeoutError:
            return None

    def ask(self, sent):
        """Sends a request until a reply comes."""
        for _ in range(TRIES):
            reply = self.reply(sent.message)
            if reply is not None:
                return reply
        raise TimeoutError("no reply")


def send_until(client, done):
    """Junk, for as long as a case waits at the most."""
    watch = Watch()
    while not done.is_set() and watch.spent() < PATIENCE:
        client.socket.send(tailed(b""))
        time.sleep(FLOOD / 1_000)


class Datagrams(ServiceCase):
    def test_a_datagram_and_the_same_again(self):
        """A datagram changes the password; sent once more it has the very same reply, and nothing is decided; from another
        port, and over TCP, it is a replay. The one that is said again doesn't count."""
        alice, _ = both_requests()
        self.start(3, options=["--udp"])
        client = Client(self.server)
        reply = client.ask(alice)
        self.tell("a change", said(alice, reply), CHANGED)
        self.tell("its bytes again", client.ask(alice) == reply, True)
        self.tell("from another port", said(alice, Client(self.server).ask(alice)), REPLAYED)
        self.tell("over TCP", self.client().ask(alice), REPLAYED)
        self.tell_end("entries 3 changes 1")

    def test_a_reply_once_each_time(self):
        """What is said again is said once for each time that it is asked for."""
        alice, bob = both_requests()
        self.start(2, options=["--udp"])
        client = Client(self.server)
        client.socket.send(alice.message)
        reply = client.later()
        self.tell("a change", said(alice, reply), CHANGED)
        for what in ("once", "twice"):
            client.socket.send(alice.message)
            self.tell(f"{what} again", client.later() == reply, True)
            self.tell(f"{what} again, and nothing after it", client.reply(b""), None)
        self.tell("a change after", said(bob, client.ask(bob)), CHANGED)
        self.tell_end("entries 2 changes 2")

    def test_datagrams_without_an_answer(self):
        """None of them has an answer or a place; the service takes two, one before them and one after, beside the one that
        is decided."""
        alice, bob = both_requests()
        self.start(2 + DECIDED, options=["--udp"])
        self.tell("a change before", said(alice, Client(self.server).ask(alice)), CHANGED)
        # its socket may have the reply once more, where it asked twice
        client = Client(self.server)
        for what, datagram in UNANSWERED:
            self.tell(what, client.reply(bytes.fromhex(datagram)), None)
        self.tell("a change after", said(bob, client.ask(bob)), CHANGED)
        self.tell_end("entries 2 changes 2")

    def test_an_answer_no_longer_than_its_question(self):
        """The same AP-REQ in a datagram as long as the answer is answered; one byte less, and it isn't. The clock stands
        still, since an answer has its microseconds in as many bytes as they need."""
        self.start(3, options=["--udp"], CLOCK=SetClock(self.folder).file)
        client = Client(self.server)
        client.socket.send(tailed(presenting(), bytes(100)))
        reply = client.later()
        self.tell("a longer one is answered", reply is not None, True)
        spare = len(reply) - len(tailed(presenting()))
        self.tell("its answer is longer than the shortest", spare > 0, True)
        self.tell("as long", len(client.reply(tailed(presenting(), bytes(spare))) or b""), len(reply))
        self.tell("a byte less", client.reply(tailed(presenting(), bytes(spare - 1))), None)
        self.tell_end("entries 0 changes 0")

    def test_a_request_after_junk(self):
        """In one burst: what is dropped doesn't hold up what stands after it, though that is sent once."""
        alice, _ = both_requests()
        self.start(1, options=["--udp"])
        client = Client(self.server)
        for at in range(BURST):
            client.socket.send(bytes.fromhex(UNANSWERED[at % (len(UNANSWERED) - DECIDED)][1]))
        client.socket.send(alice.message)
        self.tell("the change", said(alice, client.later() or b""), CHANGED)
        self.tell_end("entries 1 changes 1")

    def test_a_flood(self):
        """Datagrams come faster than they can be read, and hold up nobody else."""
        self.start(2, options=["--udp", "--control", "control"], DRIPS=DRIP)
        done = threading.Event()
        sending = threading.Thread(target=send_until, args=(Client(self.server), done))
        sending.start()
        time.sleep(0.3)
        watch = Watch()
        self.tell("status meanwhile", ask(self, "status").endswith(f"\n{OK}"), True)
        spent = watch.spent()
        done.set()
        sending.join()
        self.tell(f"within {TURN} s ({spent:.2f})", spent < TURN, True)

    def test_two_at_once(self):
        """Both changes wait for the KDC. Once it has them, each client has the reply to its own."""
        agent = Agent(self)
        self.start(2, workers=2, options=["--udp", *agent.options(60_000)])
        requests = both_requests()
        clients = [Client(self.server) for _ in requests]
        with agent.in_step() as link:
            agent.end()
            clients[0].socket.send(requests[0].message)
            link.is_to_put("alice", 2)
            clients[1].socket.send(requests[1].message)
            self.tell("the second has nothing yet", clients[1].reply(requests[1].message), None)
            self.tell("nor has the first", clients[0].reply(requests[0].message), None)
            link.say(f"put {hexed('alice')} 2\n")
            link.confirm("bob", 2)
            for what, client, sent in zip(("the first", "the second"), clients, requests):
                self.tell(what, said(sent, client.later() or b""), CHANGED)
        self.tell("its status", self.last_lines()[1], 0)

    def test_ports_of_clients_and_of_services(self):
        """A client's port may be a low one; whoever has the port of a service isn't answered."""
        alice, bob = both_requests()
        self.start(2, options=["--udp"])
        own = Client(self.server, ("127.0.0.2", self.server.port))
        self.tell("from the service's own port", own.reply(alice.message), None)
        if os.geteuid() == 0:
            self.tell("from port 464", Client(self.server, ("127.0.0.2", KPASSWD)).reply(alice.message), None)
        low = ("127.0.0.2", KPASSWD + 100) if os.geteuid() == 0 else ("127.0.0.2", 0)
        self.tell("from another one", said(alice, Client(self.server, low).ask(alice)), CHANGED)
        self.tell("and a change after", said(bob, Client(self.server).ask(bob)), CHANGED)
        self.tell_end("entries 2 changes 2")

    def test_beside_silent_connections(self):
        """As many connections as there may be say nothing. Each request over UDP is answered all the same, at once, and so is
        one over TCP."""
        _, most = resource.getrlimit(resource.RLIMIT_NOFILE)
        resource.setrlimit(resource.RLIMIT_NOFILE, (most, most))
        self.start(SILENT + ASKS + 1, options=["--udp"])
        silent = [self.client() for _ in range(SILENT)]
        for number in range(ASKS):
            sent = request_now("alice", f"New-pass{number}", number)
            client = Client(self.server)
            client.socket.send(sent.message)
            self.tell(f"request {number}", said(sent, client.later() or b""), CHANGED)
        _, bob = both_requests()
        self.tell("over TCP", self.client().ask(bob), CHANGED)
        self.tell("the first of the silent ones has ended", silent[0].is_ended(), True)
        self.tell_end(f"entries {ASKS + 1} changes {ASKS + 1}")

    def test_half_of_the_places(self):
        """Of four places datagrams have two. While the worker is held, the third is dropped; a connection over TCP still has a
        place, and is answered."""
        worker = Hold(self.folder, "worker")
        self.start(4, options=["--udp", "--clients", "4"], HELD=worker.file)
        worker.hold()
        sent = [request_now("alice", f"New-pass{number}", number) for number in range(4)]
        clients = [Client(self.server) for _ in range(3)]
        clients[0].socket.send(sent[0].message)
        worker.wait()
        for client, it in zip(clients[1:], sent[1:]):
            self.tell("no answer yet", client.reply(it.message), None)
        over_tcp = self.client()
        over_tcp.send(sent[3])
        worker.free()
        self.tell("the first", said(sent[0], clients[0].later() or b""), CHANGED)
        self.tell("the second", said(sent[1], clients[1].later() or b""), CHANGED)
        self.tell("over TCP", over_tcp.told(sent[3]), CHANGED)
        self.tell("the third was dropped", clients[2].reply(b""), None)
        self.tell("and is answered when it comes again", said(sent[2], clients[2].ask(sent[2])), CHANGED)
        self.tell_end("entries 4 changes 4")

    def test_a_place_for_datagrams_alone(self):
        """Of four places one is for datagrams alone: the fourth connection over TCP ends the first. Without --udp it
        doesn't."""
        for options, ends in (["--udp"], True), ([], False):
            self.start(4, options=["--clients", "4", *options])
            silent = [self.client() for _ in range(4)]
            if ends:
                self.tell("the first ends", silent[0].is_ended(), True)
            else:
                time.sleep(A_WHILE)
                self.tell("without --udp nobody ends", all(it.is_silent() for it in silent), True)
            self.tell_end("entries 0 changes 0")


if __name__ == "__main__":
    main(__doc__)
