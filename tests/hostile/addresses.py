"""`serve --listen`: addresses that are none, that it can't have, and that it listens at, of IPv4 and IPv6, over TCP and UDP.

Clients' addresses are compared, logged and answered as docs/PROTOCOL has it. A start that is refused touches no file. Needs IPv6
on the loopback interface; no other interface is used.
"""

import ipaddress
import socket

from harness.cases import main
from harness.asking import request_now, said, sender
from harness.journal import plain_record
from harness.server import private
from harness.serving import CHANGED, PATIENCE, Client, both_requests, ServiceCase

ELSEWHERE = "code 3 error 38 authentication failed"
BOTH = ("127.0.0.1", "::1")
# of TEST-NET-1 and of the prefix for documentation, which no interface has
NOWHERE = ("192.0.2.1", "2001:db8::1")
NO_ADDRESS = "a value for '--listen <ADDRESS>' is an address of IPv4 or IPv6, without a port"
SAME = "the argument '--listen <ADDRESS>' has the same address twice"
MANY = "the argument '--listen <ADDRESS>' has more than 64 addresses"
ANY = "the argument '--udp' cannot be used with '--listen 0.0.0.0' or '--listen ::'"

# options that the command line refuses, and why
REFUSED = [
    (["localhost"], NO_ADDRESS),
    ([""], NO_ADDRESS),
    (["127.0.0.1:464"], NO_ADDRESS),
    (["127.0.0.256"], NO_ADDRESS),
    (["127.1"], NO_ADDRESS),
    (["[::1]"], NO_ADDRESS),
    (["fe80::1%lo"], NO_ADDRESS),
    (["::1 "], NO_ADDRESS),
    (["127.0.0.1", "::1", "nowhere"], NO_ADDRESS),
    (["127.0.0.1", "127.0.0.1"], SAME),
    (["::1", "0:0:0:0:0:0:0:1"], SAME),
    (["127.0.0.1", "::ffff:127.0.0.1"], SAME),
    ([f"127.0.0.{last}" for last in range(1, 66)], MANY),
]


# what is in a journal and in a resume file that no refused start may touch: a record that is whole, and the begin of another one
TORN, LEFT = plain_record("alice", 2) + b"\1", b"left"


def listening(*addresses):
    return [word for address in addresses for word in ("--listen", address)]


def place(address, port):
    return f"[{address}]:{port}" if ":" in address else f"{address}:{port}"


def without_a_trace(case, starts):
    """Starts that are refused make no journal, and leave a journal and a resume file as they are, though a start that isn't refused
    would cut off the one's torn end and remove the other."""
    resume = case.folder / "resume"
    starts(case, ["--resume", str(resume)])
    case.tell("no journal is made", case.server.journal.exists(), False)
    private(case.server.journal).write_bytes(TORN)
    private(resume).write_bytes(LEFT)
    starts(case, ["--resume", str(resume)])
    case.tell("the journal stays", case.server.journal.read_bytes() == TORN, True)
    case.tell("the resume file stays", resume.read_bytes() == LEFT, True)


def refused(case, options):
    """Each with a line of its own and status 2."""
    for addresses, why in REFUSED:
        case.launch(1, options=[*options, *listening(*addresses)])
        lines, status = case.last_lines()
        case.tell(f"{addresses[-1]!r} of {len(addresses)}", (lines[0] if lines else "", status), (f"error: {why}", 2))
    for wildcard in ("0.0.0.0", "::"):
        case.launch(1, options=["--udp", *options, *listening("127.0.0.1", wildcard)])
        lines, status = case.last_lines()
        case.tell(f"datagrams at {wildcard}", (lines[0] if lines else "", status), (f"error: {ANY}", 2))


def nowhere(case, options):
    """No interface has the address: the fault says which one."""
    for address in NOWHERE:
        case.launch(1, options=[*options, *listening("127.0.0.1", address)])
        there = place(address, case.server.port)
        case.tell(address, case.last_lines(), (["cannot listen", f"{there}: no such address on this host"], 1))


def twice_taken(case, options):
    """A wildcard beside an address that it takes, too: the fault names both."""
    for addresses, why in (
        (("0.0.0.0", "::"), ":: overlaps 0.0.0.0"),
        (("127.0.0.1", "0.0.0.0"), "0.0.0.0 overlaps 127.0.0.1"),
        (("::", "::1"), ":: overlaps ::1"),
        (("127.0.0.1", "::1", "::"), ":: overlaps 127.0.0.1"),
    ):
        case.launch(1, options=[*options, *listening(*addresses)])
        case.tell(" and ".join(addresses), case.last_lines(), (["cannot listen", why], 1))


def in_use(kind):
    """Starts while another socket has one of the ports."""
    def starts(case, options):
        other = socket.socket(socket.AF_INET6, kind)
        with other:
            other.bind(("::1", case.server.port))
            if kind == socket.SOCK_STREAM:
                other.listen()
            case.launch(1, options=["--udp", *options, *listening(*BOTH)])
            there = place("::1", case.server.port)
            case.tell("it says which", case.last_lines(), (["cannot listen", f"{there}: in use"], 1))
    return starts


def begin(case, connections, *addresses, options=()):
    """It prints a line for each address, in their order."""
    case.launch(connections, options=[*options, *listening(*addresses)])
    lines = [case.server.next_line().rstrip() for _ in addresses]
    case.tell("it listens at each", lines, [f"listening on {place(it, case.server.port)}" for it in addresses])


def peers(case):
    log = case.server.journal.with_name("log").read_text().splitlines()
    return [line.split(" peer ")[1].split(" ")[0] for line in log if " peer " in line]


def tell_changes(case):
    """A change over each family: what the reply says, and from which address."""
    for sent, host in zip(both_requests(), BOTH):
        client = case.client(host=host)
        client.send(sent)
        reply = client.reply()
        case.tell(f"over {host}", (client.said(sent, reply), sender(reply)), (CHANGED, host))


class Addresses(ServiceCase):
    def test_addresses_that_are_refused(self):
        without_a_trace(self, refused)

    def test_addresses_of_no_interface(self):
        without_a_trace(self, nowhere)

    def test_a_wildcard_and_an_address(self):
        without_a_trace(self, twice_taken)

    def test_a_port_in_use_over_TCP(self):
        without_a_trace(self, in_use(socket.SOCK_STREAM))

    def test_a_port_in_use_over_UDP(self):
        without_a_trace(self, in_use(socket.SOCK_DGRAM))

    def test_both_families(self):
        """Clients over TCP, each by one family; the reply has the address that was asked, the log where each came from."""
        begin(self, 2, *BOTH, options=["--log", str(self.server.journal.with_name("log"))])
        tell_changes(self)
        self.tell_end("entries 2 changes 2")
        self.tell("the log has the peers", peers(self), list(BOTH))

    def test_datagrams_of_both_families(self):
        """The same over UDP: a client's socket takes a datagram from the address alone that it asked."""
        begin(self, 2, *BOTH, options=["--udp"])
        for sent, host in zip(both_requests(), BOTH):
            family = socket.AF_INET6 if ":" in host else socket.AF_INET
            with socket.socket(family, socket.SOCK_DGRAM) as client:
                client.settimeout(PATIENCE)
                client.connect((host, self.server.port))
                client.send(sent.message)
                reply = client.recv(65_535)
                self.tell(f"over {host}", (said(sent, reply), sender(reply)), (CHANGED, host))
        self.tell_end("entries 2 changes 2")

    def test_tickets_with_addresses(self):
        """A ticket that names ::1 is taken from there alone; one that names 127.0.0.1 in sixteen bytes, from nowhere."""
        begin(self, 4, *BOTH)
        own = ipaddress.ip_address("::1").packed
        mapped = ipaddress.ip_address("::ffff:127.0.0.1").packed
        asked = [("::1", own, CHANGED), ("127.0.0.1", own, ELSEWHERE), ("127.0.0.1", mapped, ELSEWHERE), ("::1", 1, ELSEWHERE)]
        for number, (host, address, wanted) in enumerate(asked):
            sent = request_now("alice", f"New-pass{number}", 7 + number, addresses=[address])
            self.tell(f"from {host}", self.client(host=host).ask(sent), wanted)
        self.tell_end("entries 1 changes 1")

    def test_the_wildcard_of_IPv6(self):
        """`::` takes clients of both families. Each has its own address in the log, and the one that it asked in the reply: no mapped
        ones."""
        begin(self, 2, "::", options=["--log", str(self.server.journal.with_name("log"))])
        tell_changes(self)
        self.tell_end("entries 2 changes 2")
        self.tell("the log has the peers", peers(self), list(BOTH))

    def test_a_crowd_at_one_of_two_addresses(self):
        """A crowd at one address keeps nobody out at the other."""
        begin(self, 201, *BOTH)
        crowd = [Client(self.server) for _ in range(200)]
        alice, _ = both_requests()
        self.tell("after 200 at the other", self.client(host="::1").ask(alice), CHANGED)
        for client in crowd:
            client.close()
        self.tell_end("entries 1 changes 1")


if __name__ == "__main__":
    main(__doc__)
