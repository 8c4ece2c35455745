"""`serve --clients-per-peer`: no peer has more connections than its share, and one that has keeps nobody else out.

Each case is a service of its own at an address that isn't the peers', as docs/PROTOCOL (Connections and datagrams) has it.
The addresses are those for documentation, on the loopback interface of a network namespace that the script makes for
itself: no other interface is used. Needs gcc, and Linux with unshare(1) and ip(8).
"""

import os
import socket
import subprocess
import sys
import time

from harness import cases
from harness.asking import said
from harness.command import itself
from harness.serving import CHANGED, NO_REQUEST, PATIENCE, Hold, Watch, both_requests, ServiceCase

INSIDE = "CHPW_SHARES_INSIDE"
# the service's addresses; of IPv4 two peers, and of IPv6 three in one network and one in another
HERE, FIRST, SECOND = "198.51.100.1", "198.51.100.2", "198.51.100.3"
HERE_6, NETWORK, APART = "2001:db8::1", ["2001:db8::2", "2001:db8::ffff:0:0:3", "2001:db8::8000:0:0:4"], "2001:db8:0:1::2"
TWO_CHANGES = "entries 2 changes 2"


def place(address, port):
    return f"[{address}]:{port}" if ":" in address else f"{address}:{port}"


def begin(case, connections, *options, host=HERE, **words):
    """The service at one address, once it listens there."""
    case.launch(connections, options=["--listen", host, *options], **words)
    case.tell("it listens", case.server.next_line().rstrip(), f"listening on {place(host, case.server.port)}")


class Shares(ServiceCase):
    def test_a_peer_at_its_share(self):
        """A quarter of eight places is two: for the third the peer's first one ends, though there is room; another peer has its
        own share."""
        alice, bob = both_requests()
        begin(self, 4, "--clients", "8")
        first, second = self.client(FIRST, host=HERE), self.client(FIRST, host=HERE)
        self.tell("the second", second.ask(alice), CHANGED)
        other = self.client(SECOND, host=HERE)
        self.tell("the third", self.client(FIRST, host=HERE).ask(bob), CHANGED)
        self.tell("the first is ended", first.is_ended(), True)
        for name, client in [("the second", second), ("another peer's", other)]:
            client.send_messages(NO_REQUEST)
            self.tell(f"{name} stays", client.has_reply(), True)
        self.tell_end(TWO_CHANGES)

    def test_a_crowd_of_one_peer(self):
        """Of 200 connections of one peer four are there at a time: another one's is never ended, nor kept waiting."""
        alice, bob = both_requests()
        begin(self, 202, "--clients", "16", "--clients-per-peer", "4")
        watch = Watch()
        other = self.client(SECOND, host=HERE)
        crowd = [self.client(FIRST, host=HERE) for _ in range(200)]
        self.tell("one that was there", other.ask(alice), CHANGED)
        self.tell("one that comes after them", self.client(SECOND, host=HERE).ask(bob), CHANGED)
        self.tell("of the crowd are ended", sum(not client.is_silent() for client in crowd), 196)
        self.tell_within(5, watch)
        self.tell_end(TWO_CHANGES)

    def test_one_network_of_IPv6(self):
        """The addresses of IPv6 with the same first 64 bits have one share."""
        alice, bob = both_requests()
        begin(self, 4, "--clients", "8", "--clients-per-peer", "2", host=HERE_6)
        first, second = (self.client(address, host=HERE_6) for address in NETWORK[:2])
        other = self.client(APART, host=HERE_6)
        self.tell("the second", second.ask(alice), CHANGED)
        self.tell("the third", self.client(NETWORK[2], host=HERE_6).ask(bob), CHANGED)
        self.tell("the first is ended", first.is_ended(), True)
        for name, client in [("the second", second), ("another network's", other)]:
            client.send_messages(NO_REQUEST)
            self.tell(f"{name} stays", client.has_reply(), True)
        self.tell_end(TWO_CHANGES)

    def test_this_host_itself(self):
        """Connections from the service's own address have no share: six stay where a peer may have one."""
        begin(self, 6, "--clients", "8", "--clients-per-peer", "1")
        clients = [self.client(HERE, host=HERE) for _ in range(6)]
        for client in clients:
            client.send_messages(NO_REQUEST)
        self.tell("replies", sum(client.has_reply() for client in clients), 6)
        self.tell_end("entries 0 changes 0")

    def test_a_share_that_is_being_answered(self):
        """A peer's only connection is being answered: its next one is closed meanwhile, and another peer's is let in."""
        alice, bob = both_requests()
        worker = Hold(self.folder, "worker")
        begin(self, 2, "--clients", "8", "--clients-per-peer", "1", HELD=worker.file)
        worker.hold()
        first = self.client(FIRST, host=HERE)
        first.send(alice)
        worker.wait()
        watch = Watch()
        self.tell("the second is ended", self.client(FIRST, host=HERE).is_ended(), True)
        self.tell_within(2, watch)
        other = self.client(SECOND, host=HERE)
        other.send(bob)
        time.sleep(0.3)
        worker.free()
        self.tell("the first", first.told(alice), CHANGED)
        self.tell("another peer's", other.told(bob), CHANGED)
        self.tell_end(TWO_CHANGES)

    def test_datagrams_count_in_no_share(self):
        """A datagram of a peer is being answered: the peer's share is free all the same, and one that is full keeps none out."""
        alice, bob = both_requests()
        worker = Hold(self.folder, "worker")
        begin(self, 3, "--udp", "--clients", "8", "--clients-per-peer", "1", HELD=worker.file)
        worker.hold()
        with socket.socket(socket.AF_INET, socket.SOCK_DGRAM) as client:
            client.settimeout(PATIENCE)
            client.bind((FIRST, 0))
            client.connect((HERE, self.server.port))
            client.send(alice.message)
            worker.wait()
            first = self.client(FIRST, host=HERE)
            first.send_messages(NO_REQUEST)
            time.sleep(0.3)
            worker.free()
            self.tell("the datagram", said(alice, client.recv(65_535)), CHANGED)
            self.tell("a connection beside it", first.has_reply(), True)
            client.send(bob.message)
            self.tell("a datagram beside that", said(bob, client.recv(65_535)), CHANGED)
        self.tell("the connection is there", first.is_silent(), True)
        self.tell_end(TWO_CHANGES)


def make_addresses():
    """Each on the loopback interface, in a namespace where nothing else is."""
    subprocess.run(["ip", "link", "set", "lo", "up"], check=True)
    for address in (HERE, FIRST, SECOND):
        subprocess.run(["ip", "address", "add", f"{address}/32", "dev", "lo"], check=True)
    for address in (HERE_6, *NETWORK, APART):
        subprocess.run(["ip", "address", "add", f"{address}/128", "dev", "lo", "nodad"], check=True)


def main():
    if INSIDE not in os.environ and not {"-h", "--help"} & set(sys.argv[1:]):
        os.environ[INSIDE] = "1"
        os.execvp("unshare", ["unshare", "--map-root-user", "--net", *itself()])
    if INSIDE in os.environ:
        make_addresses()
    cases.main(__doc__)


if __name__ == "__main__":
    sys.exit(main())
