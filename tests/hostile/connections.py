"""Which worker of `serve` answers a connection, when, with which words, and from where; accepts that fail; and what
changes and places cost.

Each case is a service of its own. What is answered is what docs/PROTOCOL has (Connections and datagrams; The AP-REQ, for
the address that a ticket names). Where a case says so, a worker is held, or the listener's accepts fail (machine.c). Needs
gcc.
"""

import itertools
import os
import resource
import socket
import time

from harness.cases import main
from harness.asking import request_now
from harness.controlling import start, tell_end
from harness.serving import CHANGED, NO_REQUEST, PATIENCE, Hold, Watch, both_requests, parts_of, ServiceCase

ELSEWHERE = "code 3 error 38 authentication failed"
ONE_CHANGE = "entries 1 changes 1"
TWO_CHANGES = "entries 2 changes 2"
# faults of Linux that pass: EINTR, ENOMEM, ENFILE, EMFILE, ECONNABORTED, ENOBUFS; and EINVAL, which doesn't
PASSING = "4 12 23 24 103 105"
LASTING = "22"
# how often a client sends on after its last reply, so that a slow machine has more than one try
TRIES = 3
# changes whose processor time is taken together, and the iterations of their keys: a few, and the default
FIVE = 5
FEW, MANY = 4, 4_096
# of places (`--clients`) the default; few; and how many KiB a place may take that nobody has
PLACES, ONE_PLACE, KIB = 1_024, 1, 16


def ask_both(case):
    """Both connect before either asks, and the second one's reply is read first."""
    alice, bob = both_requests()
    first, second = case.client(), case.client()
    first.send(alice)
    second.send(bob)
    case.tell("the second", second.told(bob), CHANGED)
    case.tell("the first", first.told(alice), CHANGED)
    case.tell_end(TWO_CHANGES)


def cut_off(case):
    """A connection ends in the middle of a message, while others go on: a length of 256 bytes, and two of them."""
    case.start(3, workers=2)
    broken = case.client()
    broken.send_bytes(b"\0\0\1\0\1\0")
    broken.close()
    ask_both(case)


def address(case, client, wanted, tally):
    """A ticket that names 127.0.0.2 alone, from this address."""
    alice = request_now("alice", "New-pass2", 7, addresses=[2])
    case.start(1)
    case.tell(f"from {client}", case.client(client).ask(alice), wanted)
    case.tell_end(tally)


def sent_on(client):
    """Seconds until the end comes after a message that gets the last reply, and until nothing more can be sent."""
    watch = Watch()
    client.send_bytes(b"\x80\0\0\0")
    if not client.has_reply() or not client.is_closed():
        raise ValueError("no reply, or more after it")
    ended = watch.spent()
    try:
        while watch.spent() < PATIENCE:
            client.send_bytes(b"\0")
            time.sleep(0.01)
    except (BrokenPipeError, ConnectionResetError):
        pass
    return ended, watch.spent()


def processor_time(case):
    """Seconds of the processor that the service has used, on Linux."""
    return time.clock_gettime(~case.server.process.pid << 3 | 2)


class Connections(ServiceCase):
    def test_two_connections(self):
        """Two workers have one each."""
        self.start(2, workers=2)
        ask_both(self)

    def test_a_connection_cut_off(self):
        cut_off(self)

    def test_one_worker_draws_no_word_twice(self):
        """The second connects when the first has its reply, at one worker. The replies are sealed under the same keys, and
        have the same moment in their AP-REPs: they differ just where their confounders do."""
        alice, bob = both_requests()
        self.start(2)
        replies = []
        for sent in (alice, bob):
            client = self.client()
            client.send(sent)
            replies.append(client.reply())
            client.close()
        (one_ap, one_tail), (two_ap, two_tail) = map(parts_of, replies)
        self.tell("AP-REPs of one length", len(one_ap) == len(two_ap) > 0, True)
        self.tell("that differ, and so do the KRB-PRIVs", one_ap != two_ap and one_tail != two_tail, True)
        self.tell_end(TWO_CHANGES)

    def test_the_second_answered_first(self):
        """The first worker is held; the second has answered before it goes on."""
        alice, bob = both_requests()
        worker = Hold(self.folder, "worker")
        self.start(2, workers=2, HELD=worker.file)
        worker.hold()
        first, second = self.client(), self.client()
        first.send(alice)
        worker.wait()
        self.tell("the second", second.ask(bob), CHANGED)
        self.tell("the first has nothing yet", first.is_silent(), True)
        worker.free()
        self.tell("the first", first.told(alice), CHANGED)
        self.tell_end(TWO_CHANGES)

    def test_a_ticket_for_another_address(self):
        address(self, "127.0.0.1", ELSEWHERE, "entries 0 changes 0")

    def test_a_ticket_for_this_address(self):
        address(self, "127.0.0.2", CHANGED, ONE_CHANGE)

    def test_accepts_that_fail_for_a_moment(self):
        """Six accepts fail, each with a fault that passes. Each client asks over a connection of its own, in turn."""
        self.start(2, workers=2, ACCEPTS=PASSING)
        for what, sent in zip(("the first", "the second"), both_requests()):
            self.tell(what, self.client().ask(sent), CHANGED)
        self.tell_end(TWO_CHANGES)

    def test_no_file_is_left(self):
        """Two may come until no file is left; the third one is answered once another has left."""
        alice, bob = both_requests()
        self.start(3, workers=2)
        process = self.server.process.pid
        files = lambda: {int(it) for it in os.listdir(f"/proc/{process}/fd")}
        used = files()
        most = next(it for it in itertools.count() if len(set(range(it)) - used) == 2)
        resource.prlimit(process, resource.RLIMIT_NOFILE, (most, most))
        first, second, third = self.client(), self.client(), self.client()
        third.send(bob)
        self.tell("the first", first.ask(alice), CHANGED)
        watch = Watch()
        while len(files()) < len(used) + 2 and watch.spent() < PATIENCE:
            time.sleep(0.01)
        # for some tries of the listener
        time.sleep(0.3)
        self.tell("the third has nothing yet", third.is_silent(), True)
        second.close()
        self.tell("the third", third.told(bob), CHANGED)
        self.tell_end(TWO_CHANGES)

    def test_nothing_to_accept(self):
        """A listener that can't go on, though nobody came, ends the service."""
        self.start(2, ACCEPTS=LASTING)
        self.tell("its end", self.last_lines(), (["entries 0 changes 0", "cannot listen"], 1))

    def test_nothing_to_accept_without_a_limit(self):
        """So does one of a service that was to go on for ever: its end isn't told as a good one."""
        self.start("unlimited", ACCEPTS=LASTING)
        self.tell("its end", self.last_lines(), (["entries 0 changes 0", "cannot listen"], 1))

    def test_without_a_limit(self):
        """It goes on after each connection, and ends when it is told to."""
        start(self, "unlimited")
        for sent in both_requests():
            client = self.client()
            self.tell("a change", client.ask(sent), CHANGED)
            client.close()
        tell_end(self, TWO_CHANGES)

    def test_a_silent_connection_is_ended(self):
        """One keeps silent until its connection is ended, and nothing was left to read; another one is answered before."""
        alice, _ = both_requests()
        self.start(2, options=["--idle", "1"])
        silent = self.client()
        self.tell("another one", self.client().ask(alice), CHANGED)
        self.tell("the end", silent.is_closed(), True)
        self.tell_end(ONE_CHANGE)

    def test_a_reply_arrives_before_the_end(self):
        """A message that is too long is sent whole; then its reply is read, and the end, with nothing left to read."""
        self.start(1)
        client = self.client()
        client.send_bytes(b"\0\3\0\0", bytes(192 * 1_024))
        client.socket.shutdown(socket.SHUT_WR)
        self.tell("a reply", client.has_reply(), True)
        self.tell("the end", client.is_closed(), True)
        self.tell_end("entries 0 changes 0")

    def test_a_client_that_sends_on(self):
        """The end comes with the last reply; what is sent after it is read for a second."""
        self.start(TRIES)
        ended, cut_off = map(min, zip(*(sent_on(self.client()) for _ in range(TRIES))))
        self.tell(f"the end at once ({ended:.2f})", ended < 0.5, True)
        self.tell(f"read for a second ({cut_off:.2f})", 0.8 < cut_off < 2, True)
        self.tell_end("entries 0 changes 0")

    def test_what_a_change_costs(self):
        """A change costs what its own keys' iterations cost: none are derived under a count that nobody wants."""
        spent = []
        for iterations in FEW, MANY:
            self.server.journal.unlink(missing_ok=True)
            self.realm(iterations=iterations)
            self.start(1)
            client = self.client()
            client.send_messages(NO_REQUEST)
            self.tell("a reply, so that all threads are there", client.has_reply(), True)
            before = processor_time(self)
            asked = [request_now("alice", f"New-pass{number}", number) for number in range(FIVE)]
            self.tell(f"changes, {iterations}", {client.ask(sent) for sent in asked}, {CHANGED})
            spent.append(processor_time(self) - before)
            self.tell_end(f"entries {FIVE} changes {FIVE}")
        few, many = spent
        self.tell(f"few iterations cost less than half ({1_000 * few:.1f} of {1_000 * many:.1f} ms)", 2 * few < many, True)

    def test_what_a_place_costs(self):
        """A place in which there is no connection takes next to no memory."""
        taken = []
        for places in ONE_PLACE, PLACES:
            self.start(1, options=["--clients", str(places)])
            client = self.client()
            client.send_messages(NO_REQUEST)
            self.tell("a reply, so that all threads are there", client.has_reply(), True)
            with open(f"/proc/{self.server.process.pid}/status") as file:
                [size] = [int(line.split()[1]) for line in file if line.startswith("VmData:")]
            taken.append(size)
            self.tell_end("entries 0 changes 0")
        one, all_of_them = taken
        each = (all_of_them - one) / (PLACES - ONE_PLACE)
        self.tell(f"less than {KIB} KiB for each ({each:.1f})", each < KIB, True)


if __name__ == "__main__":
    main(__doc__)
