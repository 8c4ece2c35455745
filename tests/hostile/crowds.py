"""Clients beside one another at the only worker of `serve`: silent, slow, many, and more than may be; and messages that
wait while that worker is held.

Each case is a service of its own, with so many connections, places (`--clients`) and MiB (`--buffers`) as it says, and
has to end as docs/PROTOCOL (Connections and datagrams) has it: who is answered, who is ended, and within which time. The
bounds of time tell a service that acts at once from one that waits for its next look round, a tenth of a second later, at
each of many steps. A worker is made slow, or is held, by its look at the clock of the day (machine.c). Needs gcc.
"""

import socket
import threading
import time

from harness.cases import main
from harness.serving import CHANGED, LONGEST, NO_REQUEST, Hold, Watch, with_length, both_requests, ServiceCase

# milliseconds that a slow worker needs for its look at the clock
SLOW = 5
ONE_CHANGE = "entries 1 changes 1"
TWO_CHANGES = "entries 2 changes 2"
NO_CHANGE = "entries 0 changes 0"


def drip(client, turns):
    """A byte each tenth of a second, so many at the most, until the connection is ended."""
    for _ in range(turns):
        try:
            client.socket.send(b"\0")
            if not client.is_silent() and not client.socket.recv(1):
                break
        except ConnectionError:
            break
        time.sleep(0.1)


def send_almost(client, size):
    """A message of so many bytes but for the last one, as far as the service takes it."""
    try:
        client.send_bytes(with_length(bytes(size))[:-1])
    except ConnectionError:
        pass


def given_up(case, patience, are_sending, *dropped):
    """Alice gives her request up after so many seconds, while the only worker has bob's. It isn't decided: the same
    bytes change her password later. A reply that she hasn't read makes her end a reset. 300 others each send a message
    of the greatest length meanwhile, or leave at once."""
    alice, bob = both_requests()
    worker = Hold(case.folder, "worker")
    case.start(303, HELD=worker.file)
    first = case.client()
    first.send_messages(NO_REQUEST)
    first.socket.recv(1, socket.MSG_PEEK)
    worker.hold()
    second = case.client()
    second.send(bob)
    worker.wait()
    first.send(alice)
    time.sleep(0.3 + patience)
    first.close()
    others = [case.client() for _ in range(300)]
    for other in others:
        if are_sending:
            other.send_messages(bytes(LONGEST))
        else:
            other.close()
    time.sleep(0.3)
    worker.free()
    case.tell("what was held", second.told(bob), CHANGED)
    if are_sending:
        left = next((number for number, other in enumerate(others) if not answered_or_ended(other)), None)
        case.tell("of the others the first that is neither answered nor ended", left, None)
    case.tell("the same bytes later", case.client().ask(alice), CHANGED)
    if are_sending:
        lines, status = case.last_lines()
        case.tell("its end", (lines[0], status), (TWO_CHANGES, 0))
    else:
        case.tell_end(TWO_CHANGES, *dropped)


def answered_or_ended(client):
    """It isn't left as it is."""
    try:
        return client.has_reply() or client.is_ended()
    except TimeoutError:
        return False


class Crowds(ServiceCase):
    def test_34_connections_at_one_worker(self):
        """33 that keep silent, every second one in the midst of a message, and one after them."""
        alice, _ = both_requests()
        self.start(34)
        for number in range(33):
            silent = self.client()
            if number % 2 == 0:
                silent.send_bytes(b"\0\0\1\0\1")
        self.tell("one after 33 silent ones", self.client().ask(alice), CHANGED)
        self.tell_end(ONE_CHANGE)

    def test_a_client_that_drips(self):
        """One sends a byte each tenth of a second, and is ended a second after it came; another is answered meanwhile."""
        alice, _ = both_requests()
        self.start(2, options=["--idle", "1"])
        watch = Watch()
        slow = self.client()
        slow.send_bytes(b"\0\0\xff\xff")
        drip(slow, 2)
        self.tell("another one", self.client().ask(alice), CHANGED)
        drip(slow, 58)
        self.tell("not before a second", watch.spent() >= 1, True)
        self.tell_within(3, watch)
        self.tell_end(ONE_CHANGE)

    def test_more_clients_than_may_be(self):
        """Two may be there: for the third the first one ends, which has waited the longest. A reply shows that both are
        there."""
        alice, bob = both_requests()
        self.start(3, options=["--clients", "2"])
        first, second = self.client(), self.client()
        self.tell("the second", second.ask(alice), CHANGED)
        self.tell("the third", self.client().ask(bob), CHANGED)
        self.tell("the first is ended", first.is_ended(), True)
        second.send_messages(NO_REQUEST)
        self.tell("the second again", second.has_reply(), True)
        self.tell_end(TWO_CHANGES)

    def test_more_bytes_than_may_be(self):
        """280 messages that lack a byte hold more than a MiB: those that have waited the longest end for one that is
        whole."""
        alice, _ = both_requests()
        self.start(281, options=["--buffers", "1"])
        held = [self.client() for _ in range(280)]
        for client in held:
            send_almost(client, 4_096)
        self.tell("a whole message", self.client().ask(alice), CHANGED)
        self.tell("the first is ended", held[0].is_ended(), True)
        self.tell_end(ONE_CHANGE)

    def test_large_messages_leave_room(self):
        """Large messages that aren't whole hold half of the MiB and no more: a small one is answered beside them, and a
        large one of another client, for which the one that has waited the longest is ended."""
        alice, _ = both_requests()
        self.start(22, options=["--buffers", "1"])
        watch = Watch()
        held = [self.client() for _ in range(20)]
        for client in held:
            send_almost(client, LONGEST)
        self.tell("a small one", self.client().ask(alice), CHANGED)
        large = self.client()
        large.send_messages(bytes(LONGEST))
        self.tell("a large one", large.has_reply(), True)
        self.tell("the first is ended", held[0].is_ended(), True)
        self.tell_within(5, watch)
        self.tell_end(ONE_CHANGE)

    def test_a_client_that_reads_late(self):
        """One sends 300 messages, and reads no reply until another one has its own."""
        alice, _ = both_requests()
        self.start(2)
        watch = Watch()
        first, second = self.client(), self.client()
        for _ in range(300):
            first.send_messages(NO_REQUEST)
        self.tell("the other one", second.ask(alice), CHANGED)
        first.socket.shutdown(socket.SHUT_WR)
        self.tell("replies", sum(first.has_reply() for _ in range(300)), 300)
        self.tell("and then the end", first.is_ended(), True)
        self.tell_within(15, watch)
        self.tell_end(ONE_CHANGE)

    def test_answers_that_come_at_once(self):
        """Thirty messages over one connection, each after the reply to the one before, to a worker that is slow."""
        self.start(1, TICK=SLOW)
        client = self.client()
        watch = Watch()
        replies = 0
        for _ in range(30):
            client.send_messages(NO_REQUEST)
            replies += client.has_reply()
        self.tell("replies", replies, 30)
        self.tell_within(1.5, watch)
        self.tell_end(NO_CHANGE)

    def test_newcomers_one_after_the_other(self):
        """One may be there: of twenty clients each has its reply before the next one has the place. The worker is slow."""
        self.start(20, options=["--clients", "1"], TICK=SLOW)
        watch = Watch()
        clients = []
        for _ in range(20):
            clients.append(self.client())
            clients[-1].send_messages(NO_REQUEST)
        self.tell("replies", sum(client.has_reply() for client in clients), 20)
        self.tell_within(1, watch)
        self.tell_end(NO_CHANGE)

    def test_the_end_after_the_last_reply(self):
        """A message that is too long: after its reply the client sees at once that the service has closed its side. The
        connection itself would be closed a second after the reply."""
        self.start(1)
        client = self.client()
        watch = Watch()
        client.send_bytes(b"\0\1\0\0")
        self.tell("a reply", client.has_reply(), True)
        self.tell("the end", client.is_ended(), True)
        self.tell_within(0.8, watch)
        self.tell_end(NO_CHANGE)

    def test_large_messages_in_turn(self):
        """Fourteen have each sent sixteen messages of the greatest length before the first is answered. There is room for
        seven at a time: all have room in turn, so none waits for long, and none ends for another."""
        worker = Hold(self.folder, "worker")
        self.start(14, options=["--buffers", "1", "--idle", "3"], HELD=worker.file)
        worker.hold()
        # whose replies came, in their order
        order = []

        def hear(number, client):
            for _ in range(16):
                if client.has_reply():
                    order.append(number)

        clients = [self.client() for _ in range(14)]
        sending = [threading.Thread(target=client.send_messages, args=[bytes(LONGEST)] * 16) for client in clients]
        hearing = [threading.Thread(target=hear, args=numbered) for numbered in enumerate(clients)]
        for thread in sending + hearing:
            thread.start()
        worker.wait()
        time.sleep(0.3)
        worker.free()
        for thread in sending + hearing:
            thread.join()
        self.tell("replies", [order.count(number) for number in range(14)], [16] * 14)
        self.tell("those with a reply in the first half of all", len(set(order[:112])), 14)
        self.tell_end(NO_CHANGE)

    def test_a_newcomer_waits_for_room(self):
        """One may be there, and its message is being answered: the second is kept until the first has its reply."""
        alice, bob = both_requests()
        worker = Hold(self.folder, "worker")
        self.start(2, options=["--clients", "1"], HELD=worker.file)
        worker.hold()
        first = self.client()
        first.send(alice)
        worker.wait()
        second = self.client()
        second.send(bob)
        time.sleep(0.3)
        worker.free()
        self.tell("the first", first.told(alice), CHANGED)
        self.tell("the second", second.told(bob), CHANGED)
        self.tell_end(TWO_CHANGES)

    def test_a_reset_connection(self):
        given_up(self, 0, False)

    def test_a_message_that_waits_too_long(self):
        given_up(self, 5.5, False, "messages dropped after waiting 5 seconds for a worker: 1")

    def test_whole_large_messages(self):
        given_up(self, 0, True)


if __name__ == "__main__":
    main(__doc__)
