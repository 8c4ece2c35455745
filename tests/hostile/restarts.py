"""Clean restarts with `--resume FILE` in a realm of 10,000 principals, while clients change passwords all the time.

A client whose connection is refused, or ends without a reply, sends the very same request again: if it had been decided, the
answer would be that it is replayed. Each request has to be accepted, within a second of when it was first sent, and its change
has to be in the journal at the end. Where other programs wait for the processors, or the machine's host takes them away, a wait
may be as many times longer.
"""

import os
import threading
import time

from harness.cases import main
from harness.asking import request_now
from harness.controlling import OK, ask, entries_of, status
from harness.journal import read_journal
from harness.serving import CHANGED, PATIENCE, REPLAYED, Client, Watch, ServiceCase

PRINCIPALS, CLIENTS, RESTARTS = 10_000, 8, 5
# seconds that a service goes on between two restarts, between two tries of a client, and that a request may take
APART, AGAIN, LONGEST = 2, 0.02, 1


def processor_time():
    """What the processors have done since the machine's start, and what of it the machine's host took away."""
    with open("/proc/stat", encoding="ascii") as file:
        numbers = [int(it) for it in file.readline().split()[1:9]]
    return sum(numbers), numbers[-1]


def slowness(since):
    """How many times as long as by itself a service has taken since then."""
    whole, taken = (now - before for now, before in zip(processor_time(), since))
    waiting = os.getloadavg()[0] / os.cpu_count()
    return max(1, waiting) / max(1 - taken / max(whole, 1), 0.1)


class Changer(threading.Thread):
    """Changes a user's password all the time, each time over a connection of its own: what it sent, what each was told, and how
    long that took."""

    def __init__(self, server, name):
        super().__init__()
        self.server, self.name = server, name
        self.over = threading.Event()
        self.sent, self.told, self.waits = [], [], []
        # tries without an answer
        self.tries = 0

    def run(self):
        while not self.over.is_set():
            number = len(self.sent)
            self.sent.append(request_now(self.name, f"{self.name}-Pass{number}", number))
            watch = Watch()
            reply = self.at_last(self.sent[-1], watch)
            self.waits.append(watch.spent())
            self.told.append(Client.said(self.sent[-1], reply))

    def at_last(self, sent, watch):
        """The reply to the request, however often it has to be sent."""
        while (reply := self.once(sent)) is None and watch.spent() < PATIENCE:
            self.tries += 1
            time.sleep(AGAIN)
        return reply

    def once(self, sent):
        try:
            client = Client(self.server)
        except ConnectionError:
            return None
        try:
            client.send(sent)
            return client.reply()
        except ConnectionError:
            return None
        finally:
            client.close()


def start(case):
    case.start("unlimited", workers=4, options=["--control", "control", "--resume", str(case.folder / "resume")])


def stop(case):
    """It ends as it is told to; what it printed."""
    case.tell("stop", ask(case, "stop"), OK)
    lines = case.server.last_words(30).splitlines()
    case.tell("its end", (case.server.process.returncode, [it for it in lines if not it.startswith("entries ")]), (0, []))
    return lines


def tell_answers(case, changers, slow):
    count = sum(len(it.sent) for it in changers)
    print(f"{count} requests, {sum(it.tries for it in changers)} tries without an answer", flush=True)
    case.tell("other answers", [told for it in changers for told in it.told if told != CHANGED], [])
    case.tell("some had to try again", any(it.tries for it in changers), True)
    longest = max(wait for it in changers for wait in it.waits)
    told = f"the longest wait is at most {LONGEST} s, or {LONGEST * slow:.2f} here ({longest:.2f})"
    case.tell(told, longest <= LONGEST * slow, True)


def tell_kept(case, changers, lines):
    """The journal has each change, and the runs together have decided each request once, and those that came once more."""
    count = sum(len(it.sent) for it in changers)
    case.tell("entries and changes", entries_of(lines), (count + 2 * CLIENTS, count))
    records, torn = read_journal(case.server.journal.read_bytes())
    found = {it.name: [record.kvno for record in records if record.name == it.name] for it in changers}
    case.tell("versions that are missing", [it.name for it in changers if found[it.name] != list(range(2, len(it.sent) + 2))], [])
    case.tell("the journal's other records, and what is torn", (len(records) - count, torn), (0, b""))


class Restarts(ServiceCase):
    def test_restarts_under_load(self):
        """Stopped and started again and again; how long nobody listened is told."""
        self.realm([f"user{number}" for number in range(PRINCIPALS)])
        start(self)
        begin = processor_time()
        changers = [Changer(self.server, f"user{number * PRINCIPALS // CLIENTS}") for number in range(CLIENTS)]
        for changer in changers:
            changer.start()
        lines = []
        try:
            for number in range(RESTARTS):
                time.sleep(APART)
                watch = Watch()
                lines += stop(self)
                start(self)
                print(f"restart {number + 1}: {watch.spent():.2f} s", flush=True)
                self.tell("no quiet time", status(self)["quiet-until"], "-")
            time.sleep(APART)
        finally:
            for changer in changers:
                changer.over.set()
            for changer in changers:
                changer.join()
        tell_answers(self, changers, slowness(begin))
        again = [self.client().ask(it) for changer in changers for it in (changer.sent[0], changer.sent[-1])]
        self.tell("the first and the last of each once more", again, [REPLAYED] * 2 * CLIENTS)
        while self.clients:
            self.clients.pop().close()
        lines += stop(self)
        tell_kept(self, changers, lines)


if __name__ == "__main__":
    main(__doc__)
