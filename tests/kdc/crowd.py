"""Clients that ask at the same time, and how long each of their replies was held back.

A reply counts as held back from the moment at which its record is seen in the journal. Both moments are
seen by a loop that looks again and again, so the time that it tells is what it was at least.
"""

import contextlib
import random
import selectors
import socket
import time

from harness.asking import framed, request_now, said
from harness.journal import Record, read_journal

PAUSE = 0.002
DONE = "code 0 password changed"
USED = "code 4 password used before"
# asked within 300 seconds of a start that found a journal
QUIET = "code 3 error 37 "
# asked while the agent isn't there, of a service that requires it
AWAY = "code 2 error 60 KDC out of reach"
# seconds after which a client asks again where nobody listens, or the service isn't to be asked yet
AGAIN = 0.05
# seconds after which nobody waits any more
SILENCE = 60


class User:
    """`asked` are the passwords that were, one after the other; each is asked for until it is known to be made. `begun` are the
    moments at which each was asked for first, and `answered` those of them of which a reply said that they are made."""

    def __init__(self, name):
        self.name = name
        self.asked, self.begun, self.answered = [], [], []
        # whether the last one's reply was lost
        self.is_lost = False
        self.not_before = 0.0
        self.change = None


class Change:
    def __init__(self, user, request, connection):
        self.user = user
        self.request = request
        self.connection = connection
        self.reply = b""
        # when its record was seen, and when the reply wasn't there yet
        self.recorded = None
        self.answered = None

    def is_whole(self):
        return len(self.reply) >= 4 and len(self.reply) >= 4 + int.from_bytes(self.reply[:4], "big")


class Crowd:
    """Users of the service on `port` whose journal is that of `files`."""

    def __init__(self, files, port, names):
        self.files = files
        self.port = port
        self.users = {name: User(name) for name in names}
        self.selector = selectors.DefaultSelector()
        # seconds by which the clients' clocks are ahead, and for which each rests at most after a reply
        self.ahead = self.rest = 0
        self.cusec = 0
        self.read = 0
        self.looked = time.monotonic()
        self.replies = []
        # replies that never came
        self.lost = 0

    def make(self, count):
        """So many changes, until each is known to be made; the seconds of each reply, and other answers."""
        self.left, self.held, self.others = count, [], []
        self.heard = time.monotonic()
        while self.left > 0 or any(user.change or user.is_lost for user in self.users.values()):
            self.look()
            if self.looked - self.heard > SILENCE:
                raise RuntimeError("no reply comes any more")
            if self.replies:
                self.end(self.replies.pop(0))
            else:
                self.begin_one()
        return self.held, self.others

    # ---- asking

    def begin_one(self):
        """The next request of one who has none under way, and has asked the least often: so all have their changes."""
        now = time.monotonic()
        free = [
            user for user in self.users.values()
            if user.change is None and user.not_before <= now and (user.is_lost or self.left > 0)
        ]
        if free:
            self.begin(min(free, key=lambda user: len(user.asked)))

    def begin(self, user):
        password = user.asked[-1] if user.is_lost else f"{user.name}-Pass{len(user.asked)}"
        self.cusec += 1
        begun = time.monotonic()
        request = request_now(user.name, password, self.cusec, self.ahead)
        try:
            connection = socket.create_connection(("127.0.0.1", self.port), 5)
            connection.sendall(framed(request))
        except OSError:
            user.not_before = time.monotonic() + AGAIN
            return
        if not user.is_lost:
            user.asked.append(password)
            user.begun.append(begun)
            self.left -= 1
        user.change = Change(user, request, connection)
        self.selector.register(connection, selectors.EVENT_READ, user.change)

    # ---- looking

    def look(self):
        """At the journal, and then at the connections."""
        ready = self.selector.select(0 if self.replies else PAUSE)
        before, self.looked = self.looked, time.monotonic()
        for name in self.new_records():
            change = self.users[name].change
            if change is not None and change.recorded is None:
                change.recorded = self.looked
        for key, _ in ready:
            self.hear(key.data, before)

    def new_records(self):
        if self.files.length() == self.read:
            return []
        with self.files.journal.open("rb") as file:
            file.seek(self.read)
            data = file.read()
        records, rest = read_journal(data)
        self.read += len(data) - len(rest)
        return [record.name for record in records if type(record) is Record]

    def hear(self, change, before):
        """A part of the reply, or the end; it wasn't there before that moment."""
        data = b""
        with contextlib.suppress(OSError):
            data = change.connection.recv(65536)
        change.reply += data
        if change.is_whole() or not data:
            change.answered, self.heard = before, self.looked
            self.selector.unregister(change.connection)
            change.connection.close()
            self.replies.append(change)

    # ---- the end of a change

    def end(self, change):
        user = change.user
        user.change, user.not_before = None, time.monotonic() + random.uniform(0, self.rest)
        if not change.is_whole():
            self.lost += 1
            user.is_lost, user.not_before = True, time.monotonic() + AGAIN
            return
        told = said(change.request, change.reply[4:])
        if told == DONE:
            user.answered.append(user.asked[-1])
            if change.recorded is not None:
                self.held.append(change.answered - change.recorded)
        if told.startswith(QUIET) or told == AWAY:
            user.is_lost, user.not_before = True, time.monotonic() + AGAIN
            return
        if told != DONE and not (told == USED and user.is_lost):
            self.others.append(told)
        user.is_lost = False
