"""Hostile clients of a service, each kind in processes of its own, and the messages that they send."""

import collections
import contextlib
import errno
import functools
import heapq
import itertools
import multiprocessing
import os
import random
import resource
import select
import socket
import struct
import sys
import time

from harness import wire

# seconds: how long an answer is waited for, a siege until it stands, and it stands before the clock starts
PATIENCE, STANDING, SETTLED = 30, 60, 2
# hostile connections that are opened in a second, and the seconds until one that has ended comes again
PACE, AGAIN = 2_000, 1
# of those that read no reply every other one is reset so many seconds after it came
STAY = 2
# messages a second of the one that runs the history full
FILLING = 2_000
LONGEST_MESSAGE = 65_535
# what a process says once each of its connections was there
CAME = "came"


class Hostile:
    """A connection that is opened anew where it has ended."""

    wanted = select.EPOLLIN
    # messages that it sends at once
    copies = 1

    def __init__(self, crowd, number, text):
        self.crowd = crowd
        self.number = number
        # what it sends over and over
        self.text = memoryview(text * self.copies)
        self.sent = 0
        self.socket = None
        self.is_here = False
        # how often it came
        self.life = 0

    def open(self):
        self.socket = socket.socket()
        self.socket.setblocking(False)
        self.prepare()
        fault = self.socket.connect_ex(("127.0.0.1", self.crowd.port))
        self.crowd.hear_of(self, select.EPOLLOUT)
        if fault not in (0, errno.EINPROGRESS):
            self.end()

    def happen(self, events):
        try:
            if not self.is_here:
                self.arrive()
            else:
                self.go_on(events)
        except BlockingIOError:
            pass
        except OSError:
            self.end()

    def arrive(self):
        fault = self.socket.getsockopt(socket.SOL_SOCKET, socket.SO_ERROR)
        if fault:
            raise OSError(fault, "no connection")
        self.is_here = True
        self.life += 1
        self.sent = 0
        self.crowd.came(self)
        self.crowd.poll.modify(self.socket, self.wanted)
        self.begin()

    def go_on(self, events):
        if events & select.EPOLLIN:
            more = self.socket.recv(65_536)
            if not more:
                raise ConnectionResetError
            self.heard(more)
        if events & select.EPOLLOUT:
            self.send()
        if events & (select.EPOLLERR | select.EPOLLHUP | select.EPOLLRDHUP):
            raise ConnectionResetError

    def send(self):
        count = self.socket.send(self.text[self.sent :])
        self.sent = (self.sent + count) % len(self.text)
        self.crowd.counts["bytes"] += count

    def end(self):
        self.crowd.gone(self)
        self.socket.close()
        self.is_here = False
        self.crowd.later(AGAIN * random.uniform(0.5, 1.5), self.open)

    def every(self, seconds, what):
        """Does it at once, and again and again until this connection has ended."""
        self.again(self.life, seconds, what)

    def again(self, life, seconds, what):
        if self.is_here and self.life == life:
            try:
                what()
            except BlockingIOError:
                pass
            except OSError:
                self.end()
                return
            self.crowd.later(seconds, functools.partial(self.again, life, seconds, what))

    def prepare(self):
        """Before it is opened."""

    def begin(self):
        """It is there."""

    def heard(self, more):
        """Bytes of replies came."""


class Silent(Hostile):
    """Sends nothing."""


class Slow(Hostile):
    """Announces the longest message, and sends it a byte a second."""

    def begin(self):
        self.socket.send(LONGEST_MESSAGE.to_bytes(4, "big"))
        self.crowd.later(random.random(), functools.partial(self.again, self.life, 1, self.drip))

    def drip(self):
        self.socket.send(b"\0")


class Mute(Hostile):
    """Sends requests until there is no more room for them, and reads no reply."""

    wanted = select.EPOLLOUT | select.EPOLLRDHUP
    copies = 64

    def prepare(self):
        # before it connects: afterwards the window would be larger already
        self.socket.setsockopt(socket.SOL_SOCKET, socket.SO_RCVBUF, 1)

    def begin(self):
        if self.number % 2:
            self.crowd.later(STAY, functools.partial(self.leave, self.life))

    def leave(self, life):
        """By a reset."""
        if self.is_here and self.life == life:
            self.socket.setsockopt(socket.SOL_SOCKET, socket.SO_LINGER, struct.pack("ii", 1, 0))
            self.end()


class Reading(Hostile):
    """Reads the replies, and counts them."""

    def prepare(self):
        self.reply = b""

    def heard(self, more):
        self.reply += more
        while len(self.reply) >= 4:
            end = 4 + int.from_bytes(self.reply[:4], "big")
            if len(self.reply) < end:
                break
            self.reply = self.reply[end:]
            self.crowd.counts["replies"] += 1


class Filling(Reading):
    """Sends requests at a pace."""

    copies = 10

    def begin(self):
        self.every(self.copies / FILLING, self.send)


class Flood(Reading):
    """Sends requests as fast as they are taken."""

    wanted = select.EPOLLIN | select.EPOLLOUT

    def prepare(self):
        super().prepare()
        # more would wait in the system alone
        self.socket.setsockopt(socket.SOL_SOCKET, socket.SO_SNDBUF, LONGEST_MESSAGE)


class Crowd:
    """Hostile clients of one kind, in a process of their own."""

    def __init__(self, port, kind, count, text, orders):
        self.port = port
        self.orders = orders
        self.poll = select.epoll()
        self.here = {}
        # what is to be done, and when
        self.timers = []
        self.order = itertools.count()
        self.counts = collections.Counter()
        self.coming = set(range(count))
        self.poll.register(orders.fileno(), select.EPOLLIN)
        for number in range(count):
            self.later(number / PACE, kind(self, number, text).open)

    def later(self, seconds, what):
        heapq.heappush(self.timers, (time.monotonic() + seconds, next(self.order), what))

    def hear_of(self, member, events):
        self.here[member.socket.fileno()] = member
        self.poll.register(member.socket, events)

    def came(self, member):
        self.counts["connections"] += 1
        if self.coming:
            self.coming.discard(member.number)
            if not self.coming:
                self.orders.send(CAME)

    def gone(self, member):
        self.poll.unregister(member.socket)
        del self.here[member.socket.fileno()]

    def run(self):
        """Until it is told to end; to anything else that it is told it answers what it counted."""
        parent = os.getppid()
        while os.getppid() == parent:
            now = time.monotonic()
            wait = max(0, min(1, self.timers[0][0] - now)) if self.timers else 1
            for file, events in self.poll.poll(wait):
                if file != self.orders.fileno():
                    self.here[file].happen(events)
                elif self.orders.recv() == "end":
                    return
                else:
                    self.orders.send(self.counts)
            now = time.monotonic()
            while self.timers and self.timers[0][0] <= now:
                heapq.heappop(self.timers)[2]()


def besiege(*words):
    Crowd(*words).run()


class Besiegers:
    """The processes of a siege: for each of them a kind, how many, and what they send."""

    def __init__(self, port, parts):
        self.orders = []
        self.processes = []
        for part in parts:
            here, there = multiprocessing.Pipe()
            process = multiprocessing.Process(target=besiege, args=(port, *part, there), daemon=True)
            process.start()
            self.orders.append(here)
            self.processes.append(process)

    def stand(self):
        """Waits until each of them came; whether they did."""
        end = time.monotonic() + STANDING
        came = [order.poll(max(0, end - time.monotonic())) for order in self.orders]
        if self.orders:
            time.sleep(SETTLED)
        return all(came)

    def counts(self):
        """All that they did so far."""
        done = collections.Counter()
        for order in self.orders:
            order.send("tell")
            told = CAME
            while told == CAME:
                told = order.recv()
            done.update(told)
        return done

    def leave(self):
        for order, process in zip(self.orders, self.processes):
            with contextlib.suppress(OSError):
                order.send("end")
            process.join(PATIENCE)
            process.kill()


def forged(size):
    """A message whose ticket has a sealed part of so many bytes that nobody sealed."""
    part = wire.sequence((0, wire.integer(18)), (1, wire.integer(3)), (2, wire.octets(os.urandom(size))))
    ticket = wire.application(
        1, wire.sequence((0, wire.integer(5)), (1, wire.string(wire.REALM)), (2, wire.CHANGEPW), (3, part))
    )
    ap = wire.sequence(
        (0, wire.integer(5)),
        (1, wire.integer(14)),
        (2, wire.flags(0)),
        (3, ticket),
        (4, wire.sealed(wire.SESSION, 11, b"nobody")),
    )
    private = wire.krb_priv(b"nothing", forged=False)
    return wire.framed(0xFF80, wire.application(14, ap), private)


def most_expensive():
    """The longest message of these: between 32 kB and 64 kB lengths take as many bytes."""
    size = LONGEST_MESSAGE // 2
    size += LONGEST_MESSAGE - len(forged(size))
    message = forged(size)
    assert len(message) == LONGEST_MESSAGE
    return message


def as_sent(message):
    return len(message).to_bytes(4, "big") + message


def raise_files(wanted):
    """Both sides' limit of open files; the service is started by this process."""
    _, most = resource.getrlimit(resource.RLIMIT_NOFILE)
    if most != resource.RLIM_INFINITY and most < wanted:
        sys.exit(f"{wanted} files wanted, and no more than {most} may be open (ulimit -Hn)")
    resource.setrlimit(resource.RLIMIT_NOFILE, (most, most))
