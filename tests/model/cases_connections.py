"""What `cases_network` must print below `[connections]`, worked out with nothing of ours: of the cases there, on standard input, the
answers.

    python3 -m tests.model.cases_connections < crates/cases_network/stdin

A naive model of the machine of connections, by crates/chpw_connections/README.md and its specs: a list of connections,
each a small object, and a plain list for each worker's queue. crates/cases_network/README.md has the cases.
"""
import ipaddress

from harness.topic import answer_lines

LONGEST = 65535
REPLIES = 65536
LARGEST_SMALL = 4096
READING, QUEUED, ANSWERING, CONFIRMING, WRITING, LINGERING, ABANDONED, ENDED = range(8)


class Connection:
    def __init__(self, slot, number, peer, share, now):
        self.slot, self.number, self.peer, self.share, self.since = slot, number, peer, share, now
        self.stage, self.message, self.reply, self.out = READING, b"", b"", 0
        # of a message that it reads, and since when there is as much
        self.room, self.begun = 0, now
        self.last, self.replies = False, 0
        # how many bytes of the journal the KDC must have before its reply goes out
        self.mark = 0

    def whole(self):
        """Four bytes of length, then as many as they say; no more where that is too many."""
        stated = int.from_bytes(self.message[:4], "big") if len(self.message) >= 4 else 0
        return 4 if stated > LONGEST else 4 + stated

    def wanted(self):
        return self.whole() - len(self.message) if self.stage == READING else 0

    def held(self):
        return self.room if self.stage == READING else self.size()

    def size(self):
        """All bytes of its message, as far as its length has come, or of its reply."""
        return {READING: self.whole(), QUEUED: len(self.message), CONFIRMING: len(self.reply),
                WRITING: len(self.reply)}.get(self.stage, 0)

    def on_its_way(self):
        """Since when its message or its reply is."""
        return self.begun if self.stage == READING else self.since

    def growth(self):
        """How many more it holds once its next bytes are read: there is room for a length, or for a whole message."""
        return max(self.size() - self.held(), 0)

    def left(self):
        return self.reply[self.out:] if self.stage == WRITING else b""

    def waits_for_client(self):
        return self.stage in (READING, WRITING, LINGERING)

    def go(self, stage, now):
        self.stage, self.since = stage, now


class Machine:
    def __init__(self, connections, size, idle, grace, wait, linger, workers, per_peer=None):
        self.most, self.size, self.grace = connections, size, grace
        self.per_peer = connections if per_peer is None else per_peer
        self.times = {READING: idle, WRITING: idle, QUEUED: wait, LINGERING: linger}
        self.connections = []
        self.freed, self.used = [], 0
        self.queues = [[] for _ in range(workers)]
        self.accepted = self.expired = 0
        self.to_look_at = []

    def at(self, slot):
        return next((c for c in self.connections if c.slot == slot), None)

    def held(self):
        return sum(c.held() for c in self.connections)

    def is_late(self, c, now):
        return c.stage in self.times and now - c.since >= self.times[c.stage]

    def look(self, c):
        self.to_look_at.append(c.slot)

    def of_share(self, share):
        return [c for c in self.connections if share is not None and c.share == share]

    def is_full(self, share):
        return share is not None and len(self.of_share(share)) >= self.per_peer

    def accept(self, peer, share, now):
        """In the slot that was freed last, else in the next one; nobody has more than his share."""
        if len(self.connections) >= self.most or self.is_full(share):
            return None
        if self.freed:
            slot = self.freed.pop()
        else:
            slot, self.used = self.used, self.used + 1
        self.connections.append(Connection(slot, self.accepted, peer, share, now))
        self.accepted += 1
        return slot

    def fail(self, c):
        """It can't go on: it ends, or with the worker's reply where a worker answers it."""
        if c.stage in (ABANDONED, ENDED):
            return
        if c.stage == ANSWERING:
            c.stage = ABANDONED
            return
        for queue in self.queues:
            if c in queue:
                queue.remove(c)
        c.stage = ENDED
        self.look(c)

    def make_room(self, share=None):
        """Who has waited for its client the longest ends, of all or of a peer's; of two that have waited as long the one in
        the lower slot."""
        waiting = [c for c in self.connections if c.waits_for_client() and share in (None, c.share)]
        c = min(waiting, key=lambda c: (c.since, c.slot), default=None)
        if c:
            self.fail(c)
        return c is not None

    def others(self, c, least, until):
        """Who gives way to this one: to end one that holds no bytes makes no room for bytes, and one that there is no room
        for doesn't wait for its client."""
        waiting = [d for d in self.connections if d is not c and d.waits_for_client() and d.held() and not d.growth()]
        return [d for d in waiting if d.size() > least and d.on_its_way() <= until]

    def could_have_room(self, c, count, most, least, until):
        return self.held() - sum(d.held() for d in self.others(c, least, until)) + count <= most

    def find_room(self, c, count, most, least, until):
        """Nobody is ended where it isn't enough; and who has been on its way the longest first."""
        if not self.could_have_room(c, count, most, least, until):
            return False
        while self.held() + count > most:
            self.fail(min(self.others(c, least, until), key=lambda d: (d.on_its_way(), d.slot)))
        return True

    def to_read(self, c, now):
        """Large messages have half of the bytes, at the cost of one another; others have three quarters. None is ended
        before it has been on its way for the grace."""
        until = max(now - self.grace, 0)
        if c and c.size() > LARGEST_SMALL:
            return self.size // 2, LARGEST_SMALL, until
        return self.size - self.size // 4, 0, until

    def receive(self, c, octets, now):
        """The number of the worker where the message is whole now."""
        if c.stage != READING:
            return None
        if not self.find_room(c, c.growth(), *self.to_read(c, now)):
            self.fail(c)
            return None
        if c.room != c.whole():
            c.room, c.begun = c.whole(), now
        c.message += octets[:c.wanted()]
        if c.wanted():
            return None
        c.go(QUEUED, now)
        worker = c.number % len(self.queues)
        self.queues[worker].append(c)
        return worker

    def input_ended(self, c):
        if c.stage in (READING, LINGERING):
            c.stage = ENDED
            self.look(c)

    def take(self, worker, now):
        """The next connection of a worker, or that its message was dropped, or none."""
        if worker >= len(self.queues) or not self.queues[worker]:
            return None
        c = self.queues[worker].pop(0)
        if self.is_late(c, now):
            self.expired += 1
            self.fail(c)
            return "dropped"
        message, c.message = c.message, b""
        c.stage = ANSWERING
        return c, message

    def answer(self, c, reply, last, now, stage=WRITING):
        if c.stage == ABANDONED:
            c.stage = ENDED
            self.look(c)
        if c.stage != ANSWERING:
            return
        if not self.find_room(c, len(reply), self.size, 0, now):
            self.leave_unanswered(c, now)
            return
        c.go(stage, now)
        c.reply, c.out = reply, 0
        c.replies += 1
        c.last = last or c.replies == REPLIES

    def defer(self, c, reply, last, mark, now):
        """As a reply, but nothing of it goes out before it is released."""
        if c.stage == ANSWERING:
            c.mark = mark
        self.answer(c, reply, last, now, CONFIRMING)

    def deferred(self):
        return sorted((c for c in self.connections if c.stage == CONFIRMING), key=lambda c: c.slot)

    def release(self, c, now):
        c.go(WRITING, now)
        self.look(c)

    def confirm(self, mark, now):
        for c in self.deferred():
            if c.mark <= mark:
                self.release(c, now)

    def overdue(self, wait, now):
        """One at a time, in the lowest slot."""
        c = next((c for c in self.deferred() if now - c.since >= wait), None)
        if c:
            self.release(c, now)
        return c

    def leave_unanswered(self, c, now):
        if c.stage == ABANDONED:
            c.stage = ENDED
            self.look(c)
        if c.stage == ANSWERING:
            c.go(LINGERING, now)
            self.look(c)

    def wrote(self, c, count, now):
        if c.stage != WRITING:
            return
        c.out = min(c.out + count, len(c.reply))
        if c.out == len(c.reply):
            c.go(LINGERING if c.last else READING, now)
            c.room = 0

    def pass_time(self, now):
        for c in self.connections:
            if self.is_late(c, now):
                self.expired += c.stage == QUEUED
                self.fail(c)

    def remove(self, c):
        if c.stage != ENDED:
            return False
        self.connections.remove(c)
        self.freed.append(c.slot)
        return True

    def ended(self):
        return {c.slot for c in self.connections if c.stage == ENDED}


def peer_of(word):
    """An address of IPv4 stands for itself, one of IPv6 for all that have its first 64 bits."""
    address = ipaddress.ip_address(word)
    return address if address.version == 4 else ipaddress.ip_network((address, 64), strict=False)


def share_of(peer, local):
    """Whose share a connection counts in: none where this host itself is the peer."""
    is_own = ipaddress.ip_address(peer).is_loopback or ipaddress.ip_address(peer) == ipaddress.ip_address(local)
    return None if is_own else peer_of(peer)


def shown(octets):
    """All bytes, or of many the first and the last."""
    if not octets:
        return "-"
    if len(octets) <= 32:
        return octets.hex()
    return f"{octets[:8].hex()}..{octets[-4:].hex()} of {len(octets)} bytes"


def bytes_of(word):
    return b"" if word == "-" else bytes.fromhex(word)


def filled(count):
    return bytes(i % 251 for i in range(int(count)))


def state(c):
    if c is None:
        return "waits"
    if c.stage == ENDED:
        return "has ended"
    if c.stage == LINGERING:
        return "lingers"
    if c.left():
        return f"has {len(c.left())} to write: {shown(c.left())}"
    return f"wants {c.wanted()}" if c.wanted() else "waits"


def todo(c):
    if c is None:
        return "wait"
    return {READING: f"read {c.wanted()}", WRITING: f"write {shown(c.left())}", LINGERING: "linger",
            ENDED: "close"}.get(c.stage, "wait")


def slots_text(slots):
    return " ".join(str(slot) for slot in slots) if slots else "-"


def whole(machine):
    slots = [f"{i} {todo(c)}, wanted {c.wanted() if c else 0}, left {len(c.left()) if c else 0}"
             for i in range(machine.most) for c in [machine.at(i)]]
    count = len(machine.connections)
    word = " (none)" if count == 0 else " (full)" if count >= machine.most else ""
    queued = slots_text([i for i, queue in enumerate(machine.queues) if queue])
    return " | ".join(slots) + (f" | connections {count}{word}, held {machine.held()}, accepted {machine.accepted}, "
                                f"expired {machine.expired}, messages for {queued}")


def read(machine, c, octets, now):
    """From a socket that has these bytes: never more than are wanted."""
    count, worker = 0, None
    while c and c.wanted() and count < len(octets) and worker is None:
        piece = octets[count:count + c.wanted()]
        count += len(piece)
        worker = machine.receive(c, piece, now)
    return count, worker


def received(c, worker):
    return state(c) if worker is None else f"message for worker {worker}"


def rounds(machine, c, count, now):
    for done in range(count):
        _, worker = read(machine, c, bytes(4), now)
        if worker is None:
            return f"{done} rounds, {state(c)}"
        machine.take(worker, now)
        machine.answer(c, b"*", False, now)
        machine.wrote(c, 1, now)
    return f"{count} rounds, {state(c)}"


def taken(machine, worker, now):
    got = machine.take(worker, now)
    if got is None or got == "dropped":
        return got or "none"
    c, message = got
    return f"slot {c.slot} from {c.peer}: {shown(message)}"


def looked(machine):
    """Each slot once for which there is something to be done that its socket doesn't tell."""
    slots = []
    for slot in machine.to_look_at:
        c = machine.at(slot)
        if c and c.stage in (WRITING, LINGERING, ENDED) and slot not in slots:
            slots.append(slot)
    machine.to_look_at = []
    return "look at " + slots_text(slots)


def of_all(machine, kind, words, now):
    """What is done to no slot's connection in particular."""
    if kind in ("accept", "datagram"):
        peer, _, local = words.partition(" to ")
        share = share_of(peer, local or "127.0.0.1") if kind == "accept" else None
        slot = machine.accept(peer, share, now)
        return "no room" if slot is None else f"slot {slot}"
    if kind == "share":
        share = peer_of(words)
        return str(len(machine.of_share(share))) + (" (full)" if machine.is_full(share) else "")
    if kind == "pass":
        machine.pass_time(now)
        return "passed"
    if kind == "room":
        return "made room" if machine.make_room(peer_of(words) if words else None) else "nobody waits"
    if kind == "confirm":
        machine.confirm(int(words), now)
        return "confirmed"
    if kind == "overdue":
        c = machine.overdue(int(words), now)
        return f"{c.peer} waited for {c.mark}" if c else "none"
    return {"show": whole, "look": looked}[kind](machine)


def of_one(machine, kind, slot, rest, now):
    c = machine.at(slot)
    if kind in ("bytes", "fill"):
        octets = bytes_of(rest) if kind == "bytes" else filled(rest)
        count, worker = read(machine, c, octets, now)
        return f"{count} of {len(octets)} read, {received(c, worker)}"
    if kind == "push":
        return received(c, machine.receive(c, bytes_of(rest), now) if c else None)
    if kind == "has":
        return "has room" if machine.could_have_room(c, c.growth() if c else 0, *machine.to_read(c, now)) else "no room"
    if kind == "rounds":
        return rounds(machine, c, int(rest), now)
    if kind == "remove":
        return "removed" if c and machine.remove(c) else "not removed"
    if kind == "again":
        machine.to_look_at.append(slot)
    elif c and kind == "answer":
        reply, _, last = rest.partition(" ")
        machine.answer(c, bytes_of(reply), last == "last", now)
    elif c and kind == "defer":
        reply, mark, *last = rest.split(" ")
        machine.defer(c, bytes_of(reply), last == ["last"], int(mark), now)
    elif c and kind == "unanswered":
        machine.leave_unanswered(c, now)
    elif c and kind == "wrote":
        machine.wrote(c, int(rest), now)
    elif c:
        {"end": machine.input_ended, "fail": machine.fail}[kind](c)
    return state(c)


def cut(octets, is_ended):
    """What comes of a message that is cut before each of its bytes and at its end, with equal answers together."""
    answers = {}
    for place in range(len(octets) + 1):
        machine = Machine(1, 100, 100, 100, 100, 100, 1)
        c = machine.at(machine.accept("127.0.0.1", None, 0))
        read(machine, c, octets[:place], 0)
        if is_ended:
            machine.input_ended(c)
        else:
            read(machine, c, octets[place:], 1)
        answers.setdefault(taken(machine, 0, 1) + ", " + state(c), []).append(place)
    return " | ".join(f"{len(places)} at{runs(places)}: {answer}" for answer, places in answers.items())


def runs(places):
    text, first = "", places[0]
    for place in places:
        if place + 1 not in places:
            text += f" {first}" if first == place else f" {first}-{place}"
            first = min((p for p in places if p > place), default=None)
    return text


class Cases:
    def __init__(self):
        self.machine = None

    def answer(self, case):
        front, _, now = case.partition(" at ")
        kind, _, words = front.partition(" ")
        now = int(now or 0)
        if kind == "start":
            self.machine = Machine(*map(int, words.split(" ")))
            return "started"
        if kind in ("cut", "cut-off"):
            return cut(bytes_of(words), kind == "cut-off")
        before = self.machine.ended()
        if kind in ("accept", "datagram", "share", "pass", "room", "show", "look", "confirm", "overdue"):
            slot, text = None, of_all(self.machine, kind, words, now)
        elif kind == "take":
            slot, text = None, taken(self.machine, int(words), now)
        else:
            slot, _, rest = words.partition(" ")
            slot = int(slot)
            text = of_one(self.machine, kind, slot, rest, now)
        others = sorted(self.machine.ended() - before - {slot})
        return f"{text}; ended {slots_text(others)}" if others else text


answer_lines(__doc__, "connections", Cases().answer)
