"""What comes of a message or a journal of which one byte is changed, or which is cut short: worked out from docs/PROTOCOL.md and
the rules of DER (X.690), with Python's own library alone. Nothing is deciphered: a sealed text opens where it is the one that
the client made, and no other does.

    python3 -m tests.model.changed_bytes stream      # answers of crates/cases_service, by the line
    python3 -m tests.model.changed_bytes journal     # answers of tests/hostile/cases/journals, and one of crates/cases_journal
"""

from harness import wire as client
from harness.command import Parser

CHANGES = ["prefixes", "prefixes with their length"]
CHANGES += ["changed by 01", "changed by 80", "changed by ff", "changed to 00"]


def changed(what, text, place):
    """The bytes with the change at this place; None where it changes nothing, or has no room."""
    if what == "prefixes":
        return text[:place]
    if what == "prefixes with their length":
        return place.to_bytes(2, "big") + text[2:place] if place >= 2 else None
    word, byte = what.rsplit(" ", 1)
    byte = int(byte, 16)
    other = text[:place] + bytes([text[place] ^ byte if word == "changed by" else byte])
    other += text[place + 1 :]
    return None if other == text else other


def census(answers):
    """Each answer after its count and its places, in the order in which they first came."""
    places = {}
    for place, answer in enumerate(answers):
        runs = places.setdefault(answer, [])
        if runs and runs[-1][1] + 1 == place:
            runs[-1][1] = place
        else:
            runs.append([place, place])
    shown = []
    for answer, runs in places.items():
        count = sum(last - first + 1 for first, last in runs)
        words = (f"{first}" if first == last else f"{first}-{last}" for first, last in runs)
        shown.append(f"{count} at {' '.join(words)}: {answer}")
    return " | ".join(shown)


# DER: elements of definite length, in its shortest form


class NoDer(Exception):
    pass


def want(condition):
    if not condition:
        raise NoDer


class Region:
    """Elements that stand in a text, read one by one."""

    def __init__(self, text):
        self.left = text

    def element(self, tag):
        want(len(self.left) >= 2 and self.left[0] == tag)
        size, header = self.left[1], 2
        if size >= 0x80:
            count = size & 0x7F
            want(1 <= count <= 4 and len(self.left) >= 2 + count)
            header, size = 2 + count, int.from_bytes(self.left[2 : 2 + count], "big")
            want(size >= 0x80 and size >> 8 * (count - 1) > 0)
        want(len(self.left) >= header + size)
        content, self.left = self.left[header : header + size], self.left[header + size :]
        return content

    def has(self, tag):
        return self.left[:1] == bytes([tag])

    def whole(self, tag):
        """The content of the one element that there is."""
        content = self.element(tag)
        want(not self.left)
        return content


def field(region, number, tag):
    return Region(region.element(0xA0 + number)).whole(tag)


def integer(content, least, most):
    want(content and not (len(content) > 1 and content[0] in (0, 0xFF)
                          and content[0] >> 7 == content[1] >> 7))
    number = int.from_bytes(content, "big", signed=True)
    want(least <= number <= most)
    return number


def int32(content):
    return integer(content, -(2**31), 2**31 - 1)


def bits(content):
    """The first 32 bits, the highest first."""
    want(content and content[0] <= 7 and (len(content) > 1 or content[0] == 0))
    want(len(content) == 1 or content[-1] & ((1 << content[0]) - 1) == 0)
    return int.from_bytes(content[1:5].ljust(4, b"\0"), "big")


def encrypted_data(text):
    region = Region(text)
    etype = int32(field(region, 0, 2))
    kvno = integer(field(region, 1, 2), 0, 2**32 - 1) if region.has(0xA1) else None
    cipher = field(region, 2, 4)
    want(not region.left)
    return etype, kvno, cipher


def principal_name(text):
    region = Region(text)
    int32(field(region, 0, 2))
    strings, names = Region(field(region, 1, 0x30)), []
    while strings.left:
        names.append(strings.element(0x1B))
    want(not region.left)
    return names


def ticket(text):
    region = Region(Region(text).whole(0x30))
    vno = int32(field(region, 0, 2))
    realm = field(region, 1, 0x1B)
    sname = principal_name(field(region, 2, 0x30))
    part = encrypted_data(field(region, 3, 0x30))
    want(not region.left)
    return vno, realm, sname, part


def ap_req(text):
    region = Region(Region(Region(text).whole(0x6E)).whole(0x30))
    pvno, kind = int32(field(region, 0, 2)), int32(field(region, 1, 2))
    options = bits(field(region, 2, 3))
    presented = ticket(field(region, 3, 0x61))
    authenticator = encrypted_data(field(region, 4, 0x30))
    want(not region.left)
    return pvno, kind, options, presented, authenticator


def krb_priv(text):
    region = Region(Region(Region(text).whole(0x75)).whole(0x30))
    pvno, kind = int32(field(region, 0, 2)), int32(field(region, 1, 2))
    part = encrypted_data(field(region, 3, 0x30))
    want(not region.left)
    return pvno, kind, part


# The service of crates/cases_service: its key has etype 18 and kvno 3. Session key and subkey have etype 18.


def ap_fault(text, sealed):
    """Code, error and text of the first check that fails, the ciphers of the client's own message given."""
    try:
        pvno, kind, options, (vno, realm, sname, part), authenticator = ap_req(text)
    except NoDer:
        return "code 1 error 60 malformed"
    checks = [
        (pvno == 5 and vno == 5, 39),
        (kind == 14, 40),
        (options >> 30 & 1 == 0, 45),
        (realm == client.REALM and sname == [b"kadmin", b"changepw"], 35),
        (part[0] in (17, 18), 14),
        (part[0] == 18 and part[1] in (3, None), 44),
        (part[2] == sealed[0], 31),
        (authenticator[0] == 18 and authenticator[2] == sealed[1], 31),
    ]
    for holds, error in checks:
        if not holds:
            return f"code 3 error {error} authentication failed"
    return None


def private_fault(text, sealed):
    try:
        pvno, kind, (etype, _, cipher) = krb_priv(text)
    except NoDer:
        return "code 1 malformed"
    if pvno == 5 and kind == 21 and etype == 18 and cipher == sealed[2]:
        return None
    return "code 3 authentication failed"


def parts(message):
    size = int.from_bytes(message[4:6], "big")
    return message[6 : 6 + size], message[6 + size :]


def ciphers(message):
    ap, tail = parts(message)
    _, _, _, (_, _, _, part), authenticator = ap_req(ap)
    return part[2], authenticator[2], krb_priv(tail)[2][2]


def answer(message, sealed):
    """What `served` says of it: the reply, how the stream ends, the events and the newest versions."""
    unopened = "; input ended, 0 events, alice 1, bob 1"
    size = len(message)
    if size < 6 or int.from_bytes(message[:2], "big") != size:
        return "code 1 error 60 malformed" + unopened
    if message[2:4] not in (b"\xff\x80", b"\x00\x01"):
        return "code 6 error 60 bad version" + unopened
    ap_size = int.from_bytes(message[4:6], "big")
    if ap_size == 0 or 6 + ap_size > size:
        return "code 1 error 60 malformed" + unopened
    ap, tail = parts(message)
    fault = ap_fault(ap, sealed)
    if fault:
        return fault + unopened
    fault = private_fault(tail, sealed)
    if fault:
        return fault + "; input ended, 1 events, alice 1, bob 1"
    return "code 0 password changed; input ended, 1 events, alice 2, bob 1"


def stream_answers():
    for name, old in [("first", False), ("old_first", True)]:
        message = client.request(b"alice", b"New-pass2", 1, old=old)
        sealed = ciphers(message)
        for what in CHANGES:
            others = (changed(what, message, place) for place in range(len(message)))
            yield f"{what}, at 1000100: {name}"
            yield census("left out" if m is None else answer(m, sealed) for m in others)


# The journal of crates/cases_journal: three changes of alice, to kvno 2, 3 and 4; bob/admin has kvno 1


def record(kvno):
    key = bytes([0xA2])
    body = b"\x01" + kvno.to_bytes(4, "big") + (4096).to_bytes(4, "big") + 48 * key + b"\x01\x05alice"
    return len(body).to_bytes(2, "big") + body


JOURNAL = record(2) + record(3) + record(4)
PRINCIPALS = {(b"alice",): "alice", (b"bob", b"admin"): "bob/admin"}


def components(text):
    """The name of a record, whose components end where it ends."""
    count, names = text[0], []
    text = text[1:]
    for _ in range(count):
        if not text or not 1 <= text[0] <= 128 or len(text) < 1 + text[0]:
            return None
        names.append(text[1 : 1 + text[0]])
        text = text[1 + text[0] :]
    return None if text or not 1 <= count <= 8 else tuple(names)


HEADING = b"\x00\x0c\x07EXAMPLE.COM"


def heading(journal):
    """How many bytes the record of the realm has with which it begins, or the fault of another one, or of a part of one."""
    length = int.from_bytes(journal[:2], "big")
    if len(journal) < 3 or journal[2] != 7 or not 2 <= length <= 256:
        return 0
    if len(journal) < 2 + length:
        return "J1 at 1"
    return len(HEADING) if journal.startswith(HEADING) else "J5"


def restored(journal):
    """What restoring it says, and each change: principal, kvno, iteration count and keys."""
    place = heading(journal)
    if isinstance(place, str):
        return place, []
    held, changes, number = {"alice": 1, "bob/admin": 1}, [], 0
    while len(journal) - place >= 2:
        number += 1
        length = int.from_bytes(journal[place : place + 2], "big")
        if not 60 <= length <= 1090:
            return f"J1 at {number}", []
        text = journal[place + 2 : place + 2 + length]
        if len(text) < length:
            break
        kvno, count = int.from_bytes(text[1:5], "big"), int.from_bytes(text[5:9], "big")
        name = components(text[57:])
        if text[0] != 1 or kvno == 0 or not 1 <= count <= 16_777_216 or name is None:
            return f"J1 at {number}", []
        if name not in PRINCIPALS:
            return f"J3 at {number}", []
        who = PRINCIPALS[name]
        if kvno != held[who] + 1:
            return f"J2 at {number}", []
        held[who] = kvno
        changes.append((who, kvno, count, text[9:25], text[25:57]))
        place += 2 + length
    tail = "torn" if place < len(journal) else "whole"
    told = f"records {len(changes)} kept {place} {tail}, "
    return told + f"alice {held['alice']} bob/admin {held['bob/admin']}", changes


def compared(journal):
    """The same, and what of alice's keys differs from what was written."""
    told, changes = restored(journal)
    for written, found in zip(restored(JOURNAL)[1], changes):
        for part, what in [(2, "iteration count"), (3, "etype 17 key"), (4, "etype 18 key")]:
            if written[part] != found[part]:
                return f"{told}, another {what} of kvno {written[1]}"
    return told


def held_words(newest):
    """What the table then has: alice's two newest keys."""
    return f"alice {' '.join(map(str, range(newest, max(newest - 2, 0), -1)))}, bob/admin 1, count 4096"


def failed(place):
    """What is answered where an append fails before this byte of the journal."""
    changes, kept = divmod(place, 66)
    said = changes * "0 password changed; " + "2 journal failed (an append failed); "
    said += (2 - changes) * "2 journal failed; "
    held = held_words(1 + changes)
    return f"{said}failures 1, {held}; records {changes} kept {66 * changes} {'torn' if kept else 'whole'}, {held}"


def journal_answers():
    yield "appends fail: alice 2, alice 3, alice 4"
    yield census(map(failed, range(len(JOURNAL))))
    for what in CHANGES:
        if what != "prefixes with their length":
            others = (changed(what, JOURNAL, place) for place in range(len(JOURNAL)))
            yield f"{what}: alice 2, alice 3, alice 4"
            yield census("left out" if other is None else compared(other) for other in others)


if __name__ == "__main__":
    parser = Parser(__doc__, None, "the cases can't be read")
    answers = {"stream": stream_answers, "journal": journal_answers}
    parser.add_argument("what", choices=answers)
    for line in answers[parser.parse_args().what]():
        print(line)
