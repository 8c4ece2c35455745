"""What `import` and `key` write, worked out with nothing of ours but AES (`harness.wire`): of the cases on standard input, the
answers.

    python3 -m tests.model.cases_import < tests/hostile/cases/keys.cases

The layout is that of MIT's keytabs, format 0x0502; which keys a configuration can have, and in which order they stand, says
docs/PROTOCOL.md.
"""
import collections
import struct
import sys

from harness.command import Parser
from harness.wire import string_to_key
from tests.model.changed_bytes import census

SERVICE = (b"kadmin", b"changepw")
LENGTHS = {18: 32, 17: 16}
MOST_KEYS, MOST_PRINCIPALS = 16, 10_000
QUOTED = b" /@\\"

Entry = collections.namedtuple("Entry", "place realm name timestamp kvno etype key")


class Fault(Exception):
    pass


class Fields:
    """The fields of one record."""

    def __init__(self, octets, place):
        self.octets, self.place = octets, place

    def take(self, size):
        if size > len(self.octets):
            raise Fault(f"a field of the record at {self.place} extends past its end")
        taken, self.octets = self.octets[:size], self.octets[size:]
        return taken

    def number(self, size):
        return int.from_bytes(self.take(size), "big")

    def counted(self):
        return self.take(self.number(2))


def entry_of(octets, place):
    fields = Fields(octets, place)
    count = fields.number(2)
    realm = fields.counted()
    name = tuple(fields.counted() for _ in range(count))
    fields.take(4)
    timestamp = fields.number(4)
    kvno, etype, key = fields.number(1), int.from_bytes(fields.take(2), "big", signed=True), fields.counted()
    if len(fields.octets) >= 4 and (longer := fields.number(4)):
        kvno = longer
    return Entry(place, realm, name, timestamp, kvno, etype, key)


def entries_of(octets):
    if octets[:2] != b"\x05\x02":
        raise Fault("not a keytab of format 0x0502")
    entries, place = [], 2
    while place < len(octets):
        if place + 4 > len(octets):
            raise Fault(f"the record at {place} is cut off")
        (size,) = struct.unpack_from(">i", octets, place)
        if size == 0:
            break
        if size == -(2**31):
            raise Fault(f"the length at {place} is -2147483648")
        if place + 4 + abs(size) > len(octets):
            raise Fault(f"the record at {place} is cut off")
        if size > 0:
            entries.append(entry_of(octets[place + 4 : place + 4 + size], place))
        place += 4 + abs(size)
    return entries


def is_name(name):
    try:
        parts = [part.decode() for part in name]
    except UnicodeDecodeError:
        return False
    return 1 <= len(name) <= 8 and all(1 <= len(p) <= 128 for p in name) and not any("/" in p for p in parts)


def alone(entry, realm):
    """Why an entry is left out by itself."""
    if entry.realm != realm:
        return "another realm"
    if not is_name(entry.name):
        return "a name has 1 to 8 components of 1 to 128 bytes, in UTF-8 and without a /"
    if entry.kvno == 0:
        return "a version is at least 1"
    if entry.etype not in LENGTHS:
        return "only 17 and 18 can be used"
    if len(entry.key) != LENGTHS[entry.etype]:
        return f"its key has {len(entry.key)} bytes"
    return None


def principal_keys(versions):
    """The versions that count, from the newest on, and why the others don't."""
    used, why, below = [], {}, None
    reason = None
    for kvno in sorted(versions, reverse=True):
        if reason is None:
            if below is not None and kvno != below:
                reason = "older than a version that is missing or skipped"
                why[kvno] = reason
                continue
            if set(versions[kvno]) != {17, 18}:
                lone = 35 - next(iter(versions[kvno]), 18)
                why[kvno] = f"no key of etype {lone} has its kvno"
                reason = "older than a version that is missing or skipped"
                continue
            if len(used) == MOST_KEYS:
                why[kvno] = "there are 16 keys already"
                reason = "older than a version that is missing or skipped"
                continue
            used.append(kvno)
            below = kvno - 1
        else:
            why[kvno] = reason
    return used, why


def sorted_out(entries, realm):
    """What counts of the entries: by name and kvno the entry of each etype; and why the others don't."""
    left, slots, newest = {}, {}, collections.defaultdict(set)
    for index, entry in enumerate(entries):
        reason = alone(entry, realm)
        if reason:
            left[index] = reason
            if reason.startswith(("only", "its key")):
                newest[entry.name].add(entry.kvno)
            continue
        newest[entry.name].add(entry.kvno)
        slot = entry.name, entry.kvno, entry.etype
        held = slots.get(slot, index)
        older = min(held, index) if entries[held].timestamp <= entry.timestamp else index
        if held != index:
            left[older] = "a later entry has the same name, kvno and etype"
        slots[slot] = index if older != index or held == index else held
    found = {name: {kvno: {} for kvno in newest[name]} for name in newest}
    for (name, kvno, etype), index in slots.items():
        found[name][kvno][etype] = index
    return found, left


def service_keys(versions, entries, left):
    """The keys of the service, the newest first, as many as it may have."""
    held = [(kvno, etype, versions[kvno][etype]) for kvno in sorted(versions, reverse=True) for etype in (18, 17)
            if etype in versions[kvno]]
    left.update((index, "there are 16 keys already") for _, _, index in held[MOST_KEYS:])
    return [(kvno, etype, entries[index].key) for kvno, etype, index in held[:MOST_KEYS]]


def brought(octets, realm, iterations):
    entries = entries_of(octets)
    found, left = sorted_out(entries, realm)
    lines, service, count = [], [], 0
    for name, versions in sorted(found.items()):
        if name == SERVICE:
            service = service_keys(versions, entries, left)
            continue
        used, why = principal_keys(versions)
        if used and count == MOST_PRINCIPALS:
            used, why = [], dict.fromkeys(versions, "there are 10000 principals already")
        for kvno, reason in why.items():
            for index in versions[kvno].values():
                left[index] = reason
        if used:
            count += 1
            keys = [(kvno, entries[versions[kvno][17]].key, entries[versions[kvno][18]].key) for kvno in used]
            lines += stanza(name, keys, iterations)
    for kvno, etype, key in service:
        lines += ["[[service.key]]", f"etype = {etype}", f'key = "{key.hex()}"', f"kvno = {kvno}"]
    counts = f"imported {len(entries) - len(left)}, not imported {len(left)}"
    return lines, [*(told(entries[i], why) for i, why in sorted(left.items())), counts]


def stanza(name, keys, iterations):
    lines = ["[[principal]]", f'name = "{b"/".join(name).decode()}"']
    for kvno, aes128, aes256 in keys:
        lines += ["[[principal.key]]", f'aes128 = "{aes128.hex()}"', f'aes256 = "{aes256.hex()}"']
        lines += [f"iterations = {iterations}", f"kvno = {kvno}"]
    return lines


def escaped(octets):
    return "".join(chr(b) if 32 <= b < 127 and b not in QUOTED else f"\\x{b:02x}" for b in octets)


def told(entry, why):
    name = "/".join(map(escaped, entry.name))
    return (f"keytab: at {entry.place}: skipped: {name}@{escaped(entry.realm)}, kvno {entry.kvno}, "
            f"etype {entry.etype}: {why}")


def keytab(octets, realm, iterations):
    try:
        lines, left = brought(octets, realm.encode(), iterations)
    except Fault as fault:
        return f"keytab: {fault}"
    return " | ".join([" ".join(lines) or "keytab: no key is imported", *left])


def many(realm, count):
    """Of so many principals: how many have a stanza, and who is left out."""
    octets = b"\x05\x02"
    for number in range(count):
        for etype, size in LENGTHS.items():
            octets += record(realm.encode(), b"u%05d" % number, etype, bytes(size))
    lines, left = brought(octets, realm.encode(), 4096)
    return " | ".join([f"principals {lines.count('[[principal]]')}", *left])


def record(realm, name, etype, key):
    fields = struct.pack(">H", 1) + b"".join(struct.pack(">H", len(it)) + it for it in (realm, name))
    fields += struct.pack(">IIBHH", 1, 0, 1, etype, len(key)) + key
    return struct.pack(">I", len(fields)) + fields


def password(realm, name, iterations, kvno, octets):
    parts = tuple(name.encode().split(b"/"))
    if not is_name(parts):
        return "no name"
    word = octets.removesuffix(b"\n")
    has_return = word != octets and word.endswith(b"\r")
    word = word[:-1] if has_return else word
    if not word:
        return "password: the password is empty"
    note = " | password: a carriage return at the end is ignored" if has_return else ""
    salt = realm.encode() + b"".join(parts)
    keys = [string_to_key(size, word, salt, iterations) for size in (16, 32)]
    return " ".join(stanza(parts, [(kvno, *keys)], iterations)) + note


def octets_of(word):
    return b"" if word == "-" else bytes.fromhex(word)


def answer(case):
    kind, *words, last = case.split(" ")
    if kind == "many":
        return many(words[0], int(last))
    octets = octets_of(last)
    if kind == "keytab":
        return keytab(octets, words[0], int(words[1]))
    if kind == "cut":
        return census(keytab(octets[:n], words[0], 4096) for n in range(len(octets)))
    return password(words[0], words[1], int(words[2]), int(words[3]), octets)


def main():
    Parser(__doc__, None, "a case can't be read").parse_args()
    for line in sys.stdin.read().splitlines():
        print(line if line == "" or line.startswith("#") else answer(line))


if __name__ == "__main__":
    main()
