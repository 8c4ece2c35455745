"""Reads a journal (docs/PROTOCOL.md), and writes records of one.

Prints kvno, iteration count and name of each change, the same after `base`, `adopt`, `lift` or `remove` of each other
record that has them, the count of each raise, and the realm of a journal that begins with its record; no keys.
"""

import dataclasses
import pathlib

from harness.command import Parser


@dataclasses.dataclass(frozen=True)
class Record:
    name: str
    kvno: int
    iterations: int
    aes128: bytes
    aes256: bytes


class Base(Record):
    """It is the one version that the principal has."""


class Adopt(Record):
    """A version that the KDC has, in front of the others."""


class Lift(Record):
    """The version that the KDC gave to the newest key."""


class Remove(Record):
    """The KDC has the name no more."""


@dataclasses.dataclass(frozen=True)
class Raise:
    iterations: int


@dataclasses.dataclass(frozen=True)
class Realm:
    name: str


# the kinds of records
CHANGE = 1
RAISE = 2
BASE = 3
ADOPT = 4
LIFT = 5
REMOVE = 6
REALM = 7
WITH_KEYS = {CHANGE: Record, BASE: Base, ADOPT: Adopt, LIFT: Lift, REMOVE: Remove}


def keys_record(kind, name, kvno, iterations, keys):
    """A change or a base record: of etype 17's and 18's key, and of a name whose components a slash divides."""
    parts = [part.encode() for part in name.split("/")]
    body = bytes([kind]) + kvno.to_bytes(4, "big") + iterations.to_bytes(4, "big") + keys[0] + keys[1]
    body += bytes([len(parts)]) + b"".join(bytes([len(part)]) + part for part in parts)
    return len(body).to_bytes(2, "big") + body


def plain_record(name, kvno):
    """The record of a change to keys of zeros under 4096 iterations."""
    return keys_record(CHANGE, name, kvno, 4096, (bytes(16), bytes(32)))


def raise_record(iterations):
    body = bytes([RAISE]) + iterations.to_bytes(4, "big")
    return len(body).to_bytes(2, "big") + body


def realm_record(realm):
    """What a journal of this realm may begin with."""
    body = bytes([REALM]) + realm.encode()
    return len(body).to_bytes(2, "big") + body


def components(rest):
    while rest:
        size = rest[0]
        yield rest[1 : 1 + size].decode(errors="replace")
        rest = rest[1 + size :]


def read_journal(data):
    """The whole records, and the bytes of a torn tail."""
    records = []
    place = 0
    while len(data) - place >= 2:
        end = place + 2 + int.from_bytes(data[place : place + 2], "big")
        if end > len(data):
            break
        records.append(record_of(data[place + 2 : end]))
        place = end
    return records, data[place:]


def record_of(body):
    if body[0] == REALM:
        return Realm(body[1:].decode(errors="replace"))
    if body[0] == RAISE:
        return Raise(int.from_bytes(body[1:5], "big"))
    kvno = int.from_bytes(body[1:5], "big")
    iterations = int.from_bytes(body[5:9], "big")
    return WITH_KEYS[body[0]]("/".join(components(body[58:])), kvno, iterations, body[9:25], body[25:57])


def main():
    parser = Parser(__doc__, "whole, or torn tail: N bytes", "it is no journal")
    parser.add_argument("file", type=pathlib.Path, metavar="FILE")
    records, torn = read_journal(parser.parse_args().file.read_bytes())
    for record in records:
        if isinstance(record, Raise):
            print("raise", record.iterations)
        elif isinstance(record, Realm):
            print("realm", record.name)
        elif type(record) is Record:
            print(record.kvno, record.iterations, record.name)
        else:
            print(type(record).__name__.lower(), record.kvno, record.iterations, record.name)
    print(f"torn tail: {len(torn)} bytes" if torn else "whole")


if __name__ == "__main__":
    main()
