"""The resume file (docs/PROTOCOL, The resume file), written and read without the service."""

import dataclasses
import hashlib
import struct

HEADER = b"boddrelyn resume 1\n"
# how many bytes of the journal's end are summed
MARKED = 65_536


@dataclasses.dataclass
class Id:
    """A used id: whose request, and when."""

    ctime: int
    cusec: int
    crealm: bytes
    client: list


@dataclasses.dataclass
class Resume:
    """What a clean end leaves, beside the journal with these bytes."""

    realm: bytes
    journal: bytes
    clock: int
    quiet_until: int
    ids: list


def block(text):
    return struct.pack(">I", len(text)) + text


def id_text(it):
    return b"".join(map(block, [struct.pack(">qI", it.ctime, it.cusec), it.crealm, *it.client]))


def mark(journal):
    """The journal's length, and the sum over its end."""
    return struct.pack(">Q", len(journal)) + hashlib.sha1(journal[-MARKED:] if journal else b"").digest()


def resume_text(it):
    state = mark(it.journal) + struct.pack(">qq", it.clock, it.quiet_until)
    body = HEADER + b"".join(map(block, [it.realm, state, *map(id_text, it.ids)]))
    return body + hashlib.sha1(body).digest()


def blocks(text):
    found = []
    while text:
        size = struct.unpack(">I", text[:4])[0]
        assert len(text) >= 4 + size
        found.append(text[4 : 4 + size])
        text = text[4 + size :]
    return found


def ids_in(text):
    """The ids of a resume file's text, in their order."""
    body, found = text[:-20], []
    assert body.startswith(HEADER) and hashlib.sha1(body).digest() == text[-20:]
    for it in blocks(body[len(HEADER) :])[2:]:
        times, crealm, *client = blocks(it)
        ctime, cusec = struct.unpack(">qI", times)
        found.append(Id(ctime, cusec, crealm, client))
    return found
