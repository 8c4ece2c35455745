"""A journal's bytes, put together from pieces with commas between:

    nothing
    NAME KVNO [to KVNO]          the record of a change, or one for each version; of 48 bytes a2 as keys
    raise COUNT
    realm NAME                   what a journal may begin with
    adopted COUNT                of so many principals, p0 and so on, the adopted key of kvno 1
    bytes DIGITS
    RECORD kind K, RECORD length L       of another kind, or length field
    first N of RECORD            the beginning of it
"""

from harness.journal import ADOPT, CHANGE, keys_record, raise_record, realm_record

KEYS = bytes([0xA2] * 16), bytes([0xA2] * 32)


def key_record(name, kvno, kind=CHANGE):
    return keys_record(kind, name, kvno, 4096, KEYS)


def record_of(what, figure, *change):
    """A record, with another kind or length field if it says so."""
    if what == "realm":
        return realm_record(figure)
    record = bytearray(raise_record(int(figure)) if what == "raise" else key_record(what, int(figure)))
    if change[:1] == ("kind",):
        record[2] = int(change[1])
    elif change:
        record[:2] = int(change[1]).to_bytes(2, "big")
    return bytes(record)


def piece_of(piece):
    first, _, last = piece.partition(" to ")
    what, *words = first.split(" ")
    if last:
        return b"".join(key_record(what, kvno) for kvno in range(int(words[0]), int(last) + 1))
    if what == "nothing":
        return b""
    if what == "first":
        return record_of(*words[2:])[: int(words[0])]
    if what == "bytes":
        return bytes.fromhex(words[0])
    if what == "adopted":
        return b"".join(key_record(f"p{place}", 1, ADOPT) for place in range(int(words[0])))
    return record_of(what, *words)


def journal_of(pieces):
    return b"".join(map(piece_of, pieces.split(", ")))
