"""Requests of a change-password client and the replies to them (RFC 3244), made with nothing but
Python's own library.

Realm EXAMPLE.COM; the service's key of etype 18 and kvno 3 is 32 bytes 5a, the session key 32 bytes 33,
the subkey 32 bytes 44, each confounder of a request 16 bytes 01 (where a caller has no others), both addresses 127.0.0.1.
Encryption is that of RFC 3962, the messages are those of RFC 4120 section 5.
"""

import dataclasses
import hashlib
import hmac
import time

REALM = b"EXAMPLE.COM"
SERVICE, SESSION, SUBKEY = b"\x5a" * 32, b"\x33" * 32, b"\x44" * 32
CONFOUNDER = b"\x01" * 16
INITIAL = 0x00400000
MUTUAL_REQUIRED = 0x20000000


# AES (FIPS 197), forwards


def _times_two(x):
    return ((x << 1) ^ 0x1B) & 0xFF if x & 0x80 else x << 1


def _s_box():
    p = q = 1
    box = [0x63] * 256
    while True:
        p ^= _times_two(p)
        q ^= q << 1
        q ^= q << 2
        q ^= q << 4
        q &= 0xFF
        if q & 0x80:
            q ^= 0x09
        turned = q ^ (q << 1 | q >> 7) ^ (q << 2 | q >> 6) ^ (q << 3 | q >> 5) ^ (q << 4 | q >> 4)
        box[p] = (turned & 0xFF) ^ 0x63
        if p == 1:
            return box


S = _s_box()
DOUBLED = [_times_two(x) for x in range(256)]
SHIFT = [0, 5, 10, 15, 4, 9, 14, 3, 8, 13, 2, 7, 12, 1, 6, 11]


class Aes:
    def __init__(self, key):
        words = [key[i : i + 4] for i in range(0, len(key), 4)]
        size, rounds, constant = len(words), len(words) + 6, 1
        for i in range(size, 4 * (rounds + 1)):
            word = words[-1]
            if i % size == 0:
                word = bytes(S[b] for b in word[1:] + word[:1])
                word = bytes([word[0] ^ constant]) + word[1:]
                constant = _times_two(constant)
            elif size > 6 and i % size == 4:
                word = bytes(S[b] for b in word)
            words.append(bytes(a ^ b for a, b in zip(words[i - size], word)))
        self.keys = [b"".join(words[4 * r : 4 * r + 4]) for r in range(rounds + 1)]

    def encrypt(self, block):
        state = [a ^ b for a, b in zip(block, self.keys[0])]
        for key in self.keys[1:-1]:
            state = [S[state[i]] for i in SHIFT]
            mixed = []
            for c in range(0, 16, 4):
                column = state[c : c + 4]
                every = column[0] ^ column[1] ^ column[2] ^ column[3]
                for i in range(4):
                    mixed.append(column[i] ^ every ^ DOUBLED[column[i] ^ column[(i + 1) % 4]])
            state = [a ^ b for a, b in zip(mixed, key)]
        return bytes(S[state[i]] ^ k for i, k in zip(SHIFT, self.keys[-1]))


# RFC 3961 section 5 and RFC 3962


def nfold(text, size):
    copies, turned = b"", int.from_bytes(text, "big")
    bits, whole = 8 * len(text), (1 << 8 * len(text)) - 1
    while len(copies) % size or not copies:
        copies += turned.to_bytes(len(text), "big")
        turned = (turned >> 13 | turned << (bits - 13)) & whole
    parts = (int.from_bytes(copies[i : i + size], "big") for i in range(0, len(copies), size))
    total, most = sum(parts), (1 << 8 * size) - 1
    while total > most:
        total = (total & most) + (total >> 8 * size)
    return total.to_bytes(size, "big")


def derive(key, constant):
    cipher, block, out = Aes(key), nfold(constant, 16), b""
    while len(out) < len(key):
        block = cipher.encrypt(block)
        out += block
    return out[: len(key)]


def string_to_key(size, password, salt, count):
    return derive(hashlib.pbkdf2_hmac("sha1", password, salt, count, size), b"kerberos")


def cts(cipher, text):
    before, blocks = bytes(16), []
    for i in range(0, len(text), 16):
        block = text[i : i + 16].ljust(16, b"\0")
        before = cipher.encrypt(bytes(a ^ b for a, b in zip(block, before)))
        blocks.append(before)
    blocks[-2:] = [blocks[-1], blocks[-2]]
    return b"".join(blocks)[: len(text)]


_derived = {}


def seal(key, usage, plain, confounder=CONFOUNDER):
    if (key, usage) not in _derived:
        number = usage.to_bytes(4, "big")
        _derived[key, usage] = Aes(derive(key, number + b"\xaa")), derive(key, number + b"\x55")
    cipher, integrity = _derived[key, usage]
    text = confounder + plain
    return cts(cipher, text) + hmac.new(integrity, text, "sha1").digest()[:12]


# DER (X.690)


def tlv(tag, content):
    if len(content) < 128:
        return bytes([tag, len(content)]) + content
    length = len(content).to_bytes((len(content).bit_length() + 7) // 8, "big")
    return bytes([tag, 0x80 | len(length)]) + length + content


def field(number, content):
    return b"" if content is None else tlv(0xA0 + number, content)


def sequence(*fields):
    return tlv(0x30, b"".join(field(i, content) for i, content in fields))


def application(number, content):
    return tlv(0x60 + number, content)


def integer(n):
    return tlv(2, n.to_bytes(n.bit_length() // 8 + 1, "big"))


def octets(text):
    return tlv(4, text)


def string(text):
    return tlv(0x1B, text)


def flags(n):
    return tlv(3, b"\0" + n.to_bytes(4, "big"))


def moment(seconds):
    return tlv(0x18, time.strftime("%Y%m%d%H%M%SZ", time.gmtime(seconds)).encode())


def name(name_type, *components):
    return sequence((0, integer(name_type)), (1, tlv(0x30, b"".join(map(string, components)))))


def key_of(text):
    return sequence((0, integer(18)), (1, octets(text)))


def address(last):
    """A HostAddress: 127.0.0.LAST, or the address of IPv6 with these sixteen bytes (RFC 4120 section 7.5.3)."""
    if isinstance(last, bytes):
        return sequence((0, integer(24)), (1, octets(last)))
    return sequence((0, integer(2)), (1, octets(bytes([127, 0, 0, last]))))


def sealed(key, usage, plain, kvno=None, confounder=CONFOUNDER):
    kvno = None if kvno is None else integer(kvno)
    return sequence((0, integer(18)), (1, kvno), (2, octets(seal(key, usage, plain, confounder))))


# RFC 4120 section 5, RFC 3244 section 2

CHANGEPW = name(2, b"kadmin", b"changepw")


@dataclasses.dataclass(frozen=True)
class Drawn:
    """What a client draws for a request: its keys, the confounders of ticket, authenticator and KRB-PRIV, and the sequence
    number."""

    session: bytes = SESSION
    subkey: bytes = SUBKEY
    ticket: bytes = CONFOUNDER
    authenticator: bytes = CONFOUNDER
    private: bytes = CONFOUNDER
    number: int = 5


FIXED = Drawn()


def ticket(client, initial, service, kvno, starts, addresses=(), drawn=FIXED):
    """The addresses, if there are any, are those that it may come from: the last byte of each, of 127.0.0.0/24, or
    all sixteen, of IPv6."""
    part = sequence(
        (0, flags(INITIAL if initial else 0)),
        (1, key_of(drawn.session)),
        (2, string(REALM)),
        (3, name(1, client)),
        (4, sequence((0, integer(0)), (1, octets(b"")))),
        (5, moment(starts)),
        (7, moment(starts + 3_600)),
        (9, tlv(0x30, b"".join(map(address, addresses))) if addresses else None),
    )
    enc_part = sealed(service, 2, application(3, part), kvno, drawn.ticket)
    return application(
        1, sequence((0, integer(5)), (1, string(REALM)), (2, CHANGEPW), (3, enc_part))
    )


def ap_req(client, ctime, cusec, initial, service, kvno, subkey, starts, addresses=(), drawn=FIXED):
    authenticator = sequence(
        (0, integer(5)),
        (1, string(REALM)),
        (2, name(1, client)),
        (4, integer(cusec)),
        (5, moment(ctime)),
        (6, key_of(drawn.subkey) if subkey else None),
        (7, integer(drawn.number)),
    )
    return application(
        14,
        sequence(
            (0, integer(5)),
            (1, integer(14)),
            (2, flags(MUTUAL_REQUIRED)),
            (3, ticket(client, initial, service, kvno, starts, addresses, drawn)),
            (4, sealed(drawn.session, 11, application(2, authenticator), None, drawn.authenticator)),
        ),
    )


def change_data(password, target, realm="own", further=None):
    """A ChangePasswdData (RFC 3244 section 2). Beside a target stands the realm, unless another value or None is given."""
    if realm == "own":
        realm = REALM if target else None
    return sequence(
        (0, octets(password)),
        (1, name(1, target) if target else None),
        (2, string(realm) if realm else None),
        (3, further),
    )


def krb_priv(data, forged, drawn=FIXED):
    part = sequence((0, octets(data)), (3, integer(drawn.number)), (4, address(1)))
    enc_part = sealed(drawn.subkey, 13, application(28, part), None, drawn.private)
    if forged:
        enc_part = enc_part[:-1] + bytes([enc_part[-1] ^ 1])
    return application(21, sequence((0, integer(5)), (1, integer(21)), (3, enc_part)))


def framed(version, ap, tail):
    length = 6 + len(ap) + len(tail)
    return b"".join(n.to_bytes(2, "big") for n in (length, version, len(ap))) + ap + tail


def request(
    client,
    password,
    cusec,
    target=None,
    ctime=1_000_100,
    initial=True,
    service=SERVICE,
    kvno=3,
    subkey=True,
    ap_first=0x6E,
    forged=False,
    starts=1_000_000,
    addresses=(),
    old=False,
    drawn=FIXED,
):
    """A request: length, version, the AP-REQ's length, the AP-REQ, the KRB-PRIV. In the earlier
    protocol, version 0x0001, the user-data is the password itself."""
    ap = ap_req(client, ctime, cusec, initial, service, kvno, subkey, starts, addresses, drawn)
    ap = bytes([ap_first]) + ap[1:]
    tail = krb_priv(password if old else change_data(password, target), forged, drawn)
    return framed(1 if old else 0xFF80, ap, tail)


def reply(code, text, ctime, cusec, words, drawn=FIXED):
    """A reply of AP-REP and KRB-PRIV, by the nine words that were drawn for it, to a client that drew these."""
    confounders = [b"".join(w.to_bytes(4, "little") for w in words[i : i + 4]) for i in (0, 5)]
    number = integer(words[4] % 2**31)
    part = sequence((0, moment(ctime)), (1, integer(cusec)), (3, number))
    enc_part = sealed(drawn.session, 12, application(27, part), None, confounders[0])
    ap_rep = application(15, sequence((0, integer(5)), (1, integer(15)), (2, enc_part)))
    said = code.to_bytes(2, "big") + text
    part = sequence((0, octets(said)), (3, number), (4, address(1)))
    enc_part = sealed(drawn.subkey, 13, application(28, part), None, confounders[1])
    tail = application(21, sequence((0, integer(5)), (1, integer(21)), (3, enc_part)))
    return framed(1, ap_rep, tail)


def error_reply(code, error, text, seconds):
    """A reply that is a KRB-ERROR of this second."""
    message = sequence(
        (0, integer(5)),
        (1, integer(30)),
        (4, moment(seconds)),
        (5, integer(0)),
        (6, integer(error)),
        (9, string(REALM)),
        (10, CHANGEPW),
        (12, octets(code.to_bytes(2, "big") + text)),
    )
    return framed(1, b"", application(30, message))
