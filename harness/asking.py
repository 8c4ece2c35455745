"""A client that asks over a connection of its own: requests of this moment, and what their replies say.

Both are of changepw_client.py, and so share nothing with the service. A reply is opened here: its
checksums have to be right, and its AP-REP that of the request (RFC 3244 section 2, RFC 4120 section 3.2.4).
"""

import dataclasses
import hmac
import ipaddress
import socket
import time

from harness import wire

AP_REP, KRB_PRIV, KRB_ERROR = 0x6F, 0x75, 0x7E
# key usages of the AP-REP's part and the KRB-PRIV's (RFC 4120 section 7.5.1)
IN_AP_REP, IN_KRB_PRIV = 12, 13
CONFOUNDER, CHECKSUM = 16, 12
# types of addresses, and how many bytes they have: IPv4 and IPv6 (RFC 4120 section 7.5.3)
ADDRESSES = ((2, 4), (24, 16))


class Opener(wire.Aes):
    """AES (FIPS 197) backwards, by the same key."""

    inverse = [wire.S.index(i) for i in range(256)]

    def decrypt(self, block):
        state = [a ^ b for a, b in zip(block, self.keys[-1])]
        for key in reversed(self.keys[:-1]):
            turned = [0] * 16
            for place, source in enumerate(wire.SHIFT):
                turned[source] = self.inverse[state[place]]
            state = [a ^ b for a, b in zip(turned, key)]
            if key is not self.keys[0]:
                state = unmixed(state)
        return bytes(state)


def unmixed(state):
    """The columns before they were mixed: mixed once more, after what makes up the difference."""
    double, columns = wire.DOUBLED, []
    for c in range(0, 16, 4):
        a, b, d, e = state[c : c + 4]
        even, odd = double[double[a ^ d]], double[double[b ^ e]]
        column = [a ^ even, b ^ odd, d ^ even, e ^ odd]
        every = column[0] ^ column[1] ^ column[2] ^ column[3]
        columns += [column[i] ^ every ^ double[column[i] ^ column[(i + 1) % 4]] for i in range(4)]
    return columns


_openers = {}


def unseal(key, usage, sealed):
    """The plain text; its last two blocks stand in each other's place (RFC 3962 section 5)."""
    if (key, usage) not in _openers:
        number = usage.to_bytes(4, "big")
        keys = [wire.derive(key, number + end) for end in (b"\xaa", b"\x55")]
        _openers[key, usage] = Opener(keys[0]), keys[1]
    opener, integrity = _openers[key, usage]
    text = from_cts(opener, sealed[:-CHECKSUM])
    if hmac.new(integrity, text, "sha1").digest()[:CHECKSUM] != sealed[-CHECKSUM:]:
        raise ValueError("another checksum")
    return text[CONFOUNDER:]


def from_cts(opener, text):
    """At least two blocks, the last one whole or not."""
    whole = (len(text) - 1) // 16 * 16
    *blocks, before_last = [text[i : i + 16] for i in range(0, whole, 16)]
    last = text[whole:]
    tail = opener.decrypt(before_last)
    plain, before = b"", bytes(16)
    for block in [*blocks, last + tail[len(last) :]]:
        plain += bytes(a ^ b for a, b in zip(opener.decrypt(block), before))
        before = block
    return plain + bytes(a ^ b for a, b in zip(tail, last))


def elements(text):
    """Tag and content of each element that stands there."""
    while text:
        start, size = 2, text[1]
        if size >= 0x80:
            start += size & 0x7F
            size = int.from_bytes(text[2:start], "big")
        yield text[0], text[start : start + size]
        text = text[start + size :]


def only(tag, text):
    """The content of the one element there."""
    [(found, content)] = elements(text)
    if found != tag:
        raise ValueError(f"tag {found:02x} and not {tag:02x}")
    return content


def fields(tag, text):
    """What stands in a message's fields, each by its number."""
    return {found - 0xA0: content for found, content in elements(only(0x30, only(tag, text)))}


def unsealed(key, usage, tag, part):
    """The fields of what an EncryptedData holds."""
    sealed = dict(elements(only(0x30, part)))
    return fields(tag, unseal(key, usage, only(4, sealed[0xA2])))


@dataclasses.dataclass(frozen=True)
class Request:
    ctime: int
    cusec: int
    message: bytes


def request_now(client, password, cusec, ahead=0, **more):
    """A change of one's own password, by a clock that is so many seconds ahead.

    No two requests of a client have the same microseconds. `more` is what `changepw_client.request` takes."""
    now = int(time.time()) + ahead
    message = wire.request(client.encode(), password.encode(), cusec, ctime=now, starts=now - 60, **more)
    return Request(now, cusec, message)


def said(request, reply):
    """`code N TEXT`, or `code N error N TEXT`, as a reply to this request says it."""
    length, version, ap_length = (int.from_bytes(reply[i : i + 2], "big") for i in (0, 2, 4))
    if (length, version) != (len(reply), 1):
        raise ValueError("no frame of a reply")
    ap, tail = reply[6 : 6 + ap_length], reply[6 + ap_length :]
    if not ap:
        error = fields(KRB_ERROR, tail)
        number = int.from_bytes(only(2, error[6]), "big")
        return told(only(4, error[12]), f"error {number} ")
    proof = unsealed(wire.SESSION, IN_AP_REP, 0x7B, fields(AP_REP, ap)[2])
    if (proof[0], proof[1]) != (wire.moment(request.ctime), wire.integer(request.cusec)):
        raise ValueError("a reply to another request")
    data = unsealed(wire.SUBKEY, IN_KRB_PRIV, 0x7C, fields(KRB_PRIV, tail)[3])
    return told(only(4, data[0]), "")


def sender(reply):
    """The address from which a reply of AP-REP and KRB-PRIV says that it comes (s-address, RFC 4120 section 5.7.1)."""
    ap_length = int.from_bytes(reply[4:6], "big")
    part = unsealed(wire.SUBKEY, IN_KRB_PRIV, 0x7C, fields(KRB_PRIV, reply[6 + ap_length :])[3])
    address = dict(elements(only(0x30, part[4])))
    kind, octets = int.from_bytes(only(2, address[0xA0]), "big"), only(4, address[0xA1])
    if (kind, len(octets)) not in ADDRESSES:
        raise ValueError(f"an address of type {kind} and {len(octets)} bytes")
    return str(ipaddress.ip_address(octets))


def told(data, error):
    return f"code {int.from_bytes(data[:2], 'big')} {error}{data[2:].decode()}"


def framed(*requests):
    """Their messages after their lengths, as they go over TCP."""
    return b"".join(len(it.message).to_bytes(4, "big") + it.message for it in requests)


class Connection:
    """A connection to a host, at which no read waits longer than so many seconds; from this address, where there is one."""

    def __init__(self, port, seconds=30, address=None, host="127.0.0.1"):
        self.socket = socket.create_connection((host, port), seconds, address and (address, 0))
        self.reader = self.socket.makefile("rb")

    def send(self, *requests):
        """All in one write."""
        self.socket.sendall(framed(*requests))

    def reply(self):
        """The bytes of the next reply; none where the service has ended the connection."""
        try:
            length = self.reader.read(4)
            return self.reader.read(int.from_bytes(length, "big")) if len(length) == 4 else None
        except ConnectionError:
            return None

    def close(self):
        self.reader.close()
        self.socket.close()
