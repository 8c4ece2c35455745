"""Requests with a fault in any place, and what a server answers them.

A `Draft` has a value for each part of a request (RFC 3244 section 2, RFC 4120 section 5), from the frame to the
ChangePasswdData. As it stands it is a change that every server takes; a fault is one value that differs. Encryption and
DER are those of harness.wire, so nothing here is the service's.
"""

import contextlib
import dataclasses
import socket

from harness import wire
from harness.asking import AP_REP, IN_AP_REP, IN_KRB_PRIV, KRB_ERROR, KRB_PRIV, elements, fields, only, unsealed

REALM = wire.REALM
SESSION = {17: b"\x33" * 16, 18: b"\x33" * 32}
SUBKEY = {17: b"\x44" * 16, 18: b"\x44" * 32}
INITIAL, INVALID = 0x00400000, 0x01000000
USE_SESSION_KEY, MUTUAL_REQUIRED = 0x40000000, 0x20000000
HERE = b"\x7f\0\0\1"
# seconds in which a server that answers has answered
PATIENCE = 3


def key_of(etype, key):
    return wire.sequence((0, wire.integer(etype)), (1, wire.octets(key)))


def host(address):
    """A HostAddress of IPv4, or of the type that stands before the address."""
    number, octets = (2, address) if isinstance(address, bytes) else address
    return wire.sequence((0, wire.integer(number)), (1, wire.octets(octets)))


def optional(write, value):
    return None if value is None else write(value)


@dataclasses.dataclass
class Draft:
    """Times are seconds from `now`. None leaves an optional field out; bytes in `.._inner` stand in the plain text's place.

    `.._said` and `.._shown` are an etype and a key that are written in place of the right ones; `priv_open` leaves the
    KRB-PRIV unencrypted, of etype 0.
    """

    client: bytes
    cusec: int
    now: int
    # of kadmin/changepw, by etype; its kvno
    service: dict
    kvno: int
    password: bytes = b"New-pass2"

    # the frame; `cut` makes other bytes of the whole
    version: int = 0xFF80
    longer: int = 0
    ap_length: object = None
    cut: object = None

    # AP-REQ
    ap_tag: int = 0x6E
    ap_pvno: int = 5
    ap_type: int = 14
    ap_options: int = MUTUAL_REQUIRED
    ap_cut: object = None

    # ticket
    tkt_vno: int = 5
    tkt_realm: bytes = REALM
    sname: tuple = (b"kadmin", b"changepw")
    sname_type: int = 2
    tkt_etype: int = 18
    tkt_said: int | None = None
    tkt_kvno: object = "kvno"
    tkt_key: bytes | None = None
    tkt_usage: int = 2
    tkt_damage: int = 0
    tkt_inner: bytes | None = None
    flags: int = INITIAL
    session_etype: int = 18
    session_said: int | None = None
    session_shown: bytes | None = None
    crealm: bytes = REALM
    cname: bytes | None = None
    cname_type: int = 1
    starts: int | None = -60
    ends: int = 3_600
    addresses: tuple | None = None

    # authenticator
    auth_vno: int = 5
    auth_realm: bytes = REALM
    auth_name: bytes | None = None
    ctime: int = 0
    subkey_etype: int | None = 18
    subkey_said: int | None = None
    subkey_shown: bytes | None = None
    number: int | None = 5
    auth_said: int | None = None
    auth_kvno: int | None = None
    auth_usage: int = 11
    auth_damage: int = 0
    auth_inner: bytes | None = None

    # KRB-PRIV
    priv_pvno: int = 5
    priv_type: int = 21
    priv_said: int | None = None
    priv_kvno: int | None = None
    priv_key: bytes | None = None
    priv_usage: int = 13
    priv_damage: int = 0
    priv_open: bool = False
    priv_inner: bytes | None = None
    priv_cut: object = None
    priv_number: int | None = 5
    priv_time: int | None = None
    priv_has_usec: bool = True
    sender: bytes | None = HERE
    receiver: bytes | None = None

    # ChangePasswdData
    target: bytes | None = None
    target_realm: bytes | None = None
    data: bytes | None = None
    more: bytes = b""

    @property
    def session(self):
        return SESSION[self.session_etype]

    @property
    def subkey(self):
        return SUBKEY[self.subkey_etype] if self.subkey_etype else self.session

    def encrypted(self, key, usage, plain, said, kvno=None, damage=0):
        sealed = wire.seal(key, usage, plain)
        sealed = sealed[:-1] + bytes([sealed[-1] ^ damage])
        etype = {16: 17, 32: 18}[len(key)] if said is None else said
        return wire.sequence((0, wire.integer(etype)), (1, optional(wire.integer, kvno)), (2, wire.octets(sealed)))

    def ticket(self):
        moments = [(5, wire.moment(self.now - 60)), (6, optional(lambda it: wire.moment(self.now + it), self.starts)),
                   (7, wire.moment(self.now + self.ends))]
        held = key_of(self.session_said or self.session_etype, self.session_shown or self.session)
        addresses = None if self.addresses is None else wire.tlv(0x30, b"".join(map(host, self.addresses)))
        part = self.tkt_inner or wire.application(3, wire.sequence(
            (0, wire.flags(self.flags)), (1, held), (2, wire.string(self.crealm)),
            (3, wire.name(self.cname_type, *(self.cname or self.client).split(b"/"))),
            (4, wire.sequence((0, wire.integer(1)), (1, wire.octets(b"")))), *moments, (9, addresses)))
        kvno = self.kvno if self.tkt_kvno == "kvno" else self.tkt_kvno
        key = self.tkt_key or self.service[self.tkt_etype]
        sealed = self.encrypted(key, self.tkt_usage, part, self.tkt_said, kvno, self.tkt_damage)
        return wire.application(1, wire.sequence(
            (0, wire.integer(self.tkt_vno)), (1, wire.string(self.tkt_realm)),
            (2, wire.name(self.sname_type, *self.sname)), (3, sealed)))

    def authenticator(self):
        subkey = None
        if self.subkey_etype:
            subkey = key_of(self.subkey_said or self.subkey_etype, self.subkey_shown or self.subkey)
        plain = self.auth_inner or wire.application(2, wire.sequence(
            (0, wire.integer(self.auth_vno)), (1, wire.string(self.auth_realm)),
            (2, wire.name(1, self.auth_name or self.client)), (4, wire.integer(self.cusec)),
            (5, wire.moment(self.now + self.ctime)), (6, subkey), (7, optional(wire.integer, self.number))))
        return self.encrypted(self.session, self.auth_usage, plain, self.auth_said, self.auth_kvno, self.auth_damage)

    def ap_req(self):
        message = wire.application(14, wire.sequence(
            (0, wire.integer(self.ap_pvno)), (1, wire.integer(self.ap_type)), (2, wire.flags(self.ap_options)),
            (3, self.ticket()), (4, self.authenticator())))
        message = bytes([self.ap_tag]) + message[1:]
        return self.ap_cut(message) if self.ap_cut else message

    def user_data(self):
        if self.data is not None:
            return self.data
        if self.version == 1:
            return self.password
        target = optional(lambda it: wire.name(1, *it.split(b"/")), self.target)
        data = wire.sequence((0, wire.octets(self.password)), (1, target), (2, optional(wire.string, self.target_realm)))
        return wire.tlv(0x30, only(0x30, data) + self.more)

    def krb_priv(self):
        time = optional(lambda it: wire.moment(self.now + it), self.priv_time)
        part = self.priv_inner or wire.application(28, wire.sequence(
            (0, wire.octets(self.user_data())), (1, time), (2, wire.integer(self.cusec) if time and self.priv_has_usec else None),
            (3, optional(wire.integer, self.priv_number)), (4, optional(host, self.sender)),
            (5, optional(host, self.receiver))))
        sealed = self.encrypted(self.priv_key or self.subkey, self.priv_usage, part, self.priv_said, self.priv_kvno, self.priv_damage)
        if self.priv_open:
            sealed = wire.sequence((0, wire.integer(0)), (2, wire.octets(part)))
        message = wire.application(21, wire.sequence(
            (0, wire.integer(self.priv_pvno)), (1, wire.integer(self.priv_type)), (3, sealed)))
        return self.priv_cut(message) if self.priv_cut else message

    def message(self):
        ap, private = self.ap_req(), self.krb_priv()
        length = 6 + len(ap) + len(private) + self.longer
        ap_length = self.ap_length(ap, private) if self.ap_length else len(ap)
        whole = b"".join(it.to_bytes(2, "big") for it in (length, self.version, ap_length)) + ap + private
        return self.cut(whole) if self.cut else whole


# What a server answers


def over_udp(port, message, seconds=PATIENCE):
    with socket.socket(type=socket.SOCK_DGRAM) as client:
        client.settimeout(seconds)
        client.connect(("127.0.0.1", port))
        client.send(message)
        try:
            return client.recv(65_536)
        except TimeoutError:
            return "silent"
        except ConnectionError:
            return "nobody"


def over_tcp(port, message, is_whole=True, seconds=PATIENCE):
    """With its length before it; otherwise as it stands, after which the writing side is closed."""
    try:
        with socket.create_connection(("127.0.0.1", port), seconds) as client:
            client.sendall(len(message).to_bytes(4, "big") + message if is_whole else message)
            if not is_whole:
                # the server may have ended it by now, and what it answered is still there
                with contextlib.suppress(OSError):
                    client.shutdown(socket.SHUT_WR)
            with client.makefile("rb") as reader:
                length = reader.read(4)
                return reader.read(int.from_bytes(length, "big")) if len(length) == 4 else "closed"
    except TimeoutError:
        return "silent"
    except ConnectionError:
        return "closed"


def told(draft, reply):
    """A reply in words: `code N` sealed, `code N error N` of a KRB-ERROR, or why it can't be read."""
    if isinstance(reply, str):
        return reply
    try:
        return read(draft, reply)
    except (ValueError, KeyError, IndexError, TypeError) as fault:
        return f"unreadable ({fault})"


def read(draft, reply):
    if reply[:1] == bytes([KRB_ERROR]):
        return "bare " + error_of(reply)
    length, version, ap_length = (int.from_bytes(reply[i : i + 2], "big") for i in (0, 2, 4))
    if length != len(reply) or version not in (1, 0xFF80):
        raise ValueError("no frame of a reply")
    ap, tail = reply[6 : 6 + ap_length], reply[6 + ap_length :]
    if not ap:
        return error_of(tail)
    proof = unsealed(draft.session, IN_AP_REP, 0x7B, fields(AP_REP, ap)[2])
    if (proof[0], proof[1]) != (wire.moment(draft.now + draft.ctime), wire.integer(draft.cusec)):
        raise ValueError("a reply to another request")
    keys = [draft.subkey, draft.session]
    if 2 in proof:
        keys.insert(0, only(4, dict(elements(only(0x30, proof[2])))[0xA1]))
    for key in keys:
        try:
            data = unsealed(key, IN_KRB_PRIV, 0x7C, fields(KRB_PRIV, tail)[3])
        except ValueError:
            continue
        return f"code {int.from_bytes(only(4, data[0])[:2], 'big')}"
    raise ValueError("a KRB-PRIV under none of the keys")


def error_of(text):
    error = fields(KRB_ERROR, text)
    number = int.from_bytes(only(2, error[6]), "big")
    if 12 not in error:
        return f"error {number} alone"
    return f"code {int.from_bytes(only(4, error[12])[:2], 'big')} error {number}"
