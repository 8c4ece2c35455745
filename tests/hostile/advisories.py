"""What advisories about other servers describe, sent to this one: it answers as docs/PROTOCOL says, and goes on.

CVE-2020-28196: values within values, thousands deep, with lengths of either form. CVE-2009-0846: times that are none.
CVE-2022-44640, CVE-2011-0285: messages that can't be read after fields that could, and requests that fail at each check.
CVE-2022-32744: tickets under other keys that the service knows. CVE-2002-2443: its own errors, and answers to itself.
The requests are those of harness/crafting.py; each case ends with a change that is made.
"""

import dataclasses
import socket
import time

from harness import wire
from harness.cases import main
from harness.asking import elements, request_now, said
from harness.crafting import Draft, over_tcp, told
from harness.serving import CHANGED, NO_REQUEST, PATIENCE, ServiceCase

MALFORMED, BAD_VERSION = "code 1 error 60", "code 6 error 60"
BAD_TICKET = BAD_AUTHENTICATOR = "code 3 error 31"
NOT_US, NO_KEY = "code 3 error 35", "code 3 error 44"
BAD_BODY, DONE = "code 1", "code 0"
# bytes of what is nested: nearly the longest message, and what is sealed, for a client that takes its time to seal
LONG, SEALED = 64_000, 16_000
# keys of alice's and bob's in the sample realm, and of its service (harness/sample_realm.py)
OF_USERS = b"\x22" * 32
NULL = b"\x05\x00"
# seconds for which an answer over UDP is waited for that doesn't come
A_WHILE = 0.3


def draft(case, **changes):
    """A change of alice's, at this moment and with an id of its own."""
    case.asked = getattr(case, "asked", 0) + 1
    words = {"client": b"alice", "service": {18: wire.SERVICE}, "kvno": 3, "password": b"New-pass%d" % case.asked}
    return Draft(**{**words, "cusec": case.asked, "now": int(time.time()), **changes})


def ask(case, what, wanted, **changes):
    """A request with these changes is answered so."""
    it = draft(case, **changes)
    case.tell(what, told(it, over_tcp(case.server.port, it.message(), seconds=PATIENCE)), wanted)


def go_on(case):
    ask(case, "a change after it", DONE)


def begin(case, **words):
    case.start(4_294_967_295, workers=2, **words)


# ---- values within values


def nested(length):
    """Sequences within one another, each with the shortest length."""
    value = b""
    while len(value) < length:
        value = wire.tlv(0x30, value)
    return value


def nested_without_lengths(length):
    """Sequences of indefinite length (X.690 section 8.1.3.6) within one another."""
    count = length // 4
    return b"\x30\x80" * count + b"\0\0" * count


def deep(case, form):
    begin(case)
    long, sealed = form(LONG), form(SEALED)
    ask(case, "in place of the AP-REQ", MALFORMED, ap_cut=lambda _: long)
    ask(case, "in it", MALFORMED, ap_cut=lambda _: wire.application(14, long))
    ask(case, "in place of its ticket", MALFORMED, ap_cut=lambda message: with_field(message, 3, long))
    ask(case, "in the ticket's sealed part", BAD_TICKET, tkt_inner=wire.application(3, sealed))
    ask(case, "in the authenticator", BAD_AUTHENTICATOR, auth_inner=wire.application(2, sealed))
    for number, plain, part in ((10, "tkt_inner", 0), (8, "auth_inner", 1)):
        inner = with_field(plains(draft(case))[part], number, sealed)
        ask(case, f"as authorization data, {plain}", BAD_TICKET, **{plain: inner})
    ask(case, "in place of the KRB-PRIV", BAD_BODY, priv_cut=lambda _: long)
    ask(case, "in it", BAD_BODY, priv_cut=lambda _: wire.application(21, long))
    ask(case, "in its sealed part", BAD_BODY, priv_inner=wire.application(28, sealed))
    ask(case, "as the ChangePasswdData", BAD_BODY, data=sealed)
    ask(case, "in a field after its own, which is skipped", DONE, more=wire.field(3, sealed))
    go_on(case)


# ---- messages that can't be read after a field that could


@dataclasses.dataclass
class Plain(Draft):
    """Keeps what is sealed: of the ticket, of the authenticator, of the KRB-PRIV."""

    def encrypted(self, key, usage, plain, *more, **words):
        self.__dict__.setdefault("plains", []).append(plain)
        return super().encrypted(key, usage, plain, *more, **words)


def plains(it):
    kept = Plain(**{field.name: getattr(it, field.name) for field in dataclasses.fields(it)})
    kept.message()
    return kept.plains


def taken_apart(message):
    """The outer tag and its fields, as tag and content."""
    [(tag, inner)] = elements(message)
    [(_, content)] = elements(inner)
    return tag, list(elements(content))


def put_together(tag, fields):
    return wire.tlv(tag, wire.tlv(0x30, b"".join(wire.tlv(*it) for it in fields)))


def with_field(message, number, content):
    """The message with this field, in place of the one that it had."""
    tag, fields = taken_apart(message)
    return put_together(tag, sorted([*(it for it in fields if it[0] != 0xA0 + number), (0xA0 + number, content)]))


def spoiled(message):
    """The message with one field after the other that has a value of another type."""
    tag, fields = taken_apart(message)
    for place, (number, _) in enumerate(fields):
        yield f"field {number - 0xA0}", put_together(tag, [*fields[:place], (number, NULL), *fields[place + 1 :]])


# ---- times that are none


TIMES = [
    wire.tlv(0x18, text) for text in (b"", b"2", b"20260101000000", b"20260101000000.5Z", b"20261301000000Z", b"20260101000000Z" * 16)
] + [b"\x18\x80", b"\x18\x0f2026", b"\x18\x84\xff\xff\xff\xff", wire.tlv(0x17, b"20260101000000Z")]


# ---- requests that fail at each check


# ---- tickets under keys that aren't the service's


# ---- what it answers comes back


def answer_at(address, port, server, message, seconds=A_WHILE):
    """What is answered to a datagram from there; None if nothing is."""
    with socket.socket(type=socket.SOCK_DGRAM) as client:
        client.bind((address, port))
        client.settimeout(seconds)
        client.sendto(message, ("127.0.0.1", server.port))
        try:
            return client.recv(65_507)
        except TimeoutError:
            return None


class Advisories(ServiceCase):
    def test_values_within_values(self):
        deep(self, nested)

    def test_values_within_values_without_lengths(self):
        deep(self, nested_without_lengths)

    def test_messages_unreadable_in_each_field(self):
        begin(self)
        it = draft(self)
        of_ticket, of_authenticator, of_private = plains(it)
        for what, message, change, wanted in (
            ("AP-REQ", it.ap_req(), "ap_cut", MALFORMED), ("EncTicketPart", of_ticket, "tkt_inner", BAD_TICKET),
            ("Authenticator", of_authenticator, "auth_inner", BAD_AUTHENTICATOR), ("KRB-PRIV", it.krb_priv(), "priv_cut", BAD_BODY),
            ("EncKrbPrivPart", of_private, "priv_inner", BAD_BODY),
        ):
            for where, bytes_ in spoiled(message):
                value = (lambda _, b=bytes_: b) if change.endswith("_cut") else bytes_
                ask(self, f"{what}, {where}", wanted, **{change: value})
        for where, bytes_ in spoiled(wire.application(0, it.user_data())):
            [(_, data)] = elements(bytes_)
            ask(self, f"ChangePasswdData, {where}", BAD_BODY, data=data)
        go_on(self)

    def test_times_that_are_none(self):
        begin(self)
        of_ticket, of_authenticator, of_private = plains(draft(self))
        ask(self, "the ticket's times as they should be", DONE, tkt_inner=of_ticket)
        ask(self, "the KRB-PRIV without a time", DONE, priv_inner=of_private)
        for time_ in TIMES:
            what = time_[:17].hex()
            for number in (5, 6, 7, 8):
                ask(self, f"{what} of the ticket ({number})", BAD_TICKET, tkt_inner=with_field(of_ticket, number, time_))
            ask(self, f"{what} of the authenticator", BAD_AUTHENTICATOR, auth_inner=with_field(of_authenticator, 5, time_))
            ask(self, f"{what} of the KRB-PRIV", BAD_BODY, priv_inner=with_field(of_private, 1, time_))
        go_on(self)

    def test_a_request_that_fails_at_each_check(self):
        begin(self)
        for what, wanted, changes in (
            ("no length", MALFORMED, {"cut": lambda _: b""}),
            ("another length", MALFORMED, {"longer": 1}),
            ("another version", BAD_VERSION, {"version": 2}),
            ("no AP-REQ", MALFORMED, {"ap_length": lambda *_: 0}),
            ("an AP-REQ that reaches past the end", MALFORMED, {"ap_length": lambda ap, private: len(ap) + len(private) + 1}),
            ("an AP-REQ that isn't whole", MALFORMED, {"ap_length": lambda ap, _: len(ap) - 1}),
            ("nothing after it", BAD_BODY, {"priv_cut": lambda _: b""}),
            ("a KRB-PRIV under another key", "code 3", {"priv_key": b"\x45" * 32}),
            ("a KRB-PRIV that isn't sealed", "code 3", {"priv_open": True}),
        ):
            ask(self, what, wanted, **changes)
        go_on(self)

    def test_tickets_under_other_keys(self):
        """The service knows the keys of each user, and makes a session's; a ticket under one of them is none, whatever name
        and version it has."""
        begin(self)
        for what, key in (("a user's key", OF_USERS), ("the session's key", wire.SESSION)):
            ask(self, f"{what}, with the service's version", BAD_TICKET, tkt_key=key)
            ask(self, f"{what}, with its own version", NO_KEY, tkt_key=key, tkt_kvno=1)
            ask(self, f"{what}, without a version", BAD_TICKET, tkt_key=key, tkt_kvno=None)
            ask(self, f"{what}, in the user's name", NOT_US, tkt_key=key, sname=(b"bob",))
            ask(self, f"{what}, in the KDC's name", NOT_US, tkt_key=key, sname=(b"krbtgt", wire.REALM))
        go_on(self)

    def test_what_it_answers_comes_back(self):
        """An error, an answer, or even a request from the port of such a service gets no answer; from any other it does."""
        begin(self, options=["--udp"])
        alice, bob = request_now("alice", "New-pass2", 1), request_now("bob", "New-pass2", 1)
        answer = answer_at("127.0.0.1", 0, self.server, alice.message, PATIENCE)
        self.tell("a change", said(alice, answer), CHANGED)
        error = wire.error_reply(1, 60, b"malformed", alice.ctime)
        for what, message in (("an error", error), ("a bare error", error[6:]), ("a frame without a request", NO_REQUEST)):
            self.tell(what, answer_at("127.0.0.1", 0, self.server, message), None)
        ports = [self.server.port]
        try:
            answer_at("127.0.0.2", 464, self.server, error)
            ports.append(464)
        except OSError:
            self.tell("port 464 can't be had", True, True)
        for port in ports:
            for what, message in (("an error", error), ("its own answer", answer), ("a request", bob.message)):
                where = "464" if port == 464 else "its own port"
                self.tell(f"{what} from {where}", answer_at("127.0.0.2", port, self.server, message), None)
        answer = answer_at("127.0.0.2", 0, self.server, bob.message, PATIENCE)
        self.tell("the same request from another one", said(bob, answer), CHANGED)


if __name__ == "__main__":
    main(__doc__)
