"""The bytes of the messages that crates/cases_kerberos opens (topic `messages`), worked out from RFC 4120 with harness.wire.

    python3 -m tests.model.cases_messages < crates/cases_kerberos/stdin |
        python3 -m harness.topic messages --into crates/cases_kerberos/stdin

A case is a comment, `# KIND: CHANGE, CHANGE ..`, and the line below it. That line is written anew; all others stay. A change
is of the message (`ap-req` or `krb-priv`, `ap-rep`, `error`) or of who opens it (`service`, `client`).
"""

import ipaddress
import sys

from harness import wire
from harness.command import Parser
from harness.crafting import HERE, MUTUAL_REQUIRED, SESSION, USE_SESSION_KEY, Draft
from harness.topic import headed, lines_of

OWN, OTHER = wire.SERVICE, b"\x5b" * 32
CTIME, CUSEC = 1_000_100, 1
# of keys by their length
ETYPES = {16: 17, 32: 18}
# the authtime is 60 seconds before; the ticket has no starttime
NOW = 1_000_060


def beginning(byte):
    """A message with another first byte."""
    return lambda message: bytes([byte]) + message[1:]


def keys(*held):
    """The words of the service's keys, each of which is a kvno and the key's bytes."""
    return " ".join(f"{kvno} {ETYPES[len(key)]} {key.hex()}" for kvno, key in held)


# what a change makes of a Draft
DRAFTS = {
    "ticket starttime": {"starts": -10},
    "ticket cname of another name-type": {"cname_type": 5},
    "ticket cname alice/admin": {"cname": b"alice/admin"},
    "ticket keytype 23": {"session_said": 23},
    "ticket key of 16 bytes": {"session_shown": SESSION[17]},
    "authenticator vno 4": {"auth_vno": 4},
    "authenticator cname bob": {"auth_name": b"bob"},
    "authenticator crealm EXAMPLE.ORG": {"auth_realm": b"EXAMPLE.ORG"},
    "authenticator subkey absent": {"subkey_etype": None},
    "authenticator subkey of keytype 23": {"subkey_said": 23},
    "authenticator subkey of keytype 17": {"subkey_etype": 17},
    "authenticator seq-number absent": {"number": None},
    "ap-req text 6f": {"ap_tag": 0x6F},
    "ap-req pvno 4": {"ap_pvno": 4},
    "ap-req tkt-vno 4": {"tkt_vno": 4},
    "ap-req msg-type 15": {"ap_type": 15},
    "ap-req use-session-key": {"ap_options": MUTUAL_REQUIRED | USE_SESSION_KEY},
    "ap-req sname kadmin/admin": {"sname": (b"kadmin", b"admin")},
    "ap-req sname kadmin": {"sname": (b"kadmin",)},
    "ap-req realm EXAMPLE.ORG": {"tkt_realm": b"EXAMPLE.ORG"},
    "ap-req ticket etype 23": {"tkt_said": 23},
    "ap-req ticket etype 17": {"tkt_said": 17},
    "ap-req ticket kvno 4": {"tkt_kvno": 4},
    "ap-req ticket kvno absent": {"tkt_kvno": None},
    "ap-req ticket not DER": {"tkt_inner": b"no"},
    "ap-req authenticator usage 7": {"auth_usage": 7},
    "ap-req authenticator etype 17": {"auth_said": 17},
    "ap-req authenticator kvno 1": {"auth_kvno": 1},
    "ap-req authenticator not DER": {"auth_inner": b"no"},
    "service seals under bytes 5b": {"tkt_key": OTHER},
    "service seals under kvno 4": {"tkt_key": OTHER, "kvno": 4},
    "part timestamp": {"priv_time": 39},
    "part timestamp alone": {"priv_time": 39, "priv_has_usec": False},
    "part seq-number 6": {"priv_number": 6},
    "part seq-number absent": {"priv_number": None},
    "part r-address of the service": {"receiver": HERE},
    "part r-address of another": {"receiver": b"\x7f\0\0\2"},
    "part r-address of type 20": {"receiver": (20, HERE)},
    "krb-priv text 74": {"priv_cut": beginning(0x74)},
    "krb-priv text 76": {"priv_cut": beginning(0x76)},
    "krb-priv pvno 4": {"priv_pvno": 4},
    "krb-priv msg-type 20": {"priv_type": 20},
    "krb-priv etype 17": {"priv_said": 17},
    "krb-priv kvno 1": {"priv_kvno": 1},
    "krb-priv forged": {"priv_damage": 1},
    "krb-priv under the session key": {"priv_key": SESSION[18]},
    "krb-priv under usage 12": {"priv_usage": 12},
    "krb-priv not DER": {"priv_inner": b"no"},
    "result of one byte": {"data": b"\0"},
    "result 4": {"data": b"\0\4password too short"},
}
# the words of who opens it, in their places
SERVICES = {
    "peer 127.0.0.2": (0, "127.0.0.2"),
    "peer 2001:db8::1": (0, "2001:db8::1"),
    "peer ::ffff:127.0.0.1": (0, "::ffff:127.0.0.1"),
    "holds kvno 3 and 4": (1, keys((3, OWN), (4, OTHER))),
    "holds kvno 4 and 3": (1, keys((4, OTHER), (3, OWN))),
    "holds two of kvno 3": (1, keys((3, OWN), (3, OTHER))),
    "holds two of kvno 3 the other way": (1, keys((3, OTHER), (3, OWN))),
    "holds etype 17 of kvno 4": (1, keys((3, OWN), (4, OTHER[:16]))),
}
CLIENTS = {"other session key": (0, (b"\x34" * 32).hex()), "other ctime": (1, "1000101"), "other cusec": (2, "2")}


def address_of(words):
    """A HostAddress: `the peer's` or as it is written, under its own type or another; or its first four bytes."""
    written, _, number = words.partition(" under type ")
    front = written.removeprefix("the first four bytes of ")
    address = ipaddress.ip_address("127.0.0.1" if front == "the peer's" else front)
    octets = address.packed if front == written else address.packed[:4]
    return int(number) if number else {4: 2, 6: 24}[address.version], octets


def draft(changes, **values):
    """A request with these values, and with these changes."""
    for change in changes:
        kind, _, how = change.partition(" ")
        if kind == "addresses":
            values["addresses"] = () if how == "none" else tuple(map(address_of, how.split(" and ")))
        elif change in DRAFTS or kind not in ("service", "client", "ap-rep"):
            values |= DRAFTS[change]
    own = dict(client=b"alice", cusec=CUSEC, now=NOW, service={18: wire.SERVICE}, kvno=3, ctime=40, starts=None, ends=3_540)
    return Draft(**own | values)


def placed(words, kind, places, changes):
    """The words of who opens a message, with those that the changes of this kind put in their places."""
    found = [places[it.removeprefix(f"{kind} ")] for it in changes if it.startswith(f"{kind} ") and it not in DRAFTS]
    for place, word in found:
        words[place] = word
    return " ".join(words)


def ap_req(changes):
    """`ap-req PEER KVNO ETYPE KEY KVNO ETYPE KEY MESSAGE`"""
    words = placed(["127.0.0.1", keys((3, OWN), (3, OWN))], "service", SERVICES, changes)
    return f"ap-req {words} {draft(changes).ap_req().hex()}"


def krb_priv(changes):
    """`krb-priv STRICTNESS NUMBER MESSAGE`: the number is the authenticator's, `-` for none."""
    words = placed(["lenient"], "service", {"strict": (0, "strict")}, changes)
    number = "-" if "authenticator seq-number absent" in changes else "5"
    return f"krb-priv {words} {number} {draft(changes, data=b'New-pass2').krb_priv().hex()}"


def ap_rep(changes):
    part = wire.sequence((0, wire.moment(CTIME)), (1, wire.integer(CUSEC)), (3, wire.integer(5)))
    cipher = wire.seal(SESSION[18], 12, b"no" if "ap-rep not DER" in changes else wire.application(27, part))
    if "ap-rep forged" in changes:
        cipher = bytes([cipher[0] ^ 1]) + cipher[1:]
    pvno, number, etype = (
        other if f"ap-rep {how} {other}" in changes else own
        for how, own, other in (("pvno", 5, 4), ("msg-type", 15, 14), ("etype", 18, 17)))
    sealed = wire.sequence((0, wire.integer(etype)), (2, wire.octets(cipher)))
    message = wire.application(15, wire.sequence((0, wire.integer(pvno)), (1, wire.integer(number)), (2, sealed)))
    return beginning(0x6E)(message) if "ap-rep text 6e" in changes else message


def reply(changes):
    """`reply KEY CTIME CUSEC AP-REP KRB-PRIV`: under the client's session key."""
    words = placed([SESSION[18].hex(), str(CTIME), str(CUSEC)], "client", CLIENTS, changes)
    tail = draft(changes, data=b"\0\0password changed").krb_priv()
    return f"reply {words} {ap_rep(changes).hex()} {tail.hex()}"


def krb_error(changes):
    """`krb-error MESSAGE`"""
    data = b"\0" if "error e-data of one byte" in changes else b"\0\3request replayed"
    pvno, number = (other if f"error {how} {other}" in changes else own for how, own, other in (("pvno", 5, 4), ("msg-type", 30, 29)))
    message = wire.application(30, wire.sequence(
        (0, wire.integer(pvno)), (1, wire.integer(number)), (4, wire.moment(CTIME)), (5, wire.integer(CUSEC)),
        (6, wire.integer(34)), (9, wire.string(wire.REALM)), (10, wire.CHANGEPW),
        (12, None if "error e-data absent" in changes else wire.octets(data))))
    return f"krb-error {(beginning(0x7F)(message) if 'error text 7f' in changes else message).hex()}"


KINDS = {"ap-req": ap_req, "krb-priv": krb_priv, "reply": reply, "krb-error": krb_error}


def line_below(comment):
    """The case that a comment describes; None for another one."""
    kind, colon, changes = comment.removeprefix("# ").partition(":")
    if not comment.startswith("# ") or not colon or kind not in KINDS:
        return None
    return KINDS[kind]([it.strip() for it in changes.split(",") if it.strip()])


def main():
    Parser(__doc__, None, "a case can't be read").parse_args()
    found = []
    for line in lines_of(sys.stdin.read(), "messages"):
        found.append(found and line_below(found[-1]) or line)
    print(headed("messages", found), end="")


if __name__ == "__main__":
    main()
