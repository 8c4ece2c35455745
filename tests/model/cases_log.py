"""What `cases_network` must print below `[log]`, worked out with nothing of ours: of the cases there, on standard input, the
answers.

    python3 -m tests.model.cases_log < crates/cases_network/stdin

The codes, errors and texts are docs/PROTOCOL.md's, the times datetime's, the addresses ipaddress's.
"""
import datetime
import ipaddress
import string

from harness.topic import answer_lines

# the rows of the decision (docs/PROTOCOL.md): code, error, text
ROWS = {
    "Skew": (3, 37, "clock skew too great"),
    "Replay": (3, 34, "request replayed"),
    "NotYet": (3, 33, "ticket not yet valid"),
    "Expired": (3, 32, "ticket expired"),
    "BadPrivate": (3, "-", "authentication failed"),
    "BadBody": (1, "-", "malformed"),
    "Denied": (5, "-", "access denied"),
    "NeedInitial": (7, "-", "initial ticket needed"),
    "Unknown": (2, "-", "no such principal"),
    "Short": (4, "-", "password too short"),
    "Classes": (4, "-", "too few character classes"),
    "Reused": (4, "-", "password used before"),
    "LastVersion": (2, "-", "no version left"),
    "Broken": (2, "-", "journal failed"),
    "Done": (0, "-", "password changed"),
}

TEXTS = {
    "malformed": "malformed",
    "failed": "authentication failed",
    "version": "bad version",
    "long": "message too long",
    "full": "history full",
    "none": "",
    "strange": " a\tb\\c\u00e9d\ne~\u007f/@ ",
}

PRINTED = (string.ascii_letters + string.digits + string.punctuation).encode()


def shown(octets, plain):
    return "".join(chr(b) if b in plain else "\\x" + bytes([b]).hex() for b in octets)


def name(octets):
    return shown(octets, PRINTED.translate(None, b"/@\\"))


def components(parts):
    return "/".join(name(bytes.fromhex(part)) for part in parts.split("."))


def principal(word):
    realm, colon, parts = word.partition(":")
    return (components(parts) if colon else "") + "@" + name(bytes.fromhex(realm))


def target(client, word):
    if word in ("bad-private", "bad-data"):
        return "-"
    return principal(client if word == "own" else word)


def moment(seconds, micros):
    start = datetime.datetime(1970, 1, 1)
    time = start + datetime.timedelta(seconds=int(seconds), microseconds=int(micros))
    return time.isoformat(timespec="microseconds") + "Z"


# what happens to the service (docs/PROTOCOL.md), and the names of its numbers
EVENTS = {
    "started": ["principals", "iterations", "quiet-until"],
    "reloaded": ["principals", "iterations"],
    "raised": ["iterations"],
    "rolled-over": ["entries", "changes"],
    "journal-failed": [],
    "log-reopened": [],
    "ended": ["entries", "changes"],
}


QUIET = " text requests are refused after a start; the clients' clocks are not at fault"


def event(seconds, micros, kind, *values):
    shown_values = [moment(*value.split(".")) if "." in value else value for value in values]
    pairs = zip(EVENTS[kind], shown_values, strict=True)
    told = QUIET if kind == "started" and values[-1] != "-" else ""
    return " ".join([moment(seconds, micros), "service", kind] + [f"{name} {value}" for name, value in pairs]) + told


# what an update that is taken is called, and the texts of those that aren't
TAKEN = {"adopt": "adopted", "lift": "lifted", "remove": "removed"}
REFUSED = {"NotNewer": "not newer", "NoSuchPrincipal": "no such principal", "Broken": "journal failed"}


def update(seconds, micros, verdict, kind, whose, *kvno):
    word = TAKEN[kind] if verdict == "Taken" else f"refused {kind}"
    what = " ".join([word, components(whose.removeprefix(":"))] + [f"kvno {number}" for number in kvno])
    text = "" if verdict == "Taken" else f" text {REFUSED[verdict]}"
    return f"{moment(seconds, micros)} service {what}{text}"


def answer(case):
    first, *words = case.split(" ")
    if first == "event":
        return event(*words)
    if first == "update":
        return update(*words)
    kind, seconds, micros, worker, peer, *rest = case.split(" ")
    client = asked = kvno = "-"
    if kind == "unopened":
        code, error, text = rest
    elif kind == "full":
        who, whose, code, error, text = rest
        client, asked = principal(who), target(who, whose)
    else:
        who, whose, verdict, kvno = rest
        client, asked = principal(who), target(who, whose)
        code, error, text = ROWS[verdict]
    text = shown(TEXTS.get(text, text).encode(), PRINTED.replace(b"\\", b" "))
    address = ipaddress.ip_address(bytes.fromhex(peer))
    return (f"{moment(seconds, micros)} worker {worker} peer {address} client {client} target {asked} "
            f"code {code} error {error} kvno {kvno} text {text}")


answer_lines(__doc__, "log", answer)
