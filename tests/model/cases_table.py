"""What `table` prints of a configuration and a journal: worked out from docs/PROTOCOL.md and docs/ADMIN.md, with Python's own
library alone. Of the cases on standard input it prints the answers.

    python3 -m tests.model.cases_table < tests/hostile/cases/tables.cases
"""

import dataclasses
import sys
import tomllib

from harness.command import Parser
from harness.journal import RAISE
from tests.model.changed_bytes import census

COUNTS = range(1, 16_777_217)
CHANGE, BASE, ADOPT, LIFT, REMOVE = 1, 3, 4, 5, 6
KINDS = [CHANGE, BASE, ADOPT, LIFT, REMOVE]
CHANGE_LENGTHS = range(60, 1091)
RAISE_LENGTH = 5
# what a journal may begin with
REALM = 7
REALM_LENGTHS = range(2, 257)
# what stands in a record of a change before its name
FRONT = 57


class Refused(Exception):
    pass


@dataclasses.dataclass(frozen=True)
class Key:
    kvno: int
    count: int
    aes128: str
    aes256: str


@dataclasses.dataclass
class Table:
    """The principals by their components, each with its keys, newest first."""

    settings: dict
    principals: dict
    count: int
    records: int = 0
    torn_behind: int = None

    @property
    def realm(self):
        return self.settings["service"]["realm"].encode()

    def kept(self, keys):
        return keys[: max(self.settings["policy"]["depth"], 1)]

    def in_order(self):
        return sorted(self.principals.items())


def opening(text):
    settings = tomllib.loads(text)
    table = Table(settings, {}, settings["policy"]["iterations"])
    for row in settings.get("principal", []):
        keys = [
            Key(key["kvno"], key["iterations"], key["aes128"].lower(), key["aes256"].lower())
            for key in row["key"]
        ]
        table.principals[tuple(row["name"].encode().split(b"/"))] = table.kept(keys)
    return table


# ---- the journal (docs/PROTOCOL.md)


def number(text):
    return int.from_bytes(text, "big")


def name_of(text):
    """The components after their number; None where they don't end with the text."""
    parts, rest = [], text[1:]
    while rest:
        size = rest[0]
        if not 1 <= size <= 128 or len(rest) < 1 + size:
            return None
        parts.append(rest[1 : 1 + size])
        rest = rest[1 + size :]
    return tuple(parts) if len(parts) == text[0] and 1 <= len(parts) <= 8 else None


def is_record(body):
    if body[0] == RAISE:
        return len(body) == RAISE_LENGTH and number(body[1:5]) in COUNTS
    return (
        body[0] in KINDS
        and len(body) in CHANGE_LENGTHS
        and number(body[1:5]) >= 1
        and number(body[5:9]) in COUNTS
        and name_of(body[FRONT:]) is not None
    )


def refused(fault, place, name, new, wanted):
    """A fault, and on a second line whose record that is, and what was wanted of it (docs/ADMIN.md)."""
    return Refused(f"{fault} at {place}\nat {place}: {shown_name(name)}: version {new.kvno}, {wanted}")


def put_key(table, place, body):
    kind, name = body[0], name_of(body[FRONT:])
    new = Key(number(body[1:5]), number(body[5:9]), body[9:25].hex(), body[25:FRONT].hex())
    if name not in table.principals and kind != ADOPT:
        raise refused("J3", place, name, new, "but no such principal in the configuration, or removed before this record")
    keys = table.principals.get(name, [])
    if kind == CHANGE and new.kvno != keys[0].kvno + 1:
        raise refused("J2", place, name, new, f"wanted {keys[0].kvno + 1}")
    if kind in (ADOPT, LIFT) and keys and new.kvno <= keys[0].kvno:
        raise refused("J2", place, name, new, f"wanted one above {keys[0].kvno}")
    if kind == REMOVE:
        del table.principals[name]
    elif kind == BASE:
        table.principals[name] = [new]
    elif kind == LIFT:
        table.principals[name] = [new, *keys[1:]]
    else:
        table.principals[name] = table.kept([new, *keys])


def put_back(table, body):
    place = table.records + 1
    if not is_record(body):
        raise Refused(f"J1 at {place}")
    if body[0] == RAISE:
        table.count = max(table.count, number(body[1:5]))
    else:
        put_key(table, place, body)
    table.records = place


def behind_heading(table, journal):
    """Where the records begin: after that of the realm, if the journal begins with one."""
    size = number(journal[:2])
    if len(journal) < 3 or journal[2] != REALM or size not in REALM_LENGTHS:
        return 0
    realm = journal[3 : 2 + size]
    if len(realm) < size - 1:
        raise Refused("J1 at 1")
    if realm != table.realm:
        raise Refused(f"J5\nof realm {quoted(realm)}, wanted {quoted(table.realm)}")
    return 2 + size


def restored(text, journal):
    table = opening(text)
    place = behind_heading(table, journal)
    while place < len(journal):
        length = number(journal[place : place + 2])
        end = place + 2 + length
        if place + 2 > len(journal):
            table.torn_behind = place
            break
        if length != RAISE_LENGTH and length not in CHANGE_LENGTHS:
            raise Refused(f"J1 at {table.records + 1}")
        if end > len(journal):
            table.torn_behind = place
            break
        put_back(table, journal[place + 2 : end])
        place = end
    return table


# ---- what is told (docs/PROTOCOL.md)


def quoted(text):
    plain = set(range(0x21, 0x7F)) - set(b"/@\\")
    return "".join(chr(byte) if byte in plain else f"\\x{byte:02x}" for byte in text)


def shown_name(name):
    return "/".join(map(quoted, name))


def lines(table):
    for name, keys in table.in_order():
        counts = " ".join(str(key.count) for key in keys)
        yield f"{shown_name(name)} kvno {keys[0].kvno} counts {counts}\n"
    yield f"principals {len(table.principals)} changes {table.records}\n"


def keys(table):
    for name, held in table.in_order():
        principal = f"{shown_name(name)}@{quoted(table.realm)}"
        salt = quoted(table.realm + b"".join(name))
        for key in held:
            for etype, digits in ((18, key.aes256), (17, key.aes128)):
                yield f"{principal} {key.kvno} {etype} {key.count} {digits} {salt}\n"


ESCAPES = {"\b": "\\b", "\t": "\\t", "\n": "\\n", "\f": "\\f", "\r": "\\r", '"': '\\"', "\\": "\\\\"}


def is_control(character):
    return ord(character) < 0x20 or character == "\x7f"


def escaped(character):
    if character in ESCAPES:
        return ESCAPES[character]
    return f"\\u{ord(character):04X}" if is_control(character) else character


def toml_text(text):
    """In double quotes where nothing wants an escape; else in single ones, in three double or three single
    ones, where that will do; else with escapes."""
    control = any(map(is_control, text))
    if not control and '"' not in text and "\\" not in text:
        return f'"{text}"'
    if not control and "'" not in text:
        return f"'{text}'"
    if not control and "\\" not in text and '"""' not in text:
        return f'"""{text}"""'
    if not control and "\'\'\'" not in text:
        return f"\'\'\'{text}\'\'\'"
    return '"' + "".join(map(escaped, text)) + '"'


def toml_value(value):
    if isinstance(value, bool):
        return "true" if value else "false"
    return str(value) if isinstance(value, int) else toml_text(value)


def stanza(header, values):
    yield f"\n{header}\n"
    for key in sorted(values):
        yield f"{key} = {toml_value(values[key])}\n"


def configuration_parts(table):
    settings = table.settings
    words = ["depth", "iterations", "min_classes", "min_length", "set_needs_initial"]
    policy = {word: settings["policy"][word] for word in words}
    yield from stanza("[policy]", policy | {"iterations": table.count})
    if not table.principals:
        yield "!principal"
    for name, held in table.in_order():
        yield from stanza("[[principal]]", {"name": b"/".join(name).decode()})
        for key in held:
            row = {"kvno": key.kvno, "iterations": key.count}
            yield from stanza("[[principal.key]]", row | {"aes128": key.aes128, "aes256": key.aes256})
    if not settings.get("rule"):
        yield "!rule"
    for rule in settings.get("rule", []):
        yield from stanza("[[rule]]", {word: rule[word] for word in ("actor", "target")})
    service = settings["service"]
    limit = service.get("max_entries", 1_048_576)
    yield from stanza("[service]", {"realm": service["realm"], "max_entries": limit})
    for key in service["key"]:
        row = {word: key[word] for word in ("etype", "kvno")} | {"key": key["key"].lower()}
        yield from stanza("[[service.key]]", row)


def configuration(table):
    """The keys of the file in alphabetical order, but that empty lists stand before all tables."""
    parts = list(configuration_parts(table))
    empty = [part[1:] for part in parts if part.startswith("!")]
    tables = "".join(part for part in parts if not part.startswith("!"))
    return "".join(f"{word} = []\n" for word in empty) + (tables if empty else tables[1:])


# ---- the cases


def told(text, journal, tell):
    try:
        table = restored(text, journal)
    except Refused as fault:
        return f"{fault}\n"
    behind = table.torn_behind
    torn = "" if behind is None else f"a torn record begins after {behind} bytes\n"
    return torn + tell(table)


def is_writable(name):
    """Whether a file can have the name: each component is UTF-8, without a slash."""
    try:
        return not any("/" in part.decode() for part in name)
    except UnicodeDecodeError:
        return False


def configuration_case(table):
    """With the text that it gives read again: the same principals."""
    if not all(map(is_writable, table.principals)):
        return "cannot write\n"
    text = configuration(table)
    again = opening(text)
    assert (again.principals, again.count) == (table.principals, table.count)
    return text + "read alike\n"


def prefixes(text, journal):
    answers = (
        told(text, journal[:length], lambda table: "".join(lines(table))).strip().replace("\n", "; ")
        for length in range(len(journal))
    )
    return census(answers) + "\n"


TELLS = {
    "lines": lambda table: "".join(lines(table)),
    "keys": lambda table: "".join(keys(table)),
    "configuration": configuration_case,
}


def answer(text, case):
    if not case or case.startswith("#"):
        return case + "\n"
    kind, *words = case.split()
    journal = b"" if words == ["-"] else bytes.fromhex("".join(words))
    tell = prefixes(text, journal) if kind == "prefixes" else told(text, journal, TELLS[kind])
    return f"-- {kind}\n{tell}"


def file_answers(body):
    text, cases = body.split("\n--\n")
    return "".join(answer(text, case) for case in cases.rstrip("\n").split("\n"))


SETTINGS = {
    "service": {"realm": "EXAMPLE.COM", "key": [{"kvno": 3, "etype": 18, "key": "5a" * 32}]},
    "policy": {
        "min_length": 6,
        "min_classes": 2,
        "depth": 2,
        "iterations": 4096,
        "set_needs_initial": False,
    },
}


def made_answer(case):
    """So many principals, each with so many changes after version 1."""
    principals, changes = map(int, case.split())
    table = Table(SETTINGS, {}, 4096, principals * changes)
    versions = [Key(kvno, 4096, "33" * 16, "44" * 32) for kvno in range(changes + 1, 1, -1)]
    versions.append(Key(1, 4096, "11" * 16, "22" * 32))
    for place in range(principals):
        table.principals[(f"client{place:05}".encode(),)] = table.kept(versions)
    texts = "".join(lines(table)), "".join(keys(table)), configuration(table)
    last = texts[0].splitlines()[-1]
    return f"{case}: {last}\nbytes {' '.join(str(len(text)) for text in texts)}\nread alike\n"


def main():
    Parser(__doc__, None, "a case can't be read").parse_args()
    comment, *blocks = sys.stdin.read().split("\n== ")
    print(comment)
    for block in blocks:
        title, body = block.split("\n", 1)
        print(f"== {title}")
        if title.startswith("made"):
            print("".join(map(made_answer, body.splitlines())), end="")
        else:
            print(file_answers(body), end="")


if __name__ == "__main__":
    main()
