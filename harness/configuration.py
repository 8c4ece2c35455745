"""Makes the service's configuration (docs/ADMIN.md) from a keytab, on standard output.

The keytab holds the keys of kadmin/changepw and of the principals, as `ktadd -norandkey` in kadmin.local writes them. The
principals' keys are taken to be derived under 4096 iterations with the default salt, which a keytab doesn't say.

What the service can't hold is left out, and a line on standard error says so: `left out: ..`. So are principals that are no
users': the KDC's own, and services of hosts. Without a key of kadmin/changepw that can be used there is no configuration,
but a line.
"""

import collections
import dataclasses
import os
import pathlib
import sys

from harness.command import Parser

SERVICE = (b"kadmin", b"changepw")
AES128, AES256 = 17, 18
KEY_SIZES = {AES128: 16, AES256: 32}
ITERATIONS = 4096
LONGEST_REALM = 255
MOST_COMPONENTS = 8
LONGEST_COMPONENT = 128
# of one principal, or of the service
MOST_KEYS = 16
# principals, or rules
MOST = 10_000
# first components of the KDC's own names; alone such a name may be a user's
KDC_NAMES = (b"K", b"krbtgt", b"kadmin", b"kiprop", b"WELLKNOWN")


@dataclasses.dataclass(frozen=True)
class Entry:
    """A key of a keytab; the components are those of the principal's name."""

    realm: bytes
    components: tuple
    kvno: int
    etype: int
    key: bytes

    @property
    def principal(self):
        """The name without its realm."""
        return b"/".join(self.components).decode(errors="backslashreplace")


class Bytes:
    """Numbers and texts from a string of bytes, one after the other, high byte first."""

    def __init__(self, data):
        self.data = data

    def take(self, count):
        if len(self.data) < count:
            raise ValueError("the keytab ends too early")
        taken, self.data = self.data[:count], self.data[count:]
        return taken

    def number(self, size):
        return int.from_bytes(self.take(size), "big", signed=size == 4)

    def text(self):
        return self.take(self.number(2))


def read_entry(entry):
    """Format 2: name with its realm in front, type, time, kvno, key, and the kvno in full."""
    count = entry.number(2)
    realm = entry.text()
    components = tuple(entry.text() for _ in range(count))
    entry.take(8)
    kvno = entry.number(1)
    etype = entry.number(2)
    key = entry.text()
    if len(entry.data) >= 4:
        kvno = int.from_bytes(entry.take(4), "big") or kvno
    return Entry(realm, components, kvno, etype, key)


def read_keytab(data):
    """The entries in the file's order; a record of negative length is a hole."""
    file = Bytes(data)
    if data[:2] != b"\x05\x02":
        raise ValueError("no keytab of format 2")
    file.take(2)
    entries = []
    while file.data:
        size = file.number(4)
        record = file.take(abs(size))
        if size > 0:
            entries.append(read_entry(Bytes(record)))
    return entries


def quoted(text):
    """A TOML string, on one line: what can't be printed is escaped."""
    parts = ['"']
    for character in text:
        if character in '"\\':
            parts.append("\\" + character)
        elif character.isprintable():
            parts.append(character)
        else:
            parts.append(f"\\U{ord(character):08x}")
    return "".join(parts) + '"'


def leave_out(what, reason):
    print(f"left out: {what}: {reason}", file=sys.stderr)


def is_utf8(text):
    try:
        text.decode()
    except UnicodeDecodeError:
        return False
    return True


def name_fault(components):
    """Why the service can't hold the name, or nothing."""
    if not 1 <= len(components) <= MOST_COMPONENTS:
        return f"a name has 1 to {MOST_COMPONENTS} components"
    if any(not 1 <= len(component) <= LONGEST_COMPONENT for component in components):
        return f"a component has 1 to {LONGEST_COMPONENT} bytes"
    if any(b"/" in component for component in components):
        return "a component has no /"
    if not is_utf8(b"/".join(components)):
        return "a name is UTF-8"
    return None


def principal_fault(components):
    """Why the name becomes no principal, or nothing."""
    if len(components) > 1 and components[0] in KDC_NAMES:
        return "the KDC's own"
    if len(components) == 2 and b"." in components[1]:
        return "a service of a host"
    return name_fault(components)


def key_fault(entry):
    """Why the key can't be used, or nothing."""
    if entry.etype not in KEY_SIZES:
        return "only 17 and 18 can be used"
    if len(entry.key) != KEY_SIZES[entry.etype]:
        return f"its key has {len(entry.key)} bytes"
    if entry.kvno == 0:
        return "a version is at least 1"
    return None


def versions_of(name, entries):
    """The usable keys by etype, of each version in the entries; of two keys the later one."""
    versions = collections.defaultdict(dict)
    for entry in entries:
        keys = versions[entry.kvno]
        what = f"{name}, kvno {entry.kvno}, etype {entry.etype}"
        fault = key_fault(entry)
        if fault:
            leave_out(what, fault)
            continue
        if keys.get(entry.etype, entry.key) != entry.key:
            leave_out(what, "a later entry has another key")
        keys[entry.etype] = entry.key
    return versions


def row_fault(kvno, keys, rows):
    """Why a version can't follow the rows before it, or nothing."""
    for etype in KEY_SIZES:
        if etype not in keys:
            return f"no key of etype {etype}"
    if rows and kvno != rows[-1][0] - 1:
        return "behind a gap"
    if len(rows) == MOST_KEYS:
        return f"a principal has at most {MOST_KEYS} versions"
    return None


def key_rows(name, entries):
    """(kvno, aes128, aes256), newest version first and without a gap.

    There are none where the newest version lacks a key: an older one isn't what the KDC holds.
    """
    versions = versions_of(name, entries)
    rows = []
    for kvno in sorted(versions, reverse=True):
        fault = row_fault(kvno, versions[kvno], rows)
        if fault:
            if rows:
                leave_out(f"{name}, kvno {kvno} and below", fault)
            else:
                leave_out(name, f"its newest kvno {kvno}: {fault}")
            break
        rows.append((kvno, versions[kvno][AES128].hex(), versions[kvno][AES256].hex()))
    return rows


def service_rows(entries):
    """(kvno, etype, key) of the service's keys, newest first."""
    versions = versions_of(quoted("kadmin/changepw"), entries)
    rows = []
    for kvno in sorted(versions, reverse=True):
        for etype, key in versions[kvno].items():
            if len(rows) == MOST_KEYS:
                what = f'"kadmin/changepw", kvno {kvno}, etype {etype}'
                leave_out(what, f"a service has at most {MOST_KEYS} keys")
            else:
                rows.append((kvno, etype, key.hex()))
    if not rows:
        raise ValueError("no key of kadmin/changepw that can be used")
    return rows


def realm_text(realm):
    if not is_utf8(realm) or not 1 <= len(realm) <= LONGEST_REALM:
        raise ValueError(f"the realm isn't UTF-8 of 1 to {LONGEST_REALM} bytes")
    return realm.decode()


def service_tables(rows):
    for kvno, etype, key in rows:
        yield f"""
[[service.key]]
kvno = {kvno}
etype = {etype}
key = "{key}"
"""


def rule_tables(rules):
    """Rules of names that the service can't hold are left out."""
    count = 0
    for actor, target in rules:
        names = [actor] if target == "*" else [actor, target]
        faults = [name_fault(os.fsencode(name).split(b"/")) for name in names]
        fault = next(filter(None, faults), None)
        if count == MOST:
            fault = f"there are at most {MOST} rules"
        if fault:
            leave_out(f"rule {quoted(actor)}:{quoted(target)}", fault)
            continue
        count += 1
        yield f"\n[[rule]]\nactor = {quoted(actor)}\ntarget = {quoted(target)}\n"


def principal_table(name, rows):
    parts = [f"\n[[principal]]\nname = {name}\n"]
    for kvno, aes128, aes256 in rows:
        parts.append(f"""\
[[principal.key]]
kvno = {kvno}
iterations = {ITERATIONS}
aes128 = "{aes128}"
aes256 = "{aes256}"
""")
    return "".join(parts)


def principal_tables(realm, by_name):
    """Of each principal of the realm that the service can hold."""
    count = 0
    for (of_realm, components), entries in by_name.items():
        name = quoted(entries[0].principal)
        fault = None if of_realm == realm else "of another realm"
        fault = fault or principal_fault(components)
        if count == MOST:
            fault = fault or f"there are at most {MOST} principals"
        if fault:
            leave_out(name, fault)
            continue
        rows = key_rows(name, entries)
        if rows:
            count += 1
            yield principal_table(name, rows)


def configuration(keytab, rules):
    """The TOML text. `rules` are pairs of names, the target `*` for everyone."""
    by_name = collections.defaultdict(list)
    for entry in read_keytab(keytab):
        by_name[entry.realm, entry.components].append(entry)
    realm = next((realm for realm, components in by_name if components == SERVICE), None)
    if realm is None:
        raise ValueError("no key of kadmin/changepw")
    parts = [f"[service]\nrealm = {quoted(realm_text(realm))}\n"]
    parts += service_tables(service_rows(by_name.pop((realm, SERVICE))))
    parts.append(f"""
[policy]
min_length = 8
min_classes = 2
depth = 3
iterations = {ITERATIONS}
set_needs_initial = false
""")
    parts += rule_tables(rules)
    parts += principal_tables(realm, by_name)
    return "".join(parts)


def main():
    parser = Parser(__doc__, None, "there is no configuration")
    parser.add_argument("keytab", metavar="KEYTAB")
    parser.add_argument("rule", nargs="*", metavar="ACTOR:TARGET", help="a rule: who may set whose password")
    words = parser.parse_args()
    file, rules = words.keytab, words.rule
    if not all(":" in rule for rule in rules):
        parser.error("a rule is ACTOR:TARGET")
    try:
        keytab = pathlib.Path(file).read_bytes()
        text = configuration(keytab, [rule.split(":", 1) for rule in rules])
    except OSError as fault:
        sys.exit(f"cannot read {file}: {fault.strerror}")
    except ValueError as fault:
        sys.exit(f"{file}: {fault}")
    sys.stdout.buffer.write(text.encode())


if __name__ == "__main__":
    main()
