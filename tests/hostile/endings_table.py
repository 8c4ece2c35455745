"""How `table` ends: what it prints in each form, of a whole journal and a torn one, and why it prints nothing.

The forms are those of chpw_server(8), what is said of a journal's faults those of docs/PROTOCOL (Faults) and docs/ADMIN.
"""

import subprocess

from harness.cases import main
from harness.journal import CHANGE, keys_record, plain_record, raise_record
from harness.program import MISSING, ProgramCase, unreadable
from harness.sample_realm import principal
from harness.server import private

# alice has keys of two versions, and changed her password once the count was raised; two versions are kept
SETTINGS = """\
[service]
realm = "EXAMPLE.COM"
max_entries = 1000
[[service.key]]
kvno = 3
etype = 17
key = "5a5a5a5a5a5a5a5a5a5a5a5a5a5a5a5a"
[policy]
min_length = 6
min_classes = 2
depth = 2
iterations = 4
set_needs_initial = false
"""
LINES = "alice kvno 8 counts 5 4\nbob/admin kvno 1 counts 4\nprincipals 2 changes 2"
HELD = [("alice", 8, 5, "a8"), ("alice", 7, 4, "a7"), ("bob/admin", 1, 4, "b1")]
CONFIGURATION = """\
rule = []

[policy]
depth = 2
iterations = 5
min_classes = 2
min_length = 6
set_needs_initial = false
{principals}
[service]
max_entries = 1000
realm = "EXAMPLE.COM"

[[service.key]]
etype = 17
key = "5a5a5a5a5a5a5a5a5a5a5a5a5a5a5a5a"
kvno = 3"""
KEY = """
[[principal.key]]
aes128 = "{}"
aes256 = "{}"
iterations = {}
kvno = {}
"""
UNKNOWN = "but no such principal in the configuration, or removed before this record"


def keys_of(byte):
    return bytes.fromhex(16 * byte), bytes.fromhex(32 * byte)


def key_lines():
    """Of each key its principal, version, etype, count, bytes and salt (RFC 4120 section 4)."""
    for name, kvno, iterations, byte in HELD:
        salt = "EXAMPLE.COM" + name.replace("/", "")
        for etype, size in (18, 32), (17, 16):
            yield f"{name}@EXAMPLE.COM {kvno} {etype} {iterations} {size * byte} {salt}"


def configuration():
    """The settings, with the raised count and the keys that are held."""
    text, last = "", None
    for name, kvno, iterations, byte in HELD:
        if name != last:
            text += f'\n[[principal]]\nname = "{name}"\n'
        text, last = text + KEY.format(16 * byte, 32 * byte, iterations, kvno), name
    return CONFIGURATION.format(principals=text)


FORMS = {"lines": LINES, "keys": "\n".join(key_lines()), "configuration": configuration()}


class TableEndings(ProgramCase):
    def setUp(self):
        super().setUp()
        bob = principal("bob/admin", [(1, *keys_of("b1"))], 4)
        alice = principal("alice", [(7, *keys_of("a7")), (6, *keys_of("a6"))], 4)
        private(self.folder / "realm.toml").write_text(SETTINGS + bob + alice)
        self.journal = raise_record(5) + keys_record(CHANGE, "alice", 8, 5, keys_of("a8"))
        private(self.folder / "journal").write_bytes(self.journal)

    def tell_table(self, what, wanted, *more, config="realm.toml", journal="journal"):
        self.tell_ended(f"table: {what}", wanted, "table", "--config", config, "--journal", journal, *more)

    def test_forms(self):
        """The configuration's keys, those that the journal's changes put in front, and by default a line for each principal."""
        self.tell_table("the default", (LINES, "", 0))
        for form, text in FORMS.items():
            words = ["--config", "realm.toml", "--journal", "journal", "--as", form]
            done = subprocess.run([self.program, "table", *words], cwd=self.folder, capture_output=True, timeout=60)
            self.tell(f"table: {form}", (done.stdout.decode(), done.stderr, done.returncode), (f"{text}\n", b"", 0))

    def test_torn(self):
        """A record that is cut off is told of, and left as it is."""
        torn = private(self.folder / "torn")
        torn.write_bytes(self.journal + raise_record(6)[:3])
        told = f"torn: a torn record begins after {len(self.journal)} bytes"
        for form, text in FORMS.items():
            self.tell_table(f"{form}, a torn record", (text, told, 0), "--as", form, journal="torn")
        self.tell("table: the torn journal's bytes", len(torn.read_bytes()), len(self.journal) + 3)

    def test_none(self):
        """In whatever form, files that aren't there or can't be read, and those with a fault, have no table."""
        (self.folder / "no-toml").write_text("[")
        private(self.folder / "other").write_bytes(plain_record("zoe", 2))
        unknown = f"journal: J3 at 1\nother: at 1: zoe: version 2, {UNKNOWN}"
        for what, wanted, files in [
            ("no journal", unreadable("missing", MISSING), {"journal": "missing"}),
            ("a folder as the journal", unreadable(".", "is a directory"), {"journal": "."}),
            ("another realm's journal", ("", unknown, 1), {"journal": "other"}),
            ("no records", ("", "journal: J1 at 1", 1), {"journal": "realm.toml"}),
            ("no configuration", unreadable("missing", MISSING), {"config": "missing"}),
            ("a folder as the configuration", unreadable(".", "is a directory"), {"config": "."}),
        ]:
            for form in FORMS:
                self.tell_table(f"{form}, {what}", wanted, "--as", form, **files)
        for form in FORMS:
            found, errors, status = self.ended("table", "--config", "no-toml", "--journal", "missing", "--as", form)
            self.tell(f"table: {form}, no TOML", (found, errors.splitlines()[0], status), ("", "config: C1 file 0", 1))

    def test_unwritten(self):
        """A full disk, on which no form can be written."""
        for form in FORMS:
            words = ["--config", "realm.toml", "--journal", "journal", "--as", form]
            self.tell_unwritten(f"table: {form}, a full disk", "table", *words)


if __name__ == "__main__":
    main(__doc__)
