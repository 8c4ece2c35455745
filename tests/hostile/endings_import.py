"""How `import` and `key` end: what they write of a keytab and of a password, and what is left out."""

from harness.cases import main
from harness.command import TOP
from harness.kept import ITERATIONS, keys_of
from harness.keytab import keytab
from harness.program import MISSING, ProgramCase, unreadable

HEAD = TOP / "samples/head.toml"


def stanza(name, kvno, aes128, aes256):
    return f"""\
[[principal]]
name = "{name}"
[[principal.key]]
aes128 = "{aes128.hex()}"
aes256 = "{aes256.hex()}"
iterations = {ITERATIONS}
kvno = {kvno}"""


def words_of(ended):
    """What was printed, by its words: how it is laid out isn't compared."""
    found, errors, status = ended
    return found.split(), errors, status


class ImportEndings(ProgramCase):
    def test_keys_brought_in(self):
        """`import` and `key`; what they write is a configuration's part, and what `import` leaves out is told."""
        short, long = bytes(range(16)), bytes(range(32))
        alice = [("EXAMPLE.COM", "alice", 3, 18, long), ("EXAMPLE.COM", "alice", 3, 17, short)]
        (self.folder / "keytab").write_bytes(keytab(*alice, ("OTHER.COM", "bob", 1, 17, short)))
        words = ["--keytab", "keytab", "--realm", "EXAMPLE.COM"]
        left = f"keytab: at {len(keytab(*alice))}: skipped: bob@OTHER.COM, kvno 1, etype 17: another realm"
        self.tell("import: a user, and another realm's", words_of(self.ended("import", *words)),
                            (stanza("alice", 3, short, long).split(), left + "\nimported 2, not imported 1", 0))
        (self.folder / "others").write_bytes(keytab(("OTHER.COM", "bob", 1, 17, short)))
        left = "others: at 2: skipped: bob@OTHER.COM, kvno 1, etype 17: another realm\nimported 0, not imported 1"
        self.tell_ended("import: another realm's alone", ("", left + "\nothers: no key is imported", 1),
                     "import", "--keytab", "others", "--realm", "EXAMPLE.COM")
        (self.folder / "whole").write_bytes(keytab(*alice))
        self.tell_unwritten("import: a full disk", "import", "--keytab", "whole", "--realm", "EXAMPLE.COM")
        self.tell_ended("import: no file", unreadable("missing", MISSING), "import", "--keytab", "missing", *words[2:])
        (self.folder / "password").write_text("New-pass2\n")
        words = ["--realm", "EXAMPLE.COM", "--name", "alice", "--password-file", "password"]
        self.tell("key: of a password", words_of(self.ended("key", *words)),
                            (stanza("alice", 1, *keys_of("alice", "New-pass2")).split(), "", 0))
        self.tell_unwritten("key: a full disk", "key", *words)
        self.tell_ended("key: no file", unreadable("missing", MISSING), "key", *words[:-1], "missing")

    def test_keys_not_brought_in(self):
        """A folder, and a file that is no keytab or has no password; a name that is none, which is told before the file is
        read."""
        (self.folder / "no.keytab").write_text("[")
        (self.folder / "no.password").write_text("\n")
        for what, words, wanted in [
            ("a folder", ["import", "--keytab", "."], unreadable(".", "is a directory")),
            ("no keytab", ["import", "--keytab", "no.keytab"], ("", "no.keytab: not a keytab of format 0x0502", 1)),
            ("a folder", ["key", "--name", "alice", "--password-file", "."], unreadable(".", "is a directory")),
            ("no password", ["key", "--name", "alice", "--password-file", "no.password"],
             ("", "no.password: the password is empty", 1)),
            ("no name", ["key", "--name", "a//b", "--password-file", "missing"], ("", "bad argument", 2)),
        ]:
            self.tell_ended(f"{words[0]}: {what}", wanted, *words, "--realm", "EXAMPLE.COM")

    def test_keys_after_a_head(self):
        """What `import` writes, joined after a configuration's head, is read as both: the head's rule, and these keys."""
        short, long = bytes(range(16)), bytes(range(32))
        service = [("EXAMPLE.COM", "kadmin/changepw", 2, 18, long), ("EXAMPLE.COM", "kadmin/changepw", 2, 17, short)]
        alice = [("EXAMPLE.COM", "alice", kvno, etype, key) for kvno in (3, 2) for etype, key in ((18, long), (17, short))]
        (self.folder / "keytab").write_bytes(keytab(*service, *alice))
        stanzas = self.ended("import", "--keytab", "keytab", "--realm", "EXAMPLE.COM", "--iterations", "8192")
        self.tell("import: the service and a user", stanzas[1:], ("imported 6, not imported 0", 0))
        (self.folder / "joined").write_text(HEAD.read_text() + stanzas[0] + "\n")
        self.tell_ended("import: after a head", ("ok: principals 1, rules 0, service keys 2", "", 0), "check", "--config", "joined")
        (self.folder / "journal").write_bytes(b"")
        lines = "alice kvno 3 counts 8192 8192\nprincipals 1 changes 0"
        self.tell_ended("import: the keys after a head", (lines, "", 0), "table", "--config", "joined", "--journal", "journal")


if __name__ == "__main__":
    main(__doc__)
