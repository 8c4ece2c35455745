"""How commands of the program end: what they print, their lines on standard error, their status.

They need no packages. What `import` and `key`, `table`, `client` and `serve` have of their own is in endings_import,
endings_table, endings_client and endings_serve; what `serve` says of its files, in faults.
"""

import contextlib
import os
import socket
import subprocess
import threading

from harness.cases import main
from harness.keytab import keytab
from harness.program import MISSING, Client, ProgramCase, shown, unreadable
from harness.sample_realm import write_configuration

SCRIPT = "realm EXAMPLE.COM\npolicy 0 0 2 4096 no\nprincipal alice 1 4096:a1\nopen 10 -1\n"
NO_TEXT = "a word of the command line is not UTF-8"
# what is UTF-8, and what isn't: a byte of no character, one that is cut off, one that goes on though none has begun
NOT_TEXT = [(b"", b"\xff"), (b"# a comment\n", b"\xc3"), ("# é\n".encode(), b"\xa9\nrealm = 1\n")]
ABOUT = "The Kerberos change-password service kadmin/changepw (RFC 3244)."
ABOUT_CLIENT = "Send one request to a service on this machine, without a KDC."
LIMIT = "a value for '--connections <N>' is a number from 1 to 4294967295, or unlimited"
# What the program says where clap finds no fault, and where it gives an answer of its own to one.
REFUSALS = [
    ("client --old --target bob --password P", "the argument '--old' cannot be used with '--target <NAME>'"),
    ("client --password P --password-file F", "the argument '--password <TEXT>' cannot be used with '--password-file <FILE>'"),
    ("client", "either '--password <TEXT>' or '--password-file <FILE>' is required"),
    ("table --as words", "a value for '--as <FORM>' is one of: lines, configuration, keys"),
    ("serve --connections 0", LIMIT),
    ("serve --connections 4294967296", LIMIT),
    ("serve --connections Unlimited", LIMIT),
    ("serve --connections=", LIMIT),
    ("import --realm=", "a value for '--realm <REALM>' has 1 to 255 bytes"),
    (f"import --realm={'R' * 256}", "a value for '--realm <REALM>' has 1 to 255 bytes"),
    (f"key --realm={'R' * 256}", "a value for '--realm <REALM>' has 1 to 255 bytes"),
    ("control start", "a value for '<COMMAND>' is one of: status, reload, reopen-log, stop, compact"),
    ("control compact", "the command 'compact' requires a '<FILE>'"),
    ("control status file", "only the command 'compact' takes a '<FILE>'"),
]
REQUIRED = {
    "client": "--config c --seed s --port 1 --client alice",
    "table": "--config c --journal j",
    "serve": "--config c --journal j --seed s --port 1 --workers 1",
    "import": "--keytab k",
    "key": "--name alice --password-file p",
    "control": "--socket s",
}
# settings that nothing reads, in each table, and a rule for each doubt
UNREAD = f"""\
principals = 1
[service]
realm = "EXAMPLE.COM"
max_entires = 5
[[service.key]]
kvno = 3
kvon = 1
etype = 18
key = "{"5a" * 32}"
[policy]
min_lenght = 8
min_length = 6
min_classes = 2
depth = 3
iterations = 4096
set_needs_initial = false
[kdc]
"ex clude" = []
[[rule]]
actor = "alice"
target = "bob"
targets = "bob"
[[rule]]
actor = "amdin"
target = "bob@EXAMPLE.COM"
[[rule]]
actor = "bob/\u00e9"
target = "*"
[[principal]]
name = "alice"
key = [{{ kvno = 2, iterations = 5, aes128 = "{"11" * 16}", aes256 = "{"22" * 32}" }}]
[[principal]]
name = "bob"
names = "bob"
[[principal.key]]
kvno = 1
iterations = 4096
aes128 = "{"11" * 16}"
aes256 = "{"22" * 32}"
aes512 = 0
"""
WARNED = """\
warned: the file: nothing reads principals
warned: [service]: nothing reads max_entires
warned: service key 1: nothing reads kvon
warned: [policy]: nothing reads min_lenght
warned: rule 1: nothing reads targets
warned: principal 2: nothing reads names
warned: principal 2, key 1: nothing reads aes512
warned: [kdc]: nothing reads ex\\x20clude
warned: rule 2: actor amdin: no such principal yet
warned: rule 2: target bob\\x40EXAMPLE.COM has an @: names here have no realm
warned: rule 3: actor bob/\\xc3\\xa9: no such principal yet
warned: rule 3: bob/\\xc3\\xa9 may set everybody's password"""


def warnings(case):
    """They are on standard error, and change neither the line nor the status; a configuration with a fault has none."""
    (case.folder / "warned").write_text(UNREAD)
    case.tell_ended("check: warnings", ("ok: principals 2, rules 3, service keys 1", WARNED, 0), "check", "--config", "warned")
    (case.folder / "warned").write_text(UNREAD.replace("depth = 3", "depth = 17"))
    faulty = "warned: [policy]: depth must be 0 to 16"
    case.tell_ended("check: a fault, and no warnings", ("C4 policy 0", faulty, 1), "check", "--config", "warned")


def answer_line(listener, answer, heard):
    connection, _ = listener.accept()
    with connection:
        heard.append(connection.makefile().readline())
        connection.sendall(answer.encode())


def break_off(listener, begun, heard):
    """Begins an answer, and ends a connection from which nothing was read: that resets it."""
    connection, _ = listener.accept()
    with connection:
        heard.append(connection.recv(100, socket.MSG_PEEK).decode())
        connection.sendall(begun.encode())


def hang_up(listener, *_):
    listener.accept()[0].close()


@contextlib.contextmanager
def answering(path, answer, text):
    """A socket there, at which one caller is answered so; what that said."""
    heard = []
    with socket.socket(socket.AF_UNIX) as listener:
        listener.bind(str(path))
        listener.listen()
        thread = threading.Thread(target=answer, args=(listener, text, heard))
        thread.start()
        yield heard
        thread.join()
    path.unlink()


class Endings(ProgramCase):
    def test_command_lines(self):
        text = ("", "a text", 2)
        serve = "serve --config c --journal j --seed s --port 1 --workers 1 --connections 1"
        client = "client --config c --seed s --port 1 --client alice --password New-pass2"
        control = "control --socket s status"
        self.tell_ended("no command", text)
        self.tell_ended("another command", text, "change")
        self.tell_ended("help", text, "--help")
        self.tell_ended("help for a command", text, "serve", "--help")
        self.tell_ended("drill with an option", text, "drill", "--config", "c")
        self.tell_ended("check without its file", text, "check")
        self.tell_ended("a word that isn't UTF-8", ("", NO_TEXT, 2), "drill", b"\xff")
        self.tell_ended("a file's name that isn't UTF-8", ("", NO_TEXT, 2), "check", "--config", b"a\xc3")
        for line, old, new in [
            (serve, "--workers 1", "--workers 17"),
            (serve, "--workers 1", "--workers 0"),
            (serve, "--port 1", "--port 65536"),
            (serve, "--port 1", ""),
            (serve, "--connections 1", "--connections 0"),
            (serve, "--seed s", ""),
            (client, "--port 1", "--port 0"),
            (client, "--client alice", ""),
            (client, "--client alice", "--client alice --old --target bob"),
            (client, "--password New-pass2", ""),
            (client, "--password", "--password-file password --password"),
            (control, "--socket s", ""),
            (control, "status", ""),
            (control, "status", "start"),
            (control, "status", "compact"),
            (control, "status", "status file"),
        ]:
            words = line.replace(old, new).split()
            self.tell_ended(f"{words[0]}, {old} now '{new}'", text, *words)

    def test_usage(self):
        """What help is for is said first, and then how the program or the command is used."""
        for words, about in ([], ABOUT), (["--help"], ABOUT), (["help", "client"], ABOUT_CLIENT):
            done = subprocess.run([self.program, *words], capture_output=True, text=True, timeout=60)
            first, _, rest = done.stderr.partition("\n\n")
            usage = " ".join(["Usage:", os.path.basename(self.program), *words[1:]])
            self.tell(f"used, {' '.join(words)}", (first, rest.startswith(usage)), (about, True))

    def test_refusals(self):
        """The first line of a refusal says what is wrong."""
        for line, wanted in REFUSALS:
            command, *words = line.split()
            done = subprocess.run([self.program, command, *REQUIRED[command].split(), *words], capture_output=True,
                                  text=True, timeout=60)
            first = done.stderr.splitlines()[0] if done.stderr else ""
            self.tell(f"refused: {line[:40]}", (done.stdout, first, done.returncode), ("", f"error: {wanted}", 2))

    def test_drill(self):
        shown = ("alice 1:4096:a1", "", 0)
        self.tell_ended("drill: a script", shown, "drill", script=SCRIPT + "show alice\n")
        bad = ("alice 1:4096:a1", "line 6: bad", 1)
        self.tell_ended("drill: a bad line", bad, "drill", script=SCRIPT + "show alice\nshow\n")
        folder = os.open(self.folder, os.O_RDONLY)
        self.tell_ended("drill: no script", ("", "cannot read", 1), "drill", stdin=folder)
        os.close(folder)
        self.tell_unwritten("drill: a full disk", "drill", script=SCRIPT + "show alice\n")

    def test_check(self):
        write_configuration(self.folder / "good", ["alice", "bob"])
        text = (self.folder / "good").read_text()
        (self.folder / "bad").write_text(text.replace("depth = 3", "depth = 17"))
        good = "ok: principals 2, rules 0, service keys 1"
        self.tell_ended("check: good", (good, "", 0), "check", "--config", "good")
        (self.folder / "Größe").write_text(text)
        self.tell_ended("check: a name that is UTF-8", (good, "", 0), "check", "--config", "Größe")
        found, words, status = self.ended("check", "--config", "bad")
        told = (found, words.split(":")[0], status)
        self.tell("check: a depth of 17", told, ("C4 policy 0", "bad", 1))
        for before, rest in NOT_TEXT:
            (self.folder / "no-text").write_bytes(before + rest)
            words = f"no-text: not UTF-8 after {len(before)} bytes"
            self.tell_ended(f"check: no text, {len(before)} bytes", ("C1 file 0", words, 1), "check", "--config", "no-text")
        warnings(self)
        unread = unreadable("missing", MISSING)
        self.tell_ended("check: no file", unread, "check", "--config", "missing")
        self.tell_unwritten("check: good, a full disk", "check", "--config", "good")
        self.tell_unwritten("check: a fault, a full disk", "check", "--config", "bad")

    def test_nothing_told(self):
        """Where standard error takes nothing, each ending still has its status; nor are the numbers of an import passed over."""
        short, long = bytes(range(16)), bytes(range(32))
        alice = [("EXAMPLE.COM", "alice", 3, 18, long), ("EXAMPLE.COM", "alice", 3, 17, short)]
        for name, entries in ("whole", alice), ("more", [*alice, ("OTHER.COM", "bob", 1, 17, short)]):
            (self.folder / name).write_bytes(keytab(*entries))
        missing = ["--config", "missing", "--seed", "s", "--port", "1"]
        brought = ["import", "--realm", "EXAMPLE.COM", "--keytab"]
        with open("/dev/full", "w") as full:
            for words, status in [
                (["check", "--config", "missing"], 1),
                (["table", "--config", "missing", "--journal", "j"], 1),
                (["serve", *missing, "--journal", "j", "--workers", "1", "--connections", "1"], 1),
                (["client", *missing, "--client", "alice", "--password", "New-pass2"], 1),
                (["client", *missing, "--client", "", "--password", "New-pass2"], 2),
                (["control", "--socket", "missing", "status"], 1),
                ([*brought, "missing"], 1),
                ([*brought, "more"], 1),
                ([*brought, "whole"], 1),
                (["--help"], 2),
                ([], 2),
            ]:
                ended = self.ended(*words, stderr=full)
                self.tell(f"nothing told: {' '.join(words)}", ended[2], status)

    def test_control(self):
        """What `control` sends, prints and ends with, by what a service answers."""
        path = self.folder / "control.socket"
        words = ["control", "--socket", path]
        self.tell_ended("control: nobody there", ("", "cannot connect", 1), *words, "status")
        self.tell_ended("control: a file of two lines", ("", "bad argument", 2), *words, "compact", "two\nlines")
        for what, command, answer, errors, status in [
            ("done", ["reload"], "ok\n", "", 0),
            ("told and done", ["status"], "entries 3\nok\n", "", 0),
            ("with a file", ["compact", "a file"], "ok\n", "", 0),
            ("refused", ["reopen-log"], "ok\nerror: cannot write log\n", "", 1),
            ("ended without its newline", ["stop"], "ok", "", 1),
            ("ended by a line of another kind", ["status"], "book\n", "", 1),
            ("a fault after the end", ["reload"], "ok\ncannot read realm.toml\n", "", 1),
            ("an empty line after the end", ["status"], "ok\n\n", "", 1),
            ("no answer", ["stop"], "", "connection ended", 1),
            ("more than printable ASCII", ["status"], "\x1b[31mred \\x1b \u00e9~\x7f\r\nok\n", "", 0),
        ]:
            with answering(path, answer_line, answer) as heard:
                self.tell_ended(f"control: {what}", (shown(answer).strip(), errors, status), *words, *command)
            self.tell(f"control: {what}: its line", heard, [" ".join(command) + "\n"])
        with answering(path, answer_line, "ok\n"):
            self.tell_unwritten("control: a full disk", *words, "status")

    def test_control_broken_off(self):
        """A service that resets the connection before its answer, or in the middle of it; and one that ends it unheard."""
        path = self.folder / "control.socket"
        words = ["control", "--socket", path, "compact", "new.journal"]
        for what, begun in ("before", ""), ("after a letter of", "o"):
            with answering(path, break_off, begun) as heard:
                self.tell_ended(f"control: reset {what} an answer", (begun, "connection ended", 1), *words)
            self.tell(f"control: reset {what} an answer: its line", heard, ["compact new.journal\n"])
        with answering(path, hang_up, ""):
            self.tell_ended("control: hung up on", ("", "connection ended", 1), *words)

    def test_closed_descriptors(self):
        """Each command with one of 0, 1 and 2 closed goes on, and reads or prints nothing there."""
        nothing = ("", "", 0)
        self.tell_ended("drill, 0 closed", nothing, "drill", closed="0")
        script = SCRIPT + "show alice\n"
        self.tell_ended("drill, 1 closed", nothing, "drill", script=script, closed="1")
        bad = ("alice 1:4096:a1", "", 1)
        self.tell_ended("drill, 2 closed", bad, "drill", script=script + "show\n", closed="2")
        write_configuration(self.folder / "good", ["alice"])
        self.tell_ended("check, 1 closed", nothing, "check", "--config", "good", closed="1")
        missing = ("", "", 1)
        self.tell_ended("check, 2 closed", missing, "check", "--config", "missing", closed="2")
        server = self.new_server("alice")
        server.start(connections=2)
        client = Client(self, server)
        changed = ("code 0 password changed", "", 0)
        client.tell("0 closed", changed, closed="0")
        client.tell("1 closed", nothing, closed="1", password="New-pass3")
        client.tell("2 closed", missing, closed="2", config="missing")


if __name__ == "__main__":
    main(__doc__)
