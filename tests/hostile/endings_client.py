"""How `client` ends: alone, unanswered, answered, and at services that say nothing."""

import socket
import threading
import time

from harness import wire
from harness.cases import main
from harness.journal import read_journal
from harness.kept import keys_of
from harness.ports import free_ports
from harness.program import MISSING, PRINTED, Client, ProgramCase, answer_one, with_length, fault_of, shown, unreadable
from harness.sample_realm import write_configuration

LONGEST_PASSWORD = 60_000


def private_part(case, seed):
    """The KRB-PRIV that `client` sends with this seed (RFC 3244 section 2)."""
    server = case.new_server("alice")
    (case.folder / "once").write_bytes(seed)
    heard = []
    with socket.create_server(("127.0.0.1", server.port)) as listener:
        answering = threading.Thread(target=answer_one, args=(listener, b"", heard))
        answering.start()
        wanted = ("", "the seed once is a regular file: use it only once\nconnection ended", 1)
        Client(case, server).tell("a seed in a file, and no reply", wanted, seed="once")
        answering.join()
    request = heard[0][4:]
    return request[6 + int.from_bytes(request[4:6], "big") :]


def drip(listener, threads):
    """Sends a byte of a long message each second, as long as one of these runs."""
    connection, _ = listener.accept()
    with connection:
        text = with_length(bytes(60_000))
        for place in range(60):
            if not any(thread.is_alive() for thread in threads):
                break
            try:
                connection.sendall(text[place : place + 1])
            except OSError:
                pass
            time.sleep(1)


class ClientEndings(ProgramCase):
    def test_client_alone(self):
        """What a client says without a service; each fault is told before those below it."""
        server = self.new_server("alice")
        client = Client(self, server)
        bad = ("", "bad argument", 2)
        client.tell("no name", bad, client="", config="missing")
        client.tell("an empty component", bad, client="alice//admin", config="missing")
        client.tell("nine components", bad, client="a/b/c/d/e/f/g/h/i", config="missing")
        client.tell("no target's name", bad, "--target=", config="missing")
        long = "a" * (LONGEST_PASSWORD + 1)
        client.tell("a password of 60,001 bytes", bad, password=long, config="missing")
        unread = unreadable("missing", MISSING)
        client.tell("no configuration", unread, config="missing", seed="missing2")
        (self.folder / "short").write_bytes(bytes(31))
        client.tell("a short seed", unreadable("short", "fewer than 32 bytes"), seed="short")
        (self.folder / "no-toml").write_text("[")
        bad = ("", f"config: C1 file 0\n{fault_of(self, 'no-toml')}", 1)
        client.tell("no TOML", bad, config="no-toml", seed="short")
        client.tell("nobody there", ("", "cannot connect", 1))
        warned = f"the seed {server.seed} is a regular file: use it only once\ncannot connect"
        client.tell("a seed in a file", ("", warned, 1), seed=server.seed)
        client.tell("the longest password", ("", "cannot connect", 1), password=long[1:])

    def test_client_unanswered(self):
        """A service that closes the connection, and one whose reply can't be read."""
        server = self.new_server("alice")
        for what, reply in [("no reply", b""), ("another's reply", b"\0\0\0\2no")]:
            with socket.create_server(("127.0.0.1", server.port)) as listener:
                answering = threading.Thread(target=answer_one, args=(listener, reply))
                answering.start()
                Client(self, server).tell(what, ("", "connection ended", 1))
                answering.join()

    def test_client_answered_oddly(self):
        """A KRB-ERROR of anybody, whose text has more than printable ASCII."""
        text = "\x1b[31mpassword changed\\x1b \u00e9\x7f\r\n"
        reply = wire.error_reply(4, 60, text.encode(), 1_764_052_310)
        server = self.new_server("alice")
        with socket.create_server(("127.0.0.1", server.port)) as listener:
            answering = threading.Thread(target=answer_one, args=(listener, with_length(reply)))
            answering.start()
            wanted = "code 4 error 60 " + shown(text, PRINTED.replace(b"\\", b""))
            Client(self, server).tell("an error with escapes", (wanted, "", 1))
            answering.join()

    def test_client_seeds(self):
        """All bytes of a seed count: two requests of one seed have one KRB-PRIV, and no two of seeds that differ in a byte."""
        first, *others = bytes(32), bytes(31) + b"\1", b"\1" + bytes(31)
        parts = [private_part(self, seed) for seed in (first, first, *others)]
        self.tell("client: one seed twice", parts[0] == parts[1], True)
        self.tell("client: other seeds", len(set(parts)), 3)

    def test_client_answered(self):
        server = self.new_server("alice", "bob")
        text = server.configuration.read_text()
        (self.folder / "other-key").write_text(text.replace("5a" * 32, "5b" * 32))
        server.start(connections=9)
        client = Client(self, server)
        client.tell("a change", ("code 0 password changed", "", 0))
        client.tell("the same password", ("code 4 password used before", "", 1))
        client.tell("an empty password", ("code 4 password too short", "", 1), password="")
        client.tell("no rule", ("code 5 access denied", "", 1), "--target=bob")
        unflagged = ("code 7 initial ticket needed", "", 1)
        client.tell("no flag", unflagged, "--no-initial")
        client.tell("earlier", ("code 0 password changed", "", 0), "--old", password="New-pass3")
        client.tell("earlier, no flag", unflagged, "--old", "--no-initial")
        refused = ("code 3 error 31 authentication failed", "", 1)
        client.tell("another service key", refused, config="other-key")
        with open("/dev/full", "w") as full:
            words = [f"{name}={value}" for name, value in client.options.items()]
            wanted = ("", "cannot write", 1)
            self.tell_ended("client: a full disk", wanted, "client", *words, stdout=full)
        self.tell("serve: its last line", server.last_words(), "entries 8 changes 2")

    def test_given_up(self):
        """`client` and `control` at services that say nothing, or a byte now and then, all at once: after 30 seconds."""
        ports, path = free_ports(2), self.folder / "silent.socket"
        silent, dripping = (socket.create_server(("127.0.0.1", port)) for port in ports)
        held = socket.socket(socket.AF_UNIX)
        held.bind(str(path))
        held.listen()
        server = self.new_server("alice")
        calls = [(f"client, port {what}", [f"{name}={value}" for name, value in (Client(self, server).options | {"--port": port}).items()])
                 for what, port in zip(("silent", "dripping"), ports)]
        calls = [(what, ["client", *words]) for what, words in calls]
        calls.append(("control", ["control", "--socket", path, "status"]))
        told = {}

        def call(what, words):
            start = time.monotonic()
            ended = self.ended(*words)
            told[what] = ended, time.monotonic() - start

        threads = [threading.Thread(target=call, args=it) for it in calls]
        for thread in threads:
            thread.start()
        drip(dripping, threads)
        for thread in threads:
            thread.join()
        for listener in silent, dripping, held:
            listener.close()
        for what, _ in calls:
            ended, seconds = told[what]
            self.tell(f"given up: {what}", ended, ("", "no answer within 30 seconds", 1))
            self.tell(f"given up: {what}: after {seconds:.1f} s", 30 <= seconds < 45, True)

    def test_passwords_read(self):
        """`client` with the new password in a file, or on standard input."""
        client = Client(self, self.new_server("alice"))
        del client.options["--password"]
        for name, text in ("empty", b""), ("newline", b"\n"), ("return", b"\r\n"), ("lines", b"New-pass2\nNew-pass3\n"):
            (self.folder / name).write_bytes(text)
        for name, line in [
            ("missing", f"cannot read missing\nmissing: {MISSING}"),
            ("empty", "empty: the password is empty"),
            ("newline", "newline: the password is empty"),
            ("return", "return: the password is empty"),
            ("lines", "lines: more than one line"),
        ]:
            named = {"password-file": name}
            client.tell(f"the password of a file: {name}", ("", line, 1), config="missing2", **named)
        words = [f"{name}={value}" for name, value in client.options.items()]
        words = ["client", *words, "--password-file", "-"]
        empty = ("", "standard input: the password is empty", 1)
        self.tell_ended("client: no password on standard input", empty, *words, script="\n")
        unconnected = ("", "cannot connect", 1)
        self.tell_ended("client: the password on standard input", unconnected, *words, script="New-pass2")

    def test_passwords_of_files(self):
        """The end of its line is no part of a password: it would be of one class more, of which the service wants two. What
        stands at the ends of a class is of that class."""
        server = self.new_server("alice")
        write_configuration(server.configuration, ["alice"], iterations=4)
        server.start(connections=9)
        client = Client(self, server)
        del client.options["--password"]
        changed, refused = ("code 0 password changed", "", 0), ("code 4 too few character classes", "", 1)
        for what, text, wanted in [
            ("a newline", b"newpass1\n", changed),
            ("a carriage return, too", b"newpass2\r\n", changed),
            ("no newline", b"newpass3", changed),
            ("one class", b"newpass\r\n", refused),
            ("a to z", b"azazaz", refused),
            ("A to Z", b"AZAZAZ", refused),
            ("0 to 9", b"090909", refused),
            ("punctuation", b"!/:@[`{~", refused),
            ("others", b" \x7f\x80\xff \x7f", refused),
        ]:
            (self.folder / "password").write_bytes(text)
            client.tell(f"a password of a file, {what}", wanted, **{"password-file": "password"})
        self.tell("serve: its last line", server.last_words(), "entries 9 changes 3")
        records = [(it.kvno, it.aes128, it.aes256) for it in read_journal(server.journal.read_bytes())[0]]
        self.tell("the keys", records, [(it + 1, *keys_of("alice", f"newpass{it}", 4)) for it in (1, 2, 3)])


if __name__ == "__main__":
    main(__doc__)
