"""What `import` and `key` write, and what they leave out: of keytabs whole, cut short and with too many principals, and of files
with a password.

`cases/keys` has a case in each line:

    keytab REALM ITERATIONS HEX                    a keytab of these bytes
    cut REALM HEX                                  each proper prefix of it
    many REALM COUNT                               a keytab of so many principals: how many have a stanza
    password REALM NAME ITERATIONS KVNO HEX        a file with these bytes

`-` is for no bytes. In an answer the lines that are written are joined, and those on standard error stand behind ` | `.
"""

from harness.cases import main
from harness.keytab import keytab
from tests.case_files import FileCase, lines_of

NO_KEY = "keytab: no key is imported"
KEYS = {18: bytes(32), 17: bytes(16)}
# How much of a case its line shows.
SHOWN = 100


def octets_of(word):
    return b"" if word == "-" else bytes.fromhex(word)


class Keys(FileCase):
    def imported(self, octets, realm, iterations):
        """What is written, with the lines behind it; or the fault, which has those before it only where no key is imported."""
        words = ["import", "--keytab=keytab", f"--realm={realm}", f"--iterations={iterations}"]
        written, errors, status = self.ran(words, {"keytab": octets})
        if status == 0:
            return written, errors
        fault = errors.pop()
        return (fault, errors) if not written and status == 1 and (not errors or fault == NO_KEY) else ("wrong", errors)

    def keytab(self, octets, realm, iterations):
        written, errors = self.imported(octets, realm, iterations)
        return " | ".join([" ".join(filter(None, written.split("\n"))), *errors])

    def many(self, realm, count):
        octets = keytab(*((realm, f"u{number:05}", 1, etype, key) for number in range(count) for etype, key in KEYS.items()))
        written, errors = self.imported(octets, realm, 4096)
        return " | ".join([f"principals {written.split(chr(10)).count('[[principal]]')}", *errors])

    def password(self, realm, name, iterations, kvno, octets):
        words = [f"--realm={realm}", f"--name={name}", f"--iterations={iterations}", f"--kvno={kvno}"]
        written, errors, status = self.ran(["key", "--password-file=password", *words], {"password": octets})
        if (errors, status) == (["bad argument"], 2):
            return "no name"
        written = " ".join(filter(None, written.split("\n")))
        return " | ".join([*([written] if status == 0 else []), *errors])

    def answer(self, case):
        kind, *words, last = case.split(" ")
        if kind == "many":
            return self.many(words[0], int(last))
        octets = octets_of(last)
        if kind == "keytab":
            return self.keytab(octets, *words)
        if kind == "cut":
            fronts = (octets[:length] for length in range(len(octets)))
            return self.census(lambda front: self.keytab(front, words[0], 4096), fronts)
        return self.password(*words, octets)

    def test_keys(self):
        for case, answer in lines_of("keys"):
            self.tell_same(case[:SHOWN], self.answer(case), answer)


if __name__ == "__main__":
    main(__doc__)
