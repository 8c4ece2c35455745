"""Programs whose allocations are refused one by one, and that end for want of memory or do without.

A run has to end as with all memory, or with the status and the words of a program that wants it, after a part of the output
from its beginning. So it is with programs of cases, each on the first case of a kind, and with commands.
"""

import itertools
import re
import tempfile

from harness.command import TOP
from harness.journal import plain_record
from harness.sample_realm import write_configuration
from harness.server import private
from harness.topic import lines_of
from tests.hostile.refusing import Refusing, Run, sweep

# The first words of cases, by program and topic.
CASES = {
    ("cases_kerberos", "keys"): ["seal", "unseal"],
    ("cases_kerberos", "der"): [
        "principal_name", "encrypted_data", "encryption_key", "host_address", "checksum", "transited_encoding",
        "authorization_data", "change_passwd_data", "ticket", "enc_ticket_part 6381d8", "authenticator", "ap_req", "ap_rep",
        "enc_ap_rep_part", "krb_priv", "enc_krb_priv_part", "krb_error",
    ],
    ("cases_kerberos", "messages"): ["ap-req ", "krb-priv ", "reply ", "krb-error "],
}
# Records of which there is no case; each is written as it was read.
RECORDS = [
    "transited_encoding 300ba003020101a10404020102",
    "enc_ap_rep_part 7b4c304aa011180f31393730303131323133343832305aa103020101a22b3029a003020112a12204203333333333333333333333"
    "333333333333333333333333333333333333333333a303020105",
]
# Commands in a folder of `files`; NEW is a file that isn't there, PORT that of a service. Clients that ask at a time have
# different names, so that no request is a replay of another's.
COMMANDS = [
    "drill",
    "check --config realm.toml",
    "check --config faulty.toml",
    "table --config realm.toml --journal one",
    "table --config realm.toml --journal five --as keys",
    "key --name alice/admin --password-file password",
    "new-journal --config realm.toml --journal NEW --resume NEW.resume",
    "client --config realm.toml --seed /dev/urandom --port PORT --client alice --password short --target alice --no-initial",
    "client --config realm.toml --seed /dev/urandom --port PORT --client bob --password short --old",
    "client --help",
    "serve --port 0",
]
# What a program says that ends for want of memory, and where it only leaves warnings out.
WANTING = re.compile(r"memory|Error: .*OutOfMemory.*")
LEFT_OUT = re.compile(r"(realm|faulty)\.toml: memory: warnings are left out")


def files(folder):
    """A configuration and one with a fault, journals of one record and of five, a password."""
    write_configuration(folder / "realm.toml", ["alice", "bob"], iterations=4)
    (folder / "faulty.toml").write_text("[service]\nrealm = 5\n")
    for name, count in (("one", 1), ("five", 5)):
        records = b"".join(plain_record("alice", kvno) for kvno in range(2, count + 2))
        private(folder / name).write_bytes(records)
    private(folder / "password").write_text("New-pass2\n")


def is_part(lines, whole):
    """Whether these lines stand in the whole in this order."""
    rest = iter(whole)
    return all(line in rest for line in lines)


def place(run, whole):
    """Where a refusal fell, and what is wrong with the run, or nothing."""
    if run[:3] == whole[:3]:
        return "nowhere", None
    said = run.errors.splitlines()
    ends = [line for line in said if WANTING.fullmatch(line)]
    left_out = [line for line in said if LEFT_OUT.fullmatch(line)]
    rest = [line for line in said if line not in ends and line not in left_out]
    fault = None if is_part(rest, whole.errors.splitlines()) else f"says {run.errors.strip()[:200]!r}"
    if ends:
        if run.status != 1 or not whole.out.startswith(run.out):
            fault = f"ends with {run.status} after {run.out.strip()[:200]!r}"
        return "refused", fault
    if not left_out or run[:2] != whole[:2]:
        fault = f"ends with {run.status}: {run.out.strip()[:200]!r} {run.errors.strip()[:200]!r}"
    return "beside", fault


def cases():
    """The first case of each kind, with its program, its topic and its answer."""
    for (program, topic), kinds in CASES.items():
        texts = [(TOP / "crates" / program / name).read_text() for name in ("stdin", "stdout")]
        pairs = list(zip(*(lines_of(text, topic) for text in texts)))
        for kind in kinds:
            yield program, topic, *next(pair for pair in pairs if pair[0].startswith(kind))
    for line in RECORDS:
        yield "cases_kerberos", "der", line, line.split()[1]


def swept_case(made, program, topic, line, answer):
    """The run with all memory gives the answer that is stored."""
    words = [TOP / "crates" / program / "out" / program]
    stored = Run(0, f"[{topic}]\n{answer}\n", "", 0)
    with tempfile.TemporaryDirectory() as folder:
        refusing = Refusing(made, folder)

        def run(number):
            return refusing.run(words, number, f"[{topic}]\n{line}\n")

        return sweep(line, run, lambda found, _: place(found, stored), ["refused"])


def swept_command(made, program, script, port, command):
    """A file that a command makes has another name in each run."""
    with tempfile.TemporaryDirectory() as folder:
        refusing = Refusing(made, folder)
        files(refusing.folder)
        names = (f"new{number}" for number in itertools.count())

        def run(number):
            words = command.replace("PORT", str(port)).replace("NEW", next(names)).split()
            return refusing.run([program, *words], number, script if command == "drill" else "")

        return sweep(command, run, place, ["refused"])
