"""Realms of MIT Kerberos and of Heimdal in whose database an agent writes: what is asked of either.

A realm has `folder`, `passwords`, `keytab()`, `kvno(name)`; and

- `kinit(name, password)`: whether it gives a ticket;
- `kpasswd(name, old, new, ahead)`: what the project's client says of a change, `DONE` where it is made;
- `keys(names)`: all keys that the database has of them, as (name, kvno, etype, key);
- `add(name, password)`, `set_password(name, password)`, `remove(name)`, `rename(old, new)`: done at the KDC, past the
  service;
- `expire(name)`: the principal's own end was yesterday; `revive(name)`: it has none;
- `ask_for_change(name)`: has the KDC say that the password has expired, and has to be changed;
- `days_left(name)`: until it ends, which is in `LIFE` days after a change;
- `locked()`: the project's own kadmin holds the database for as long as that lasts;
- `start_kdc()`: its KDC, where it has ended (`kdc_away`);
- `agent(program)`: the agent, or another one of it, and its environment.
"""

import calendar
import contextlib
import os
import pathlib
import re
import signal
import subprocess
import time

from harness import configuration
from harness.heimdal_realm import HeimdalRealm, escaped
from harness.ports import is_heard
from harness.realm import SERVICE, Realm
from tests.kdc import agent_process
from tests.kdc.daemons import comes

HERE = pathlib.Path(__file__).resolve().parent
FIRST = "Old-pass1"
DONE = "password changed"
# who is in the database alone, and asked for by lines of the tests themselves
STRANGERS = {"eve": FIRST, "mallory": FIRST}
# of MIT's: one that the service doesn't have is among them
ETYPES = "aes256-cts:normal,aes128-cts:normal,camellia256-cts:normal"


def days_until(moment):
    return round((calendar.timegm(moment) - time.time()) / 86400)


@contextlib.contextmanager
def holding(command, environment, log):
    """An interactive kadmin that has taken the lock, until it lets it go."""
    with log.open("w") as out:
        process = subprocess.Popen(
            command, stdin=subprocess.PIPE, stdout=out, stderr=out, text=True, env=environment,
            start_new_session=True,
        )
    try:
        process.stdin.write("lock\n")
        process.stdin.flush()
        time.sleep(0.5)
        yield
    finally:
        process.stdin.write("unlock\nquit\n")
        process.stdin.close()
        process.wait(timeout=30)


@contextlib.contextmanager
def kdc_away(realm, number=signal.SIGTERM):
    """The KDC has ended by this signal, with the processes that it has made, and another one is started afterwards."""
    process = realm.processes.pop(0)
    os.killpg(process.pid, number)
    status = process.wait()
    try:
        yield status
    finally:
        # nobody waits for those processes, and one that listens still would keep the next KDC from its port
        comes(lambda: not is_heard(realm.kdc_port))
        realm.start_kdc()


def of_keytab(data):
    return {
        ("/".join(part.decode() for part in it.components), it.kvno, it.etype, it.key.hex())
        for it in configuration.read_keytab(data)
    }


class Mit(Realm):
    KIND = "MIT"
    HIGHEST_KVNO = 65535
    # days that a password of policy `usual` may be used
    LIFE = 30
    COUNT_REASON = "the KDC's clients know no iteration count but 4096"

    def make(self):
        super().make()
        for name, password in STRANGERS.items():
            self.kadmin("addprinc", "-e", ETYPES, "-pw", password, name)
        self.kadmin("addpol", "-maxlife", f"{self.LIFE} days", "usual")

    def start_kdc(self):
        self.start("krb5kdc", ["-n"], self.kdc_port)

    def point_clients_at(self, port):
        self.write_client_configuration(port)

    def kinit(self, name, password):
        return self.run(self.mit, ["kinit", name], [password]).returncode == 0

    def kpasswd(self, name, old, new, ahead):
        variant = "-ahead" if ahead else ""
        done = self.run(self.mit, ["kpasswd", name], [old, new, new], variant, **(ahead or {}))
        return DONE if done.returncode == 0 else (done.stdout + done.stderr).strip()

    def add(self, name, password):
        self.kadmin("addprinc", "-pw", password, name)

    def set_password(self, name, password):
        self.kadmin("cpw", "-pw", password, name)

    def remove(self, name):
        self.kadmin("delprinc", name)

    def rename(self, old, new):
        self.kadmin("renprinc", old, new)

    def expire(self, name):
        self.kadmin("modprinc", "-expire", "yesterday", name)

    def revive(self, name):
        self.kadmin("modprinc", "-expire", "never", name)

    def ask_for_change(self, name):
        self.kadmin("modprinc", "-policy", "usual", "+needchange", "-pwexpire", "yesterday", name)

    def days_left(self, name):
        done = self.run(self.mit, ["kadmin.local", "getprinc", name])
        [ends] = re.findall("Password expiration date: (.*)", done.stdout)
        return days_until(time.strptime(ends.replace("UTC ", ""), "%a %b %d %H:%M:%S %Y"))

    def keys(self, names):
        path = self.folder / "found.keytab"
        path.unlink(missing_ok=True)
        self.kadmin("ktadd", "-q", "-k", str(path), "-norandkey", *names)
        return of_keytab(path.read_bytes())

    def locked(self):
        command = [self.mit.program("kadmin.local")]
        return holding(command, self.environment(self.mit), self.folder / "lock.out")

    def agent(self, program=None):
        return program or agent_process.program_of(self, "mit"), self.environment(self.mit)


class Heimdal(HeimdalRealm):
    KIND = "Heimdal"
    HIGHEST_KVNO = 0x7FFFFFFF
    # days that a password may be used where it ends at all
    LIFE = 365
    COUNT_REASON = "the KDC names no iteration count but 4096"

    def make(self):
        super().make()
        for name, password in STRANGERS.items():
            self.kadmin("add", "--use-defaults", f"--password={password}", name)
        # of five minutes otherwise, which are over where a client's clock is five minutes ahead
        self.kadmin("modify", "--max-ticket-life=1h", SERVICE)

    def point_clients_at(self, port):
        self.write_configuration(port)
        self.write_configuration(port, "    kdc_timesync = false\n    clockskew = 900\n")

    def kinit(self, name, password):
        command = ["kinit.heimdal", "--password-file=STDIN", escaped(name)]
        return self.run(command, [password]).returncode == 0

    def kpasswd(self, name, old, new, ahead):
        variant = "-ahead" if ahead else ""
        command = ["kpasswd.heimdal", escaped(name)]
        done = self.run(command, [old, new, new], variant, **(ahead or {}))
        made = done.stdout.strip() == "Success : password changed"
        return DONE if made else (done.stdout + done.stderr).strip()

    def add(self, name, password):
        self.kadmin("add", "--use-defaults", f"--password={password}", escaped(name))

    def set_password(self, name, password):
        self.kadmin("passwd", f"--password={password}", escaped(name))

    def remove(self, name):
        self.kadmin("delete", escaped(name))

    def rename(self, old, new):
        self.kadmin("rename", escaped(old), escaped(new))

    def expire(self, name):
        self.kadmin("modify", "--expiration-time=2026-01-01", escaped(name))

    def revive(self, name):
        self.kadmin("modify", "--expiration-time=never", escaped(name))

    def ask_for_change(self, name):
        words = ["--attributes=requires-pw-change", "--pw-expiration-time=2026-01-01"]
        self.kadmin("modify", *words, escaped(name))

    def days_left(self, name):
        [ends] = re.findall(r"Password expires: (\S+ \S+) UTC", self.kadmin("get", escaped(name)))
        return days_until(time.strptime(ends, "%Y-%m-%d %H:%M:%S"))

    def keys(self, names):
        path = self.folder / "found.keytab"
        path.unlink(missing_ok=True)
        self.kadmin("ext_keytab", f"--keytab={path}", *map(escaped, names))
        return of_keytab(path.read_bytes())

    def locked(self):
        command = [self.heimdal.program("kadmin.heimdal"), "-l"]
        return holding(command, self.environment(), self.folder / "lock.out")

    def agent(self, program=None):
        return program or agent_process.program_of(self, "heimdal"), self.environment()


KINDS = {"mit": Mit, "heimdal": Heimdal}
