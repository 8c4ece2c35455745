"""What an entry is after `put`: all that kadmind and kpasswdd change with a password, and nothing else."""

import calendar
import re
import time

from harness.realm import REALM
from tests.kdc.agent_case import FIRST, AgentCase
from tests.kdc.agent_database import HISTORY, LAST_CHANGE, LM_OWF, PASSWORD, changed
from tests.kdc.agent_process import Agent, hexed, keys_of, preload, putting

NEW = "New-pass7"
DAY = 86400


def moment(text, form):
    return calendar.timegm(time.strptime(text, form))


class Entries(AgentCase):
    """`fields` gives what the project's kadmin shows of an entry, by names that both KDCs have."""

    def put(self, name, kvno=7, **more):
        """Writes, and gives the moment before and what the entry has then."""
        # the KDC's times are whole seconds
        time.sleep(1.1)
        with self.talking(**more) as line:
            now = int(time.time())
            self.tell(f"put {name}", line.put(name, kvno, NEW), f"put {hexed(name)} {kvno}")
        self.tell("  the KDC's keys: of that version and no others", self.held(name), self.of(name, kvno, NEW))
        return now, self.fields(name)

    def test_another_default_realm(self):
        """The configuration's default realm isn't that of the database."""
        name, config = self.name(), self.realm.folder / "other_default.conf"
        old = self.realm.folder / ("mit.conf" if self.realm.KIND == "MIT" else "krb5.conf")
        config.write_text(old.read_text().replace(f"default_realm = {REALM}", "default_realm = ELSEWHERE.EXAMPLE"))
        _, after = self.put(name, KRB5_CONFIG=str(config))
        self.tell("  another default realm: modified by", after["by"].partition("@")[2], REALM)

    def is_now(self, what, found, now):
        self.tell(f"  {what}: seconds after the change", 0 <= found - now <= 5)

    def logins(self, name, *others):
        self.tell("  logins by it, and by former ones", self.logs_in(name, NEW, *others), [True] + [False] * len(others))


class MitEntries(Entries):
    KIND = "MIT"

    def fields(self, name):
        text = self.kdc.entry(name)
        found = dict(re.findall(r"^([^:\n]+): ?(.*)$", text, re.M))
        changed_at, by = re.fullmatch(r"(.*) \((.*)\)", found["Last modified"]).groups()

        def at(text):
            return None if text == "[never]" else moment(text, "%a %b %d %H:%M:%S UTC %Y")

        return {
            "last change": at(found["Last password change"]), "expires": at(found["Password expiration date"]),
            "modified": at(changed_at), "by": by, "failed": int(found["Failed password attempts"]),
            "attributes": found["Attributes"].split(), "policy": found["Policy"], "master": found["MKey"],
            "versions": re.findall(r"^Key: vno (\d+), (.*)$", text, re.M), "ends": found["Expiration date"],
            "life": found["Maximum ticket life"],
        }

    def test_all_that_changes(self):
        """A policy with a longest life and a lockout, an expired password, two versions, a change that is asked for."""
        name = self.name()
        self.kdc.kadmin("addpol", "-maxlife", "30 days", "-maxfailure", "2", "hard")
        self.kdc.kadmin("cpw", "-keepold", "-pw", "Second-pass2", name)
        for words in ["-policy", "hard"], ["+requires_preauth", "-pwexpire", "2030-01-01"]:
            self.kdc.kadmin("modprinc", *words, name)
        self.tell("a locked out one: logins", self.logs_in(name, "wrong", "wrong", "Second-pass2"), [False] * 3)
        self.kdc.kadmin("-p", "someone/admin", "modprinc", "+needchange", "-pwexpire", "yesterday", name)
        before = self.fields(name)
        self.tell("  failed attempts", before["failed"], 2)
        self.tell("  versions", len(before["versions"]), 4)
        now, after = self.put(name)
        self.logins(name, "Second-pass2", FIRST)
        self.is_now("last password change", after["last change"], now)
        self.is_now("expiry, less the policy's longest life", after["expires"] - 30 * DAY, now)
        self.is_now("last modified", after["modified"], now)
        self.tell("  modified by", after["by"], "root/admin@EXAMPLE.COM")
        self.tell("  failed attempts", after["failed"], 0)
        self.tell("  attributes", after["attributes"], ["REQUIRES_PRE_AUTH"])
        self.tell("  policy", after["policy"], "hard")

    def test_without_a_policy(self):
        for policy in None, "endless":
            name = self.name()
            if policy:
                self.kdc.kadmin("addpol", policy)
                self.kdc.kadmin("modprinc", "-policy", policy, name)
            self.kdc.kadmin("modprinc", "-pwexpire", "yesterday", name)
            _, after = self.put(name)
            self.tell(f"  policy {policy}: expiry", after["expires"], None)
            self.logins(name, FIRST)

    def test_a_policy_that_is_gone(self):
        name = self.name()
        self.kdc.kadmin("addpol", "-maxlife", "3 days", "passing")
        self.kdc.kadmin("modprinc", "-policy", "passing", name)
        self.kdc.kadmin("delpol", "-force", "passing")
        _, after = self.put(name)
        self.tell("  a policy that is gone: expiry", after["expires"], None)
        self.logins(name, FIRST)

    def test_a_disabled_one(self):
        name = self.name()
        self.kdc.kadmin("modprinc", "-allow_tix", "-expire", "2031-01-01", name)
        _, after = self.put(name)
        self.tell("  a disabled one: attributes", after["attributes"], ["DISALLOW_ALL_TIX"])
        self.tell("  logins", self.logs_in(name, NEW, FIRST), [False, False])

    def test_nothing_else(self):
        """What no change of a password changes stays."""
        name = self.name()
        words = ["-expire", "2031-01-01", "-maxlife", "2 hours", "+requires_preauth", "-allow_forwardable"]
        self.kdc.kadmin("modprinc", *words, name)
        self.kdc.kadmin("setstr", name, "session_enctypes", "aes128-cts")
        kept = ["ends", "life", "attributes", "policy"]
        before = self.fields(name)
        _, after = self.put(name)
        self.tell("  what stays", {it: after[it] for it in kept}, {it: before[it] for it in kept})
        self.tell("  its strings", self.kdc.kadmin("getstrs", name).strip(), "session_enctypes: aes128-cts")

    def test_another_master_key(self):
        """`kdb5_util add_mkey`, `use_mkey`, while the agent runs."""
        first, second, third = self.name(), self.name(), self.name()
        with self.talking() as line:
            line.put(first, 2, "Second-pass2")
            self.kdc.util("add_mkey", "-s", lines=["Other-master1", "Other-master1"])
            self.kdc.util("use_mkey", "2")
            self.tell("another master key: put", line.put(second, 2, NEW), f"put {hexed(second)} 2")
            self.tell("  the entry's", self.fields(second)["master"], "vno 2")
            self.tell("  one that was written before it", self.fields(first)["master"], "vno 1")
            self.tell("  login", self.logs_in(second, NEW, FIRST), [True, False])
            self.tell("  get", line.ask(f"get {hexed(second)}").split()[:3], ["has", hexed(second), "2"])
            self.tell("  get of the one before", line.ask(f"get {hexed(first)}").split()[:3], ["has", hexed(first), "2"])
            self.tell("  put of it", line.put(first, 3, NEW), f"put {hexed(first)} 3")
            self.tell("  the entry's", self.fields(first)["master"], "vno 2")
            self.realm.set_password(third, "Third-pass3")
            self.tell("  get of one that kadmin.local wrote", line.ask(f"get {hexed(third)}").split()[:3],
                      ["has", hexed(third), "2"])
        with self.talking() as line:
            self.tell("  list keys of an agent that starts then", f"other {hexed('K/M')} reserved" in line.listed("list keys"))

    def test_log_of_changes(self):
        """Replicas are told where `iprop_enable` says so."""
        name, folder = self.name(), self.realm.folder
        text = (folder / "kdc.conf").read_text()
        (folder / "iprop.conf").write_text(text.replace("acl_file", "iprop_enable = true\n iprop_port = 9\n acl_file"))
        more = {"KRB5_KDC_PROFILE": str(folder / "iprop.conf")}

        def log():
            return self.realm.run(self.realm.mit, ["kproplog", "-v"], **more).stdout

        # as kadmind makes it at its start
        self.realm.run(self.realm.mit, ["kadmin.local", "modprinc", "-maxlife", "3 hours", name], **more)
        before = log().count(f"Update principal : {name}@")
        self.put(name, **more)
        found = log()
        self.tell("  records in the log of changes", found.count(f"Update principal : {name}@"), before + 1)
        last = found.rpartition("Update serial #")[2]
        self.tell("  the last one has", [word for word in ("Key data", "Password last changed", "Modifying principal")
                                         if word in last], ["Key data", "Password last changed", "Modifying principal"])


    def test_what_is_named_as_changed(self):
        """At least what kadmin.local names where it sets a password."""
        name, library = self.name(), preload(self.realm, "agent_mask")
        done = self.realm.run(self.realm.mit, ["kadmin.local", "cpw", "-pw", "Second-pass2", name], LD_PRELOAD=library)
        [theirs] = re.findall("mask (.*)", done.stderr)
        with Agent(self.realm, LD_PRELOAD=library) as agent:
            self.tell("put", agent.ask(putting(name, 3, NEW)), f"put {hexed(name)} 3")
            agent.told("mask", 1)
            [ours] = re.findall("mask (.*)", "\n".join(agent.all_lines))
        self.tell(f"  what kadmin.local names as changed, {theirs}, and the agent, {ours}, doesn't", int(theirs, 16) & ~int(ours, 16), 0)
        # of kadm5/admin.h: pw_expiration, attributes, fail_auth_count, key_data, tl_data
        self.tell("  it names all that it changes", 0x70014 & ~int(ours, 16), 0)


class HeimdalEntries(Entries):
    KIND = "Heimdal"

    def fields(self, name):
        found = dict(re.findall(r"^\s*([^:\n]+): ?(.*)$", self.kdc.entry(name), re.M))

        def at(text):
            return None if text == "never" else moment(text, "%Y-%m-%d %H:%M:%S UTC")

        return {
            "last change": at(found["Last password change"]), "expires": at(found["Password expires"]),
            "modified": at(found["Last modified"]), "by": found["Modifier"], "version": found["Kvno"],
            "attributes": [it for it in found["Attributes"].split(", ") if it], "types": found["Keytypes"],
            "ends": found["Principal expires"], "life": found["Max ticket life"],
        }

    def aged(self, name, attributes="requires-pw-change"):
        """An entry that was changed long ago, by another, with keys of former versions and a former password."""
        for password in "Second-pass2", "Third-pass3":
            self.kdc.kadmin("passwd", "--keepold", f"--password={password}", name)
        self.kdc.kadmin("modify", f"--attributes={attributes}", "--pw-expiration-time=2026-01-01", name)
        password = re.sub(r".*:", "", self.saved_password(name))
        old = "301AA003010100A113A711180F" + b"20200101000000Z".hex().upper()

        def change(line):
            line = changed(line, 3, lambda _: f"20200101000000:someone/admin@{name and 'EXAMPLE.COM'}")
            words = line.split(" ")
            kept = [it for it in words[-1].split(":") if "A713" not in it and "A711" not in it]
            words[-1] = ":".join([*kept, old, password, "301BA003010100A114A4120410" + "11" * 16])
            return " ".join(words)

        self.kdc.edit(name, change)

    def saved_password(self, name):
        """The extension of an entry that was made with `save-password`, as a dump has it."""
        config = self.realm.folder / "krb5.conf"
        (self.realm.folder / "saving.conf").write_text(
            config.read_text().replace("[kadmin]\n", "[kadmin]\n    save-password = true\n"))
        other = f"{name}-saved"
        words = ["kadmin.heimdal", "-l", "add", "--use-defaults", "--password=Saved-pass1", other]
        self.realm.run(words, KRB5_CONFIG=str(self.realm.folder / "saving.conf"))
        return next(word for word in self.kdc.line(other).split()[-1].split(":") if word[18:20] == "A5")

    def test_all_that_changes(self):
        name = self.name()
        self.aged(name)
        before, kept = self.fields(name), self.kdc.extensions(name)
        self.tell("an old entry: by", before["by"], "someone/admin@EXAMPLE.COM")
        self.tell("  attributes", before["attributes"], ["requires-pw-change"])
        self.tell("  extensions", sorted(kept), [LM_OWF, PASSWORD, LAST_CHANGE, HISTORY])
        self.tell("  bytes of former versions", len(kept[HISTORY]) > 100)
        now, after = self.put(name)
        self.logins(name, "Third-pass3", "Second-pass2", FIRST)
        self.is_now("last password change", after["last change"], now)
        self.is_now("expiry, less a year", after["expires"] - 365 * DAY, now)
        self.is_now("last modified", after["modified"], now)
        self.tell("  modified by", after["by"], "kadmin/admin@EXAMPLE.COM")
        self.tell("  attributes", after["attributes"], [])
        self.tell("  version", after["version"], "7")
        self.tell("  types and salts", after["types"],
                  "aes256-cts-hmac-sha1-96(pw-salt)[7], aes128-cts-hmac-sha1-96(pw-salt)[7]")
        # so that a client is told it that asks under an alias
        self.tell("  keys whose salt is written down", self.kdc.line(name).count(f'3/"{REALM}{name}"'), 2)
        self.tell("  extensions", sorted(self.kdc.extensions(name)), [LAST_CHANGE])

    def test_the_life_of_the_configuration(self):
        name = self.name()
        self.kdc.kadmin("modify", "--pw-expiration-time=2026-01-01", name)
        config = self.realm.folder / "life.conf"
        text = (self.realm.folder / "krb5.conf").read_text()
        config.write_text(text.replace("[kadmin]\n", "[kadmin]\n    password_lifetime = 30 days\n"))
        now, after = self.put(name, KRB5_CONFIG=str(config))
        self.is_now("expiry, less the configuration's 30 days", after["expires"] - 30 * DAY, now)

    def test_a_password_without_end(self):
        name = self.name()
        _, after = self.put(name)
        self.tell("  a password without an end: expiry", after["expires"], None)

    def test_a_disabled_one(self):
        name = self.name()
        self.kdc.kadmin("modify", "--attributes=disallow-all-tix", name)
        _, after = self.put(name)
        self.tell("  a disabled one: attributes", after["attributes"], ["disallow-all-tix"])
        self.tell("  logins", self.logs_in(name, NEW, FIRST), [False, False])

    def test_nothing_else(self):
        name = self.name()
        words = ["--expiration-time=2031-01-01", "--max-ticket-life=2h",
                 "--attributes=requires-pre-auth,disallow-postdated", "--alias=other-name"]
        self.kdc.kadmin("modify", *words, name)
        # policy [12] UTF8String, which this kadmin doesn't let anybody set
        self.kdc.edit(name, lambda line: f"{line}:300FA003010100A108AC060C0468617264")
        kept = ["ends", "life", "attributes"]
        before, extensions = self.fields(name), self.kdc.extensions(name)
        _, after = self.put(name)
        self.tell("  what stays", {it: after[it] for it in kept}, {it: before[it] for it in kept})
        left = self.kdc.extensions(name)
        self.tell("  its aliases and policy", (left.get(6), left.get(12)), (extensions[6], b"\x0c\x04hard"))
        self.logins(name, FIRST)

    def test_log_of_changes(self):
        name = self.name()

        def log():
            words = ["iprop-log", "dump", f"--config-file={self.realm.folder}/krb5.conf"]
            return [it for it in self.realm.run(words).stdout.split("\nmodify: ")[1:] if f"= {name}@" in it]

        def fields(record):
            return [line.partition("=")[0].strip() for line in record.splitlines()[1:]]

        def mask():
            """What the last record of the log names as changed: its body's first number; the length stands after the body."""
            data = (self.realm.folder / "log").read_bytes()
            length = int.from_bytes(data[-8:-4], "big")
            return data[-8 - length :][:4].hex()

        self.realm.set_password(name, "Second-pass2")
        before, theirs = log(), mask()
        self.put(name)
        found, ours = log(), mask()
        self.tell("  what its record names as changed, as kadmin's own does", ours, theirs)
        self.tell("  records in the log of changes", len(found), len(before) + 1)
        self.tell("  the last one has what kadmin's own of a password has", fields(found[-1]), fields(before[-1]))
        self.tell("  its version", "kvno = 7" in found[-1])
        data = (self.realm.folder / "log").read_bytes()
        self.tell("  keys in it that aren't sealed", [key for key in keys_of(name, NEW).split() if bytes.fromhex(key) in data], [])
