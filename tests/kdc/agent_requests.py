"""Each answer to each request, what is refused, and under which version `put` writes."""

from harness.realm import REALM
from tests.kdc.agent_case import FIRST, AgentCase
from tests.kdc.agent_process import Agent, hexed, keys_of, putting

RESERVED = ["krbtgt", "kadmin", "K", "WELLKNOWN", "kiprop", "iprop", "hprop", "changepw", "default"]


class AgentRequests(AgentCase):
    def test_lists(self):
        """The names and versions of the project's own list; keys of those that may be told."""
        self.realm.add("two/parts", FIRST)
        second = self.name()
        self.realm.set_password(second, "Second-pass2")
        lacking = self.name(known=False)
        self.kdc.add_weak(lacking, FIRST)
        # those of other realms, whatever their names
        others = "ELSEWHERE.EXAMPLE", "EXAMPLE.ORG", REALM[:-1], f"{REALM}S"
        for other in *(f"alice@{it}" for it in others), f"krbtgt/{REALM}@ELSEWHERE.EXAMPLE":
            self.realm.add(other, FIRST)
        known = self.kdc.listed()
        with self.talking() as line:
            found = line.listed()
            wanted = sorted(f"has {hexed(name)} {kvno}" for name, kvno in known.items())
            self.tell(f"list: {len(wanted)} principals, as the KDC's own list has them", found == wanted)
            if found != wanted:
                print(found, wanted)
            keys = {}
            for answer in line.listed("list keys"):
                word, name, *rest = answer.split()
                keys[name] = (word, *rest)
            self.tell("list keys: as many", len(keys), len(known))
            self.tell("  keys of one", keys[hexed(second)], ("has", "2", *keys_of(second, "Second-pass2").split()))
            self.tell("  the KDC's own", {keys[hexed(name)] for name in known if name.split("/")[0] in RESERVED},
                      {("other", "reserved")})
            self.tell("  more than one component", keys[hexed("two/parts")], ("other", "components"))
            self.tell("  one without a key of AES-128", keys[hexed(lacking)], ("other", "keys"))
            self.tell("  others", {word for word, *_ in keys.values()}, {"has", "other"})

    def test_gets(self):
        name = self.name()
        lacking, salted = self.name(known=False), self.name(known=False)
        self.kdc.add_weak(lacking, FIRST)
        self.kdc.add_salted(salted, FIRST)
        with self.talking() as line:
            self.tell("get", line.ask(f"get {hexed(name)}"), f"has {hexed(name)} 1 {keys_of(name, FIRST)}")
            self.realm.set_password(name, "Next-pass2")
            self.tell("  after a change", line.ask(f"get {hexed(name)}"),
                      f"has {hexed(name)} 2 {keys_of(name, 'Next-pass2')}")
            self.tell("  who isn't there", line.ask(f"get {hexed('nobody')}"), f"none {hexed('nobody')}")
            self.tell("  without a key of AES-128", line.ask(f"get {hexed(lacking)}"), f"other {hexed(lacking)} keys")
            self.tell("  with another salt", line.ask(f"get {hexed(salted)}"), f"other {hexed(salted)} keys")
            for asked in "krbtgt/" + REALM, "kadmin/changepw":
                self.tell(f"  {asked}", line.ask(f"get {hexed(asked)}"), f"other {hexed(asked)} reserved")
            self.tell("  carol/ops", line.ask(f"get {hexed('carol/ops')}"), f"other {hexed('carol/ops')} components")
            self.tell("  joe blow", line.ask(f"get {hexed('joe blow')}").split()[:2], ["has", hexed("joe blow")])

    def test_puts(self):
        name = self.name()
        self.realm.set_password(name, "Second-pass2")
        with self.talking() as line:
            self.tell("put", line.put(name, 5, "Fifth-pass5"), f"put {hexed(name)} 5")
            self.tell("  the KDC's keys", self.held(name), self.of(name, 5, "Fifth-pass5"))
            self.tell("  logins by it, and by the former", self.logs_in(name, "Fifth-pass5", "Second-pass2"), [True, False])
            self.tell("  who isn't there", line.put("nobody", 2, FIRST), f"none {hexed('nobody')}")
            self.tell("  is not made", "nobody" in self.kdc.listed(), False)

    def test_versions(self):
        """The version that is asked for where the KDC's is lower, else the next one of the KDC's."""
        name = self.name()
        with self.talking() as line:
            for what, kvno, password, wanted in (
                ("higher by one", 2, "A-pass2", 2), ("again, as after a lost answer", 2, "A-pass2", 2),
                ("the same with other keys", 2, "B-pass3", 3), ("lower", 1, "C-pass4", 4),
                ("lower with the keys of now", 3, "C-pass4", 5), ("higher by many", 77, "D-pass5", 77),
                ("higher with the keys of now", 78, "D-pass5", 78),
            ):
                before = self.state(name)
                self.tell(f"put {what}", line.put(name, kvno, password), f"put {hexed(name)} {wanted}")
                self.tell("  the KDC's keys", self.held(name), self.of(name, wanted, password))
                if what.startswith("again"):
                    self.tell("  nothing is written", self.state(name) == before)
            mixed = putting(name, 78, "D-pass5").split()
            mixed[4] = keys_of(name, "E-pass6").split()[1]
            self.tell("put the same with another key of AES-128", line.ask(" ".join(mixed)), f"put {hexed(name)} 79")
            mixed[3] = keys_of(name, "E-pass6").split()[0]
            mixed[2] = "79"
            self.tell("put the same with another key of AES-256", line.ask(" ".join(mixed)), f"put {hexed(name)} 80")

    def test_an_administrator_between(self):
        """Somebody sets a password between `list` and `put`: what was asked last is so, and the version goes up."""
        for what, sets, kvno, wanted in (("once", 1, 2, 3), ("twice", 2, 2, 4), ("once, and a higher version put", 1, 5, 5)):
            name = self.name()
            with self.talking() as line:
                self.tell(f"a password set {what} between list and put: listed before",
                          f"has {hexed(name)} 1" in line.listed())
                for count in range(sets):
                    self.realm.set_password(name, f"Admins-pass{count}")
                self.tell("  told", line.told())
                self.tell("  put", line.put(name, kvno, "Users-pass2"), f"put {hexed(name)} {wanted}")
            self.tell("  the KDC's keys", self.held(name), self.of(name, wanted, "Users-pass2"))
            self.tell("  logins by it, and by the administrator's",
                      self.logs_in(name, "Users-pass2", f"Admins-pass{sets - 1}"), [True, False])
        name = self.name()
        with self.talking() as line:
            line.listed()
            self.realm.set_password(name, "Same-pass2")
            self.tell("the same password set between: put", line.put(name, 2, "Same-pass2"), f"put {hexed(name)} 2")
        self.tell("  the KDC's keys of it are there", self.of(name, 2, "Same-pass2") <= self.held(name))

    def refused(self, line, name, reason):
        self.tell(f"put {name}", line.put(name, 9, "Bad-pass9"), f"refused {hexed(name)} {reason}")

    def test_reserved_names(self):
        """Names that the KDC lives by, with one component and with more, there or not."""
        before = self.kdc.listed()
        there = [name for name in before if name.split("/")[0] in RESERVED]
        kept = self.state(*there)
        with self.talking("--also", "root/admin") as line:
            for first in RESERVED:
                for name in first, f"{first}/{REALM}", f"{first}/x/y":
                    self.refused(line, name, "reserved")
            for name in there:
                self.refused(line, name, "reserved")
                self.tell("  get", line.ask(f"get {hexed(name)}"), f"other {hexed(name)} reserved")
        self.tell("the KDC's own are as they were", self.state(*there) == kept)
        self.tell("nothing is made", self.kdc.listed() == before)

    def test_components(self):
        before = self.kdc.listed()
        kept = self.state("carol/ops")
        with self.talking() as line:
            for name in "carol/ops", "root/admin", "host/a.example", "a/b/c", "/".join("abcdefghijklmnopqrst"):
                self.refused(line, name, "components")
        self.tell("carol/ops is as it was", self.state("carol/ops") == kept)
        self.tell("nothing is made", self.kdc.listed() == before)

    def test_also(self):
        """`--also` lets just that name through."""
        self.realm.add("root/admin", FIRST)
        self.realm.add("root/other", FIRST)
        with self.talking("--also", "a/b", "--also", "root/admin") as line:
            self.tell("--also root/admin: get", line.ask(f"get {hexed('root/admin')}").split()[:3],
                      ["has", hexed("root/admin"), "1"])
            self.tell("  put", line.put("root/admin", 2, "Admin-pass2"), f"put {hexed('root/admin')} 2")
            self.tell("  put who isn't there", line.put("a/b", 2, "Admin-pass2"), f"none {hexed('a/b')}")
            for name in "root/other", "root/admin/x", "admin/root", "roota/dmin", "root/admi", "carol/ops":
                self.refused(line, name, "components")
            self.tell("  list keys", {answer.split()[0] for answer in line.listed("list keys")
                                      if answer.split()[1] == hexed("root/admin")}, {"has"})
        self.tell("  the KDC's keys", self.held("root/admin"), self.of("root/admin", 2, "Admin-pass2"))
        self.tell("  nothing is made", "a/b" in self.kdc.listed(), False)

    def test_also_that_may_not(self):
        """What `--also` can't let through is refused at the start."""
        for name, reason in (
            (f"krbtgt/{REALM}", "it is never written"), ("kadmin/admin", "it is never written"),
            ("krbtgt", "it is never written"), (f"root/admin@{REALM}", "a name has no realm here"),
            ("root\\/admin", "a name has no realm here"),
            ("", "no name"), ("root/", "no name"), ("/admin", "no name"), ("x" * 451, "no name"),
        ):
            self.tell(f"--also {name[:20]!r}: status, and what is told", self.ended("--also", name),
                      (2, f"{name}: {reason}"))
        many = [word for count in range(17) for word in ("--also", f"a/{count}")]
        self.tell("seventeen of them", self.ended(*many), (2, "a/16: too many names"))

    def ended(self, *options):
        status, lines = Agent(self.realm, *options).ended()
        return status, lines[0]

    def test_attributes(self):
        """An entry whose keys are locked down is neither read nor written."""
        name = self.name()
        self.kdc.lock_down(name)
        kept = self.state(name)
        with self.talking("--also", "root/admin") as line:
            self.refused(line, name, "lockdown")
            self.tell("  get", line.ask(f"get {hexed(name)}"), f"other {hexed(name)} lockdown")
            keys = [answer for answer in line.listed("list keys") if answer.split()[1] == hexed(name)]
            self.tell("  list keys", keys, [f"other {hexed(name)} lockdown"])
            self.tell("  list", f"has {hexed(name)} 1" in line.listed())
        self.tell("  it is as it was", self.state(name) == kept)

    def test_highest(self):
        """The highest version that the database can hold."""
        name = self.name()
        highest = self.realm.HIGHEST_KVNO
        with self.talking() as line:
            self.tell("put the highest version", line.put(name, highest, "Top-pass1"), f"put {hexed(name)} {highest}")
            self.tell("  the KDC's version", self.realm.kvno(name), highest)
            self.tell("  logins", self.logs_in(name, "Top-pass1"), [True])
            self.tell("  again", line.put(name, highest, "Top-pass1"), f"put {hexed(name)} {highest}")
            self.refused(line, name, "version")
            for more in highest + 1, 0xFFFFFFFF:
                self.tell(f"put {more}, which no entry can have", line.put(name, more, "Top-pass2"), f"refused {hexed(name)} version")
            self.tell("  put of nobody", line.put("nobody", highest + 1, "Top-pass2"), f"none {hexed('nobody')}")
            # Heimdal's ext_keytab has 16 bits of a version
            keys = [{key for _, _, key in found} for found in (self.held(name), self.of(name, highest, "Top-pass1"))]
            self.tell("  the KDC's keys", keys[0], keys[1])
        if highest > 65535:
            self.kdc.set_kvno(name, 0xFFFFFFFF)
            with self.talking() as line:
                self.refused(line, name, "version")

    def test_names_that_look_alike(self):
        """A byte 0, an alias, letters of other cases: another name, or none."""
        before = self.kdc.listed()
        kept = self.state(f"krbtgt/{REALM}", "alice")
        with self.talking() as line:
            for name in "krbtgt\0", "alice\0", "\0", "alice\0x", "Alice", "alice ", "krbtgt ", "\xff\xfe", f"alice@{REALM}":
                self.tell(f"put {name!r}", line.put(name, 9, "Bad-pass9"), f"none {hexed(name)}")
            for alias in self.kdc.aliases(f"krbtgt/{REALM}", "alice"):
                self.tell(f"put {alias}, an alias", line.put(alias, 9, "Bad-pass9"), f"none {hexed(alias)}")
        self.tell("what looks alike is as it was: keys", [keys for keys, _ in self.state(f"krbtgt/{REALM}", "alice")],
                  [keys for keys, _ in kept])
        self.tell("nothing is made", self.kdc.listed() == before)
