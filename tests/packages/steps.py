"""The steps of a package's life in a root: install, first start, changes, upgrade, a journal that was there, remove, purge."""

import pathlib
import re
import time

from harness.command import TOP
from tests.packages import heimdal, mit
from tests.packages.in_root import AHEAD, InRoot
from tests.packages.planted_links import Links
from tests.packages.root import Failed

FOLDERS = ("/etc/boddrelyn", "/var/lib/boddrelyn", "/var/log/boddrelyn", "/run/boddrelyn", "/run/boddrelyn-agent")
SERVICE, JOURNAL, LOG = "boddrelyn", "/var/lib/boddrelyn/journal", "/var/log/boddrelyn/log"
# what a clean end leaves for the next start
RESUME = "/var/lib/boddrelyn/resume"
CONFIGURATION = "/etc/boddrelyn/realm.toml"


def block(heading, number=0):
    """A block of commands of README.Debian."""
    text = (TOP / "packaging/debian/boddrelyn.README.Debian").read_text()
    section = re.split(r"\n\n(?=[^\n]+\n-+\n)", text)
    [body] = [it for it in section if it.startswith(heading)]
    blocks = re.findall(r"(?:^    .*\n?(?:^\n(?=    ))?)+", body, re.MULTILINE)
    return "".join(line[4:] + "\n" for line in blocks[number].splitlines())


class Life(InRoot):
    """One test, whose steps go on from each other. `left` has the files of a start by unit for each kind, for other tests."""

    left = {}

    def setUp(self):
        super().setUp()
        self.agent = self.kind.AGENT
        self.realm.make()

    def test_life(self):
        self.in_turn([
            self.install, self.first_start, self.second, self.limits, self.changes, self.upgrade, self.taken_along,
            self.left_by_the_former_owner, self.planted_links, self.remove, self.purge,
        ])

    # ---- what is looked at

    def files(self, *folders):
        """The files of the folders with mode and owner, but for their sizes."""
        found = self.root.run("find", *(folders or FOLDERS), "-printf", "%M %u:%g %p\\n").stdout
        return sorted(line for line in found.splitlines() if "No such file" not in line)

    def service(self):
        return self.root.units[f"{SERVICE}.service"]

    def status(self):
        text = self.root.run("chpw_server", "control", "--socket", "/run/boddrelyn/control", "status").stdout
        return dict(line.split(" ", 1) for line in text.splitlines() if " " in line)

    def table(self):
        return self.root.must("chpw_server", "table", "--config", "/etc/boddrelyn/realm.toml", "--journal", JOURNAL)

    def has_users(self):
        """Whether the table gets those of the KDC."""
        return waited(lambda: all(f"{name} kvno 1 " in self.table() for name in self.kind.USERS))

    def ahead(self):
        return {"LD_PRELOAD": "/opt/try/ahead.so", "KRB5_CONFIG": "/etc/krb5-ahead.conf"}

    def output(self, name):
        return self.root.unit(name).output.read_text(errors="replace")

    # ---- the steps

    def install(self):
        done = self.root.run("dpkg", "-i", *self.before)
        self.tell("install: dpkg", done.returncode, 0) or print(done.stdout)
        passwd = self.root.must("getent", "passwd", "boddrelyn").strip().split(":")
        self.tell("install: the user can't log in", passwd[-1], "/usr/sbin/nologin")
        self.tell("install: the configuration's directory is root's, and the others are the user's alone", self.files(*FOLDERS[:4]),
                  sorted(["drwxr-x--- root:boddrelyn /etc/boddrelyn", *(f"drwx------ boddrelyn:boddrelyn {it}" for it in FOLDERS[1:4])]))
        self.tell("install: nothing was started", [it for it in self.root.asked if "start" in it], [])
        for name in (SERVICE, self.agent):
            link = self.root.path(f"/etc/systemd/system/multi-user.target.wants/{name}.service")
            self.tell(f"install: {name} is enabled", link.is_symlink())
            self.tell(f"install: {name} is skipped without a configuration", self.root.unit(name).start(), "skipped")

    def first_start(self):
        """The commands of README.Debian, while the KDC's own password server has the port, and when it has given it up."""
        commands = block("First start").replace("EXAMPLE.COM", self.kind.REALM).replace("boddrelyn-agent-mit", self.agent)
        if self.kind.EXPORT:
            commands = re.sub(r"kadmin\.local ktadd (?:.*\\\n)*.*", self.kind.EXPORT, commands)
        if self.kind.OPTIONS:
            file = self.root.path(f"/etc/default/{SERVICE}")
            file.write_text(file.read_text().replace("\nOPTIONS=\n", f"\nOPTIONS={self.kind.OPTIONS}\n"))
        start = commands.index("systemctl start")
        done = self.root.run("sh", "-eu", "-c", f"cd /root; {commands[:start]}")
        is_good = done.returncode == 0 and "ok: principals 0," in done.stdout
        self.tell("README.Debian: import and check", is_good) or print(done.stdout)
        self.port_is_taken(commands[start:])
        self.realm.give_up_port(self.tell)
        self.start_by_hand()
        done = self.root.run("sh", "-c", commands[start:])
        self.tell("start: systemctl", done.returncode, 0)
        self.tell("start: it listens", self.service().says("listening on 127.0.0.1:464"))
        self.tell("start: the agent listens", self.root.unit(self.agent).says("listening"))
        self.tell("start: the KDC's users are the service's", self.has_users())
        self.left[self.kind.KIND] = self.files()
        self.tell("start: a start by hand leaves the same files", self.by_hand, self.left[self.kind.KIND])
        wanted = {JOURNAL, LOG, "/run/boddrelyn/control", "/run/boddrelyn-agent/socket"}
        private = {line.split()[2] for line in self.files() if re.match(r"[-s]rw------- boddrelyn:", line)}
        self.tell("start: journal, log and sockets are the user's alone", private, wanted)
        self.tell("start: the configuration is root's, and the service may read it", self.files(CONFIGURATION),
                  [f"-rw-r----- root:boddrelyn {CONFIGURATION}"])

    def port_is_taken(self, start):
        self.root.run("sh", "-c", start)
        it = self.service()
        if it.process is None:
            raise Failed(f"it doesn't start: {self.output(SERVICE)}")
        self.tell("port 464 is taken: it ends", it.process.wait(20), 1)
        said = self.output(SERVICE)
        self.tell("port 464 is taken: it says so", [it for it in self.kind.SAYS if it not in said], [])
        self.tell("port 464 is taken: the journal stays", self.root.path(JOURNAL).stat().st_size, 3 + len(self.kind.REALM))

    def second(self):
        self.realm.is_second(self.tell)

    def start_by_hand(self):
        """The last command of README.Debian; the agent's unit runs, and the service is told of its socket."""
        self.root.unit(self.agent).stop()
        self.root.unit(self.agent).start()
        self.root.unit(self.agent).says("listening")
        command = block("A service that ran before", 1).strip() + f" --kdc /run/boddrelyn-agent/socket {self.kind.OPTIONS}"
        process = self.root.start("sh", "-c", f"umask 022; exec {command}")
        self.tell("by hand: it runs", waited(lambda: self.status().get("kdc") == "connected"))
        self.by_hand = self.files()
        self.tell("by hand: no process of its user may trace it", untraced(process.pid))
        stopped = self.root.run("chpw_server", "control", "--socket", "/run/boddrelyn/control", "stop")
        self.tell("by hand: it stops", (stopped.returncode, process.wait(60)), (0, 0))
        self.root.path(LOG).unlink()

    def limits(self):
        pid = self.service().process.pid
        text = (f"/proc/{pid}/status", f"/proc/{pid}/limits")
        status, limits = (open(it, encoding="ascii").read() for it in text)
        uid = self.root.must("id", "-u", "boddrelyn").strip()
        self.tell("limits: user", re.search(r"Uid:\s+(\d+)\s+(\d+)", status).groups(), (uid, uid))
        self.tell("limits: CAP_NET_BIND_SERVICE alone",
                  [re.search(rf"{it}:\s+(\w+)", status)[1].lstrip("0") for it in ("CapEff", "CapBnd", "CapAmb")], ["400"] * 3)
        self.tell("limits: no new privileges", re.search(r"NoNewPrivs:\s+(\d)", status)[1], "1")
        found = [re.search(rf"{it}\s+(\w+)", limits)[1] for it in ("Max open files", "Max core file size", "Max file size")]
        self.tell("limits: open files, core, file size", found, [str(self.service().limit("LimitNOFILE")), "1", "unlimited"])
        self.tell("limits: no process of its user may trace it", untraced(pid))
        pid = self.root.unit(self.agent).process.pid
        status = open(f"/proc/{pid}/status", encoding="ascii").read()
        self.tell("limits: the agent's capabilities", re.search(r"CapEff:\s+(\w+)", status)[1].lstrip("0"), "1")

    def changes(self):
        self.tell("the first start isn't quiet", self.status().get("quiet-until"), "-")
        say = self.realm.kpasswd("alice", "Old-pass1", "short")
        self.tell("kpasswd: a short password is refused", "password too short" in say) or print(say)
        say = self.realm.kpasswd("alice", "Old-pass1", "New-pass1")
        self.tell("kpasswd: changed", self.kind.CHANGED in say) or print(say)
        self.tell("kinit: with the new password, at once", self.realm.kinit("alice", "New-pass1"))
        self.tell("kinit: not with the old one", self.realm.kinit("alice", "Old-pass1"), False)
        self.tell("the KDC has the new version", self.realm.kvno("alice"), 2)
        status = self.status()
        self.tell("control status", [status.get(it) for it in ("journal", "kdc", "kdc-behind", "changes")],
                  ["good", "connected", "0", "1"])
        self.tell("reload", self.root.run("systemctl", "reload", SERVICE).returncode, 0)
        rotated = self.root.run("logrotate", "--force", "/etc/logrotate.d/boddrelyn")
        self.tell("logrotate", rotated.returncode, 0) or print(rotated.stdout)
        log = [line for line in self.files("/var/log/boddrelyn") if line.endswith(LOG)]
        self.tell("logrotate: a new log of mode 600", log, [f"-rw------- boddrelyn:boddrelyn {LOG}"])
        self.tell("logrotate: it is written", "log-reopened" in self.root.path(LOG).read_text())

    def upgrade(self):
        """Over a running service, whose settings were changed."""
        file = self.root.path(f"/etc/default/{SERVICE}")
        file.write_text(file.read_text().replace("WORKERS=4", "WORKERS=2"))
        before, journal, pids = self.files(), self.root.path(JOURNAL).read_bytes(), self.pids()
        self.former_owner()
        done = self.root.run("dpkg", "-i", *self.now)
        self.tell("upgrade: dpkg", done.returncode, 0) or print(done.stdout)
        self.tell("upgrade: the configuration becomes root's", f"boddrelyn: {CONFIGURATION} belongs to root now" in done.stdout)
        self.tell("upgrade: both are restarted, and run", [new not in pids and new for new in self.pids()], self.pids())
        self.tell("upgrade: it listens again", self.service().says("listening on 127.0.0.1:464"))
        self.tell("upgrade: the agent is found", waited(lambda: self.status().get("kdc") == "connected"))
        self.tell("upgrade: no file changes mode or owner", self.files(), before)
        self.tell("upgrade: the journal stays", self.root.path(JOURNAL).read_bytes(), journal)
        self.tell("upgrade: changed settings stay", self.status().get("workers"), "2")
        self.tell("upgrade: no quiet time", self.status().get("quiet-until"), "-")
        self.changes_now("New-pass1", "Newer-pass1", 3)

    def former_owner(self):
        """The configuration and its directory become what they were in earlier packages."""
        self.former_owner_of_the_folder()
        self.root.must("chown", "boddrelyn:boddrelyn", CONFIGURATION)
        self.root.must("chmod", "600", CONFIGURATION)

    def left_by_the_former_owner(self):
        """What the service's user could put there while the directory was its own is named, not followed, and not given away."""
        for name in (SERVICE, self.agent):
            self.root.must("systemctl", "stop", name)
        self.root.must("sh", "-c", "mkdir /root/own && umask 077 && echo mine > /root/own/file && cp -p /root/own/file /root/own/other")
        kept = f"cp {CONFIGURATION} /root/own/realm.toml"
        link = f"ln -sf /root/own/file {CONFIGURATION}; chown -h boddrelyn: {CONFIGURATION}"
        # what a user could do who may write the file, or where links aren't protected
        second_name = f"chown boddrelyn: /root/own/other; ln -f /root/own/other {CONFIGURATION}"
        for what, commands in (("a link", link), ("a file with a second name", second_name)):
            self.root.must("sh", "-eu", "-c", f"{kept}; {commands}")
            own = self.files("/root/own")
            self.former_owner_of_the_folder()
            done = self.root.run("/var/lib/dpkg/info/boddrelyn.postinst", "configure", "0.1-1")
            self.tell(f"upgrade over {what}: status", done.returncode, 0) or print(done.stdout)
            self.tell(f"upgrade over {what}: it is named", f"left as it is: {CONFIGURATION}, which belongs to boddrelyn" in done.stdout)
            self.tell(f"upgrade over {what}: root's files stay", self.files("/root/own"), own)
            self.tell(f"upgrade over {what}: and what is in them", self.root.must("cat", "/root/own/file", "/root/own/other"), "mine\n" * 2)
            self.root.must("sh", "-eu", "-c", f"rm {CONFIGURATION}; install -g boddrelyn -m 640 /root/own/realm.toml {CONFIGURATION}")
        self.root.must("rm", "-r", "/root/own")

    def former_owner_of_the_folder(self):
        self.root.must("chown", "boddrelyn:boddrelyn", "/etc/boddrelyn")
        self.root.must("chmod", "700", "/etc/boddrelyn")

    def changes_now(self, old, new, kvno):
        """Without a quiet time, by a client with the right clock."""
        say = self.realm.kpasswd("alice", old, new)
        self.tell("kpasswd: changed at once", self.kind.CHANGED in say) or print(say)
        self.tell("kinit: with the new password", self.realm.kinit("alice", new))
        self.tell("the KDC has the new version", self.realm.kvno("alice"), kvno)

    def pids(self):
        return [it.process.pid for it in (self.root.unit(SERVICE), self.root.unit(self.agent)) if it.is_active()]

    def taken_along(self):
        """A service that ran by hand elsewhere, as root, and changed a password: its files by README.Debian."""
        for name in (SERVICE, self.agent):
            self.root.must("systemctl", "stop", name)
        (self.root.path("/root/former")).mkdir()
        self.root.must("sh", "-c", "cp /etc/boddrelyn/realm.toml /var/lib/boddrelyn/journal /root/former; "
                       "rm -r /etc/boddrelyn/realm.toml /var/lib/boddrelyn/journal; chown -R root:root /root/former")
        command = ("chpw_server serve --config realm.toml --journal journal --seed /dev/urandom --port 4464 --workers 1 "
                   "--connections 100 --control control")
        process = self.root.start("sh", "-c", f"cd /root/former; exec {command}")
        self.root.path("/root/former/new").write_text("Newest-pass2\n")
        waited(lambda: self.root.path("/root/former/control").exists())
        time.sleep(300 - AHEAD + 2)
        done = self.root.run("sh", "-c", "cd /root/former; chpw_server client --config realm.toml --seed /dev/urandom --port 4464 "
                             "--client bob --password-file new", LD_PRELOAD="/opt/try/ahead.so")
        changed = done.stdout.strip() == "code 0 password changed"
        self.tell("by hand elsewhere: a change", changed or done.stdout)
        self.root.must("chpw_server", "control", "--socket", "/root/former/control", "stop")
        process.wait(60)
        done = self.root.run("sh", "-eu", "-c", f"cd /root/former; {block('A service that ran before')}")
        self.tell("taken along: README.Debian", done.returncode, 0)
        self.root.must("systemctl", "start", self.agent, SERVICE)
        self.tell("taken along: it listens", self.service().says("listening on 127.0.0.1:464"))
        self.tell("taken along: the table has the change", "bob kvno 2" in self.table())
        self.tell("taken along: the agent writes it", waited(lambda: self.realm.kvno("bob") == 2))
        self.tell("taken along: kinit", self.realm.kinit("bob", "Newest-pass2"))

    def planted_links(self):
        Links(self.root, self.tell).run()

    def remove(self):
        self.root.asked.clear()
        before = self.files(*FOLDERS[:3])
        done = self.root.run("dpkg", "-r", self.agent, SERVICE)
        self.tell("remove: dpkg", done.returncode, 0) or print(done.stdout)
        stopped = [f"stop {it}.service" in self.root.asked for it in (self.agent, SERVICE)]
        self.tell("remove: both are stopped", stopped, [True, True])
        self.tell("remove: none runs", self.pids(), [])
        self.tell("remove: the files stay", self.files(*FOLDERS[:3]), before)
        self.tell("remove: what the last clean end left is among them", f"-rw------- boddrelyn:boddrelyn {RESUME}" in before)
        self.tell("remove: the programs are gone", [it.name for it in self.root.path("/usr/sbin").glob("chpw_*")], [])

    def purge(self):
        self.root.path("/var/lib/boddrelyn/saved.toml").write_text("")
        done = self.root.run("dpkg", "-P", self.agent, SERVICE)
        self.tell("purge: dpkg", done.returncode, 0) or print(done.stdout)
        named = re.findall(r"boddrelyn: removed: (\S+)", done.stdout)
        wanted = ["/etc/boddrelyn/realm.toml", JOURNAL, "/var/lib/boddrelyn/saved.toml", LOG]
        self.tell("purge: it names the files that go", [it for it in wanted if it not in named], [])
        self.tell("purge: it says what it leaves", "boddrelyn: left: the user boddrelyn" in done.stdout) or print(done.stdout)
        left = self.root.run("find", "/", "-xdev", "(", "-user", "boddrelyn", "-o", "-name", "*boddrelyn*", ")", "-printf", "%p\\n")
        found = [it for it in left.stdout.splitlines() if not it.startswith(("/proc", "/tmp", "/opt/try"))]
        self.tell("purge: no file is left", found, [])


def waited(is_so, seconds=20):
    end = time.monotonic() + seconds
    while time.monotonic() < end:
        if is_so():
            return True
        time.sleep(0.1)
    return False


def untraced(pid):
    """Whether the process can't be traced by others of its user: its memory is root's."""
    return pathlib.Path(f"/proc/{pid}/mem").stat().st_uid == 0


class MitLife(Life):
    kind = mit


class HeimdalLife(Life):
    kind = heimdal
