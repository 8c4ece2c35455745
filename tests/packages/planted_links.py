"""The commands that the documents print for root, and the maintainer scripts, where the service's user has planted links.

Each block of commands of ADMIN, README.Debian and the manual pages, and each script, is run as root in a root where every name
that it has stands in each directory of the service's user, as a link to a file of root's alone, to a folder of root's, or to
nothing in one. What the links lead to may not change, nothing may come into being there, and no byte of root's file may get
into another file.
"""

import contextlib
import os
import re
import signal
import subprocess

from harness.command import TOP

PACKAGING = TOP / "packaging"
# of the service's user, and with that of the configuration
FOLDERS = ("/var/lib/boddrelyn", "/var/log/boddrelyn", "/run/boddrelyn")
PLACES = ("/etc/boddrelyn", *FOLDERS)
CONFIGURATION = "/etc/boddrelyn/realm.toml"
# what stands outside, where commands are run, what stood there before, and commands that do nothing
OUTSIDE, WORK, SAVED, STUBS = "/root/outside", "/root/work", "/opt/try/saved.tar", "/opt/try/stubs"
PATH = "/usr/local/sbin:/usr/local/bin:/usr/sbin:/usr/bin:/sbin:/bin"
SECRET = "known to root alone"
KINDS = {"a file": "file", "a folder": "folder", "nothing": "folder/nothing"}
# names that the programs make by themselves, beside those of the commands
NAMES = {"journal", "journal.new", "resume", "resume.new", "log", "log.1", "control", "realm.toml", "new.toml"}
# what the commands leave elsewhere
LEFT = "/usr/local/sbin/boddrelyn-check /var/backups/boddrelyn /etc/systemd/system/boddrelyn.service.d"
SECONDS = 20
INFO = "/var/lib/dpkg/info/boddrelyn"
SCRIPTS = (
    f"{INFO}.postinst configure 0.1-1", f"{INFO}.prerm upgrade 0.1-2", "logrotate --force /etc/logrotate.d/boddrelyn",
    f"{INFO}.postrm purge",
)
# what the documents don't print, and is found
BAD = (
    "cp realm.toml /var/lib/boddrelyn/new.toml",
    "umask 077; cat realm.toml > /var/lib/boddrelyn/new.toml",
    "touch /var/log/boddrelyn/log; chown boddrelyn: /var/log/boddrelyn/log",
    "mv realm.toml /var/lib/boddrelyn/new.toml",
    "cat /var/lib/boddrelyn/present.toml > /etc/boddrelyn/realm.toml",
    "runuser -u boddrelyn -- chpw_server check --config realm.toml > /run/boddrelyn/found",
)


# how a block of commands stands in each document, and what is before each of its lines
FENCED = re.compile(r"^```sh(?: task)?\n(.*?)^```$", re.MULTILINE | re.DOTALL)
IN_A_LINE = re.compile(r"`([^`\n]* [^`\n]*(?:%s)/[^`\n]*)`" % "|".join(FOLDERS))
INDENTED = re.compile(r"((?:^    .*\n(?:^\n(?=    ))?)+)", re.MULTILINE)
OF_A_PAGE = re.compile(r"^\.Bd -literal.*?\n(.*?)^\.Ed", re.MULTILINE | re.DOTALL)


def blocks():
    """The blocks of commands, each with its document and the number of its first line there."""
    pages = sorted(it for it in (PACKAGING / "man").iterdir() if it.suffix != ".in")
    for file, forms in ((TOP / "docs/ADMIN.md", (FENCED, IN_A_LINE)), (PACKAGING / "debian/boddrelyn.README.Debian", (INDENTED,)),
                        *((page, (OF_A_PAGE,)) for page in pages)):
        text = file.read_text()
        for form in forms:
            for found in form.finditer(text):
                block = re.sub("^    ", "", found[1], flags=re.MULTILINE) if form is INDENTED else found[1].replace("\\e\n", "\\\n")
                yield str(file.relative_to(TOP)), text.count("\n", 0, found.start(1)) + 1, block


class Links:
    def __init__(self, root, tell):
        self.root, self.tell = root, tell

    def run(self):
        self.must(f"""
            tar -C / -cf {SAVED} {' '.join(it[1:] for it in PLACES)}
            mkdir -p {STUBS}
            for it in apt apt-get systemctl; do printf '#!/bin/sh\\n' > {STUBS}/$it; chmod 755 {STUBS}/$it; done""")
        printed = list(blocks())
        self.tell("links: blocks of ADMIN, README.Debian and the manual pages", len({it[0] for it in printed}) >= 3)
        for document, number, text in [*printed, *(("a script", 1, it) for it in SCRIPTS)]:
            first = next(it for it in text.splitlines() if it)
            found = [it for kind in KINDS for it in self.changed(kind, text)]
            self.tell(f"links: {document}:{number}: {first[:80]}", found, [])
        for text in BAD:
            self.tell(f"links: it would be found: {text}", any(self.changed(kind, text) for kind in KINDS))
        self.must(f"rm -rf {LEFT} {' '.join(PLACES)} {OUTSIDE} {WORK} {STUBS}; tar -C / -xpf {SAVED}; rm {SAVED}")

    def must(self, script):
        return self.root.must("sh", "-eu", "-c", script)

    def plant(self, target, text):
        names = sorted(NAMES | set(re.findall(r"[\w.-]*\w", text)))
        self.must(f"""
            rm -rf {' '.join(PLACES)} {OUTSIDE} {WORK}
            umask 077
            mkdir -p {OUTSIDE}/folder {WORK}
            echo '{SECRET}' > {OUTSIDE}/file
            tar -C / -xpf {SAVED} etc/boddrelyn
            cp {CONFIGURATION} {WORK}
            tar -C / -xpOf {SAVED} var/lib/boddrelyn/journal > {WORK}/journal
            for folder in {' '.join(FOLDERS)}; do
                install -d -o boddrelyn -g boddrelyn -m 700 $folder
                for name in {' '.join(names)}; do ln -s {OUTSIDE}/{target} $folder/$name; done
                chown -h boddrelyn:boddrelyn $folder/*
            done""")

    def changed(self, kind, text):
        """What the commands changed outside, and where they brought what is there, if links of this kind stand there."""
        self.plant(KINDS[kind], text)
        before = self.outside()
        words = ["chroot", self.root.folder, "timeout", "-k", "1", str(SECONDS), "sh", "-c", f"cd {WORK}; {text}"]
        process = subprocess.Popen(words, stdin=subprocess.DEVNULL, stdout=subprocess.DEVNULL, stderr=subprocess.DEVNULL,
                                   env={"PATH": f"{STUBS}:{PATH}", "LC_ALL": "C.UTF-8", "HOME": "/root"}, start_new_session=True)
        process.wait(2 * SECONDS)
        with contextlib.suppress(ProcessLookupError):
            os.killpg(process.pid, signal.SIGKILL)
        changed = sorted(set(before) ^ set(self.outside()))
        brought = self.root.run("grep", "-rlsF", SECRET, *PLACES, WORK, "/tmp").stdout.split()
        return [f"{kind}: {it}" for it in changed + brought]

    def outside(self):
        """Each file there with mode, owner, number of names, size and time, and the sum of the one that has bytes."""
        found = self.root.must("find", OUTSIDE, "-printf", "%M %u:%g %n %s %T@ %p\\n")
        return [*found.splitlines(), self.root.must("sha256sum", f"{OUTSIDE}/file")]
