"""Other projects' own tests and clients, of Debian's packages, at the service beside an MIT KDC.

    samba      samba.tests.krb5.kpasswd_tests, unchanged (suites/samba_kpasswd.py says what stands in for an Active Directory)
    python     python3-kerberos: kerberos.changePassword
    proxy      MIT's kpasswd and kinit through python3-kdcproxy over HTTPS
    wireshark  what tshark makes of requests and replies

They run in a Debian of their own, with the packages that packaging.deb makes of the program, in namespaces of their own, so that
no port of the machine is used. A test passes if it differs from what its suite expects in just what suites/expected says, with the
reason; a difference that is gone is a failure, too. Not run, since Debian has them as sources alone: MIT's t_changepw.py and
t_proxy.py, Heimdal's check-kpasswdd, pam-krb5's tests; impacket's kpasswd, which Debian's version lacks. tests.kdc has gokrb5, pam-krb5's
module and sssd.

It needs root, mmdebstrap, gcc, make and dpkg-dev. The root is kept in BODDRELYN_ROOTS, as tests.packages does; the first run fetches
some 300 MB.
"""

import os
import pathlib
import re
import shutil
import subprocess
import sys
import tempfile
import time

from harness.command import TOP, Parser
from harness.realm import FETCH, packages_folder
from tests.packages import mit, namespaces, root

SUITES = {"samba": "samba_kpasswd.py", "python": "python_kerberos.py", "proxy": "kdc_proxy.py", "wireshark": "dissected.py"}
FOLDER = pathlib.Path(__file__).with_name("suites")
INSIDE, KIND = "BODDRELYN_PEERS_INSIDE", "peers"
# seconds that a suite may take
PATIENCE = 600
# commands that make the service run there, as README.Debian has them
START = """
umask 077
cd /root
cp /usr/share/doc/boddrelyn/examples/head.toml realm.toml
kadmin.local ktadd -k service.keytab -norandkey kadmin/changepw
chpw_server import --keytab service.keytab --realm EXAMPLE.COM >> realm.toml
install -o root -g boddrelyn -m 640 realm.toml /etc/boddrelyn/
runuser -u boddrelyn -- chpw_server new-journal --config /etc/boddrelyn/realm.toml --journal /var/lib/boddrelyn/journal \
    --resume /var/lib/boddrelyn/resume
sed -i 's/^OPTIONS=/&--listen 127.0.0.1 --listen ::1 /' /etc/default/boddrelyn
sed -i 's/^REALM=.*/REALM=EXAMPLE.COM/' /etc/default/boddrelyn-agent-mit
systemctl start boddrelyn-agent-mit boddrelyn
"""


class Expected:
    """The lines of suites/expected: of which suite and tests, what is noted, and why that is right."""

    def __init__(self):
        self.rows = []
        for line in (FOLDER / "expected").read_text().splitlines():
            if line and not line.startswith("#"):
                place, _, why = line.partition(" -- ")
                self.rows.append((*place.split(": ", 2), why))

    def of(self, suite, test):
        return [(note, why) for of_suite, tests, note, why in self.rows if of_suite == suite and re.fullmatch(tests, test)]


class Report:
    passed = failed = 0

    def __init__(self):
        self.expected = Expected()

    def tell(self, suite, test, notes):
        known = self.expected.of(suite, test)
        unknown = [it for it in notes if not any(re.fullmatch(note, it) for note, _ in known)]
        gone = [note for note, _ in known if not any(re.fullmatch(note, it) for it in notes)]
        if unknown or gone:
            self.failed += 1
            print(f"FAILED: {suite}: {test}: " + "; ".join(unknown + [f"no longer: {it}" for it in gone]), flush=True)
        else:
            self.passed += 1
            why = "; ".join(dict.fromkeys(why for _, why in known))
            print(f"ok: {suite}: {test}" + (f": differs as expected: {why}" if why else ""), flush=True)


def tests(text):
    """Each test that a suite told, with its notes."""
    found = []
    for line in text.splitlines():
        if line.startswith("test "):
            found.append((line[5:], []))
        elif line.startswith("note ") and found:
            found[-1][1].append(line[5:])
    return found


def run_suite(where, suite, report):
    script = f"/opt/peers/{SUITES[suite]}"
    try:
        done = subprocess.run(["chroot", where.folder, "env", "LC_ALL=C.UTF-8", "HOME=/root", "PYTHONDONTWRITEBYTECODE=1",
                               "PATH=/usr/sbin:/usr/bin:/sbin:/bin", "python3", script], stdin=subprocess.DEVNULL, text=True,
                              stdout=subprocess.PIPE, stderr=subprocess.PIPE, timeout=PATIENCE, check=False)
    except subprocess.TimeoutExpired:
        report.tell(suite, "its end", [f"none within {PATIENCE} seconds"])
        return
    for name, notes in tests(done.stdout):
        report.tell(suite, name, notes)
    last = (done.stderr.strip().splitlines() or ["-"])[-1]
    report.tell(suite, "its end", [f"status {done.returncode}: {last}"] if done.returncode else [])


def packed(program):
    """The packages of the program, for tests."""
    folder = pathlib.Path(tempfile.mkdtemp(prefix="boddrelyn-peers-"))
    words = ["--out", folder, "--program", program, "--unproved", "--only", "boddrelyn", "--only", "boddrelyn-agent-mit"]
    subprocess.run([sys.executable, "-m", "packaging.deb", *words], cwd=TOP, stdout=subprocess.DEVNULL, check=True)
    return folder


def run(options, report):
    debs = packed(options.program)
    with root.Root(KIND, options.keep) as where:
        place = where.path("/opt/peers")
        shutil.copytree(FOLDER, place)
        for file in debs.iterdir():
            shutil.copy(file, place)
        realm = mit.Realm(where)
        realm.make()
        realm.give_up_port(lambda *_: None)
        where.must("sh", "-c", "dpkg -i /opt/peers/*.deb")
        where.must("sh", "-eu", "-c", START)
        service = where.unit("boddrelyn")
        if not service.says("listening on 127.0.0.1:464"):
            sys.exit(f"the service doesn't start: {service.output.read_text()}")
        time.sleep(1)
        for suite in options.suites or SUITES:
            run_suite(where, suite, report)
    shutil.rmtree(debs)


def main():
    parser = Parser(__doc__, "N passed, M failed", "any failed")
    parser.add_program("--program")
    parser.add_keep()
    parser.add_argument("suites", nargs="*", metavar="SUITE", help=f"these alone: {', '.join(SUITES)}")
    options = parser.parse_args()
    if not set(options.suites) <= SUITES.keys():
        parser.error("a suite is one of " + ", ".join(SUITES))
    if os.geteuid() != 0:
        sys.exit("it needs root")
    if INSIDE not in os.environ:
        root.archive(KIND)
        # inside there is no network to fetch the agent's headers from
        subprocess.run([FETCH, packages_folder()], check=True)
        namespaces.enter(INSIDE)
    namespaces.loopback_up()
    report = Report()
    run(options, report)
    print(f"{report.passed} passed, {report.failed} failed")
    return 1 if report.failed else 0


if __name__ == "__main__":
    sys.exit(main())
