"""Tries the packages in a clean Debian root: install, first start, changes, upgrade, removal, purge.

Builds the packages by packaging.deb, in revisions 0 and 1, which with --unproved needs no proof, or takes those of --debs, and a
root with a KDC by mmdebstrap from Debian's packages. It installs the former there, or the packages of the version before that --before names, follows
README.Debian, changes passwords by the KDC's own kpasswd and kinit, upgrades over the running service, takes along the files of
a service that ran elsewhere, runs the commands that the documents print for root where the service's user has planted links
(planted_links.py), and removes and purges the packages. No systemd runs: services are started by their ExecStart, with
the unit's user, modes, capabilities, limits and read-only paths (unit.py). With --systemd the packages for MIT are also tried in
a container whose first process is systemd (systemd-nspawn), and in another one each task of docs/ADMIN.md as it is printed.
--tasks runs the latter alone.

Roots are kept in BODDRELYN_ROOTS (boddrelyn-roots in the temporary folder), so that a second run is quick. It needs root, gcc,
make, dpkg-dev, mmdebstrap and Python 3.10 or later, with --systemd systemd-container too, and runs in namespaces of its own, so
that no port of the machine is used.
"""

import os
import pathlib
import shutil
import socket
import subprocess
import sys
import tempfile

from harness.command import TOP, Parser
from harness.realm import FETCH, packages_folder
from tests.checked import Chosen, Counted, add_choice
from tests.packages import namespaces, root
from tests.packages.admin_tasks import Tasks
from tests.packages.container import UnderSystemd
from tests.packages.in_root import InRoot
from tests.packages.steps import HeimdalLife, MitLife

LIVES = {"mit": MitLife, "heimdal": HeimdalLife}
INSIDE = "BODDRELYN_TRY_INSIDE"


def kinds_of(options):
    """The KDCs whose packages are needed."""
    return ("mit",) if options.tasks else options.only or tuple(LIVES)


def tests_of(options):
    """The tests, in their order: the one under systemd compares with what MIT's life leaves."""
    has_mit = "mit" in kinds_of(options)
    tried = [] if options.tasks else [LIVES[kind] for kind in kinds_of(options)]
    tried += [UnderSystemd] if options.systemd and has_mit else []
    return tried + ([Tasks] if options.tasks or options.systemd and has_mit else [])


def packages(options, folder):
    """The folder of the packages, in revisions 0 and 1."""
    if options.debs:
        return options.debs
    words = ["--out", folder, "--revision", "0", "--revision", "1", "--only", "boddrelyn"]
    words += [word for kind in kinds_of(options) for word in ("--only", f"boddrelyn-agent-{kind}")]
    words += ["--program", options.program] if options.program else []
    words += ["--unproved"] if options.unproved else []
    subprocess.run([sys.executable, "-m", "packaging.deb", *words], cwd=TOP, stdout=subprocess.DEVNULL, check=True)
    return folder


def prepare(options):
    """What is fetched, since there is no network inside: Debian's roots, and the agents' headers."""
    try:
        for kind in kinds_of(options):
            root.archive(kind)
        if not options.debs:
            subprocess.run([FETCH, packages_folder()], check=True)
    except (OSError, subprocess.CalledProcessError) as fault:
        sys.exit(f"the packages aren't tried, since no root can be made: {fault}")


def run(options):
    """The status of the tests."""
    result = Counted()
    with tempfile.TemporaryDirectory(prefix="boddrelyn-try-") as folder:
        InRoot.options, InRoot.debs = options, packages(options, pathlib.Path(folder))
        Chosen(options.words).suite(tests_of(options)).run(result)
    return result.status()


def main():
    parser = Parser(__doc__, "N passed, M failed", "anything failed")
    parser.add_program("--program", None, "the program, by default the one that the gate built")
    parser.add_argument("--debs", type=pathlib.Path, metavar="FOLDER", help="the packages, in revisions 0 and 1, in place of a program")
    parser.add_argument("--unproved", action="store_true", help="a program that wasn't proved, too")
    parser.add_argument("--before", type=pathlib.Path, metavar="FOLDER", help="the packages of the version before")
    parser.add_argument("--only", choices=LIVES, action="append", help="beside this KDC alone")
    parser.add_argument("--systemd", action="store_true", help="also under systemd, and the tasks of ADMIN")
    parser.add_argument("--tasks", action="store_true", help="the tasks of ADMIN alone")
    parser.add_argument("--keep", action="store_true", help="leave the roots")
    add_choice(parser)
    options = parser.parse_args()
    if os.geteuid() != 0:
        sys.exit("it needs root")
    if (options.systemd or options.tasks) and shutil.which("systemd-nspawn") is None:
        sys.exit("--systemd and --tasks need systemd-nspawn, of the package systemd-container")
    if INSIDE not in os.environ:
        prepare(options)
        namespaces.enter(INSIDE)
    namespaces.loopback_up()
    socket.sethostname("kdc1.example.com")
    return run(options)


if __name__ == "__main__":
    sys.exit(main())
