"""Tries the agents, and the service with them, at a real KDC of MIT Kerberos and at one of Heimdal, on loopback.

Prints a line for each check, `ok: ..` or `FAILED: ..`. The two KDCs are tried side by side unless one is named. Where the
packages can't be had, a line says so. README.md has what the parts try.
"""

import re
import shutil
import subprocess
import sys
import tempfile

from harness.command import Parser, itself
from harness.realm import FETCH, packages_folder
from tests.checked import Chosen, Counted, add_choice
from tests.kdc import realms
from tests.kdc.agent_changes import AgentChanges
from tests.kdc.agent_disk import AgentDisk
from tests.kdc.agent_elsewhere import AgentElsewhere
from tests.kdc.agent_entries import HeimdalEntries, MitEntries
from tests.kdc.agent_faults import AgentFaults
from tests.kdc.agent_machine import AgentMachine
from tests.kdc.agent_oddities import HeimdalOddities, MitOddities
from tests.kdc.agent_requests import AgentRequests
from tests.kdc.agent_socket import AgentSocket
from tests.kdc.at_kdc import AtKdc
from tests.kdc.client_cases import ClientCases
from tests.kdc.death_cases import DeathCases
from tests.kdc.elsewhere_cases import ElsewhereCases
from tests.kdc.fault_cases import FaultCases
from tests.kdc.gokrb5_cases import Gokrb5Cases
from tests.kdc.kadmind_cases import KadmindCases
from tests.kdc.ldap_agent import LdapAgent
from tests.kdc.ldap_service import LdapService
from tests.kdc.realm_cases import RealmCases
from tests.kdc.replica_cases import ReplicaCases
from tests.kdc.service_cases import PASSWORDS, ServiceCases
from tests.kdc.storm_cases import StormCases

PARTS = {
    "deaths": [DeathCases], "kadmind": [KadmindCases], "replicas": [ReplicaCases], "service": [ServiceCases],
    "realm": [RealmCases], "clients": [ClientCases], "elsewhere": [ElsewhereCases], "faults": [FaultCases], "storm": [StormCases],
    "gokrb5": [Gokrb5Cases], "ldap": [LdapAgent, LdapService],
    "agent": [AgentRequests, AgentSocket, AgentMachine, AgentDisk, MitEntries, HeimdalEntries, MitOddities, HeimdalOddities,
              AgentChanges, AgentElsewhere, AgentFaults],
}
# the others run where none is named
ONLY_NAMED = {"gokrb5", "ldap", "agent"}
# what a part needs besides
MORE = {part: realms.HERE / part / "fetch.sh" for part in ("gokrb5", "ldap")}
# seconds that the packages may take
PATIENCE = 300


class OfKdc(Chosen):
    """The tests that are for a kind of KDC."""

    def __init__(self, kind, words):
        super().__init__(words)
        self.kind = kind

    def getTestCaseNames(self, case):
        return [name for name in super().getTestCaseNames(case) if self.is_for(case) and self.is_for(getattr(case, name))]

    def is_for(self, it):
        return getattr(it, "KIND", self.kind) == self.kind


def is_possible(parts):
    """Whether the compiler is there, and Debian's packages are or can be had."""
    lacking = [tool for tool in ("gcc", "make") if shutil.which(tool) is None]
    if lacking:
        print(f"the KDCs aren't tried, since there is no {' and no '.join(lacking)}")
        return False
    for fetch in [FETCH, *[MORE[part] for part in parts if part in MORE]]:
        if (why := fetched(fetch)) is not None:
            print(f"the KDCs aren't tried, since the packages can't be had: {why}")
            return False
    return True


def fetched(fetch):
    """Why that script couldn't unpack what it does, or None."""
    try:
        done = subprocess.run([fetch, packages_folder()], capture_output=True, text=True, timeout=PATIENCE)
    except (OSError, subprocess.TimeoutExpired) as fault:
        return str(fault)
    if done.returncode == 0:
        return None
    return (done.stderr.strip().splitlines() or ["no reason is told"])[0]


def chosen(options):
    """The parts that are named; where names of tests are given, those that have such; and else all that want nothing more."""
    if options.part:
        return options.part
    if options.words:
        return [part for part, kinds in PARTS.items() if Chosen(options.words).suite(kinds).countTestCases()]
    return [part for part in PARTS if part not in ONLY_NAMED]


def run(options, parts):
    """The status of the tests at the KDC that is named."""
    result = Counted()
    with realms.KINDS[options.only](PASSWORDS, options.keep) as realm:
        AtKdc.realm, AtKdc.program, AtKdc.options = realm, options.program, options
        for part in (it for it in PARTS if it in parts):
            print(f"-- {realm.KIND}: {part}", flush=True)
            OfKdc(realm.KIND, options.words).suite(PARTS[part]).run(result)
    return result.status()


def side_by_side():
    """Each KDC in a process of its own; what each prints stands together, and the last line counts both."""
    running = []
    for kind in realms.KINDS:
        out = tempfile.TemporaryFile("w+")
        running.append((subprocess.Popen([*itself(), "--only", kind], stdout=out, stderr=subprocess.STDOUT), out))
    passed = failed = 0
    for process, out in running:
        status = process.wait()
        out.seek(0)
        *lines, last = out.read().splitlines() or [""]
        found = re.fullmatch(r"(\d+) passed, (\d+) failed", last)
        if found is None:
            print(*lines, last, f"FAILED: it ended with status {status}", sep="\n", flush=True)
            failed += 1
        else:
            print(*lines, sep="\n", flush=True)
            passed, failed = passed + int(found[1]), failed + int(found[2])
    print(f"{passed} passed, {failed} failed")
    return 1 if failed else 0


def main():
    parser = Parser(__doc__, "N passed, M failed", "anything failed, or the packages can't be had")
    parser.add_program("--program")
    parser.add_argument("--only", choices=realms.KINDS, help="this KDC alone")
    parser.add_argument("--part", choices=PARTS, action="append",
                        help="this part alone, may be repeated; by default all but gokrb5, which needs a Go compiler, ldap, "
                             "which needs a directory server, and agent")
    add_choice(parser)
    parser.add_argument("--rounds", type=int, default=2, metavar="N",
                        help="how often service, clients and gokrb5 try each case, by default 2")
    parser.add_argument("--changes", type=int, default=320, metavar="N",
                        help="about how many passwords faults changes, by default 320")
    parser.add_argument("--later", type=int, default=100, metavar="MILLISECONDS",
                        help="by how much a reply may be late in faults, by default 100; more on a machine that others use")
    parser.add_argument("--storm", type=int, default=1000, metavar="N",
                        help="how many passwords storm changes, by default 1000")
    parser.add_argument("--seed", type=int, metavar="N",
                        help="what storm draws its moments from, by default another one each time; it is printed")
    parser.add_argument("--keep", action="store_true", help="leave the realms' folders")
    parser.add_argument("--where-possible", action="store_true", help="status 0 where the packages can't be had")
    options = parser.parse_args()
    parts = chosen(options)
    if not parts:
        parser.error(f"no test has {' or '.join(options.words)} in its name")
    if not is_possible(parts):
        return 0 if options.where_possible else 1
    return run(options, parts) if options.only else side_by_side()


if __name__ == "__main__":
    sys.exit(main())
