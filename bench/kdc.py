"""How long an agent takes to write a key, in a realm of many principals, and changes a second.

Makes the principals in a KDC's database, then asks the agent for all of their keys, and to write one after the other over one
connection, as the service does. Every tenth of them is compared with what the KDC's own tools say. Then a service that knows
none of the principals takes them all, and, when the agent has been away, compares them all; a stranger asks meanwhile, and the
longest of the answers is told. At last changes.py has clients change passwords: at the service with a KDC and without
one, and at MIT's kadmind. It needs the packages that harness/fetch.sh unpacks.
"""

import concurrent.futures
import contextlib
import itertools
import os
import statistics
import subprocess
import sys
import tempfile
import threading
import time
import types

from bench import changes
from harness.asking import Connection, request_now
from harness.command import Parser, itself
from harness.realm import REALM, packages_folder
from tests.kdc import realms
from tests.kdc.agent_process import hexed, talking
from tests.kdc.daemons import comes
from tests.kdc.own_configuration import configured
from tests.kdc.served import Served

# seconds that the principals may take to be made, and to be taken: each wants two syncs
PATIENCE = 600
# of nobody's: each of its requests is decided, and refused
STRANGER = "nobody"
# beside them the realm has these
OTHERS = {"admin", *realms.STRANGERS}
# with those, as many as a table may have
PRINCIPALS = 10_000 - len(OTHERS)
# seconds between two of the stranger's requests
PAUSE = 0.02


def flushes(folder, count=50):
    """Milliseconds that the disk takes for a record that is appended and synced: the median."""
    times = []
    with (folder / "flushed").open("wb", buffering=0) as file:
        for _ in range(count):
            file.write(bytes(66))
            begun = time.monotonic()
            os.fsync(file.fileno())
            times.append(1000 * (time.monotonic() - begun))
    return statistics.median(times)


def fed(command, lines, environment):
    """A command that takes these lines, each without its newline."""
    text = "".join(f"{line}\n" for line in lines)
    subprocess.run(command, input=text, text=True, check=True, env=environment, stdout=subprocess.DEVNULL, timeout=PATIENCE)


def make_mit(realm, names):
    """With keys drawn at random."""
    lines = (f"addprinc -clearpolicy -randkey {name}" for name in names)
    fed([realm.mit.program("kadmin.local")], lines, realm.environment(realm.mit))


def make_heimdal(realm, names):
    """By a dump that is merged: as the admin's entry, under other names and keys."""
    dumped = realm.kadmin("dump", "--decrypt").splitlines()
    [entry] = [line.split(" ") for line in dumped if line.startswith("admin@")]
    lines = []
    for name in names:
        salt = (REALM + name).encode().hex()
        parts = [f"::{etype}:{os.urandom(size).hex()}:3/{salt}" for etype, size in ((18, 32), (17, 16))]
        lines.append(" ".join([f"{name}@{REALM}", f"1{''.join(parts)}", *entry[2:]]))
    fed([realm.heimdal.program("kadmin.heimdal"), "-l", "merge", "/dev/stdin"], lines, realm.environment())


def versions_of(agent, names):
    """Of each name the version and the keys that the KDC has: of etype 17 and of etype 18."""
    found = {}
    for line in agent.listed("list keys"):
        word, name, *rest = line.split()
        if word == "has":
            kvno, aes256, aes128 = rest
            found[bytes.fromhex(name.replace("/", "2f")).decode()] = int(kvno), (bytes.fromhex(aes128), bytes.fromhex(aes256))
    return {name: found[name] for name in names}


def measure(cases, agent, versions, names, count):
    """Milliseconds of each change from the request to its answer."""
    times = []
    for number in range(count):
        name = names[number * 7919 % len(names)]
        kvno = versions[name][0] + 1
        keys = os.urandom(16), os.urandom(32)
        request = f"put {hexed(name)} {kvno} {keys[1].hex()} {keys[0].hex()}"
        begun = time.monotonic()
        answer = agent.ask(request)
        times.append(1000 * (time.monotonic() - begun))
        if answer != f"put {hexed(name)} {kvno}":
            raise RuntimeError(f"the agent answers {answer}")
        versions[name] = kvno, keys
        if number % 10 == 0 and cases.realm.kvno(name) != kvno:
            raise RuntimeError(f"{name} isn't in the database")
        time.sleep(0.02)
    return sorted(times)


def asked(port, over):
    """The longest answer to a request that is refused, in milliseconds: one after the other, until it is over."""
    longest = 0
    for number in itertools.count(1):
        request = request_now(STRANGER, "Pass-1", number, old=True)
        with contextlib.closing(Connection(port)) as connection:
            begun = time.monotonic()
            connection.send(request)
            if connection.reply() is None:
                raise RuntimeError("a request isn't answered")
            longest = max(longest, 1000 * (time.monotonic() - begun))
        if over.wait(PAUSE):
            return longest


def meanwhile(served, is_done, what):
    """Seconds until that is done, and the longest answer meanwhile."""
    over, begun = threading.Event(), time.monotonic()
    with concurrent.futures.ThreadPoolExecutor(1) as pool:
        longest = pool.submit(asked, served.server.port, over)
        try:
            if not comes(is_done, PATIENCE):
                raise RuntimeError(f"{what}: {served.status()}")
            took = time.monotonic() - begun
        finally:
            over.set()
        return f"{took:.1f} s, longest answer meanwhile {longest.result():.0f} ms"


def taken(cases, names):
    """How long a service without a principal takes to have those of the KDC, and to compare them all with it once the agent has been
    away: until it has removed one that was deleted there, which it asks for when it has heard the list to its end."""
    served = Served(cases.realm, cases.program, "taking", changes.WAIT)
    served.configure(configured({}, 3))
    count, gone = str(len(names) + len(OTHERS)), names[-1]
    try:
        served.begin_agent()
        served.start()
        first = meanwhile(served, lambda: served.status().get("principals") == count, "the service lacks principals")
        served.end_agent()
        cases.realm.remove(gone)
        served.begin_agent()
        if not comes(lambda: served.kdc() == "connected", PATIENCE):
            raise RuntimeError(f"the agent isn't found: {served.status()}")
        again = meanwhile(served, lambda: f"removed {gone}" in served.log.read_text(), "both sides aren't compared")
        return first, again
    finally:
        served.end()


def rates(cases, versions, rounds):
    """A line for each number of clients; whether kadmind is no faster."""
    targets = changes.measure(cases, versions, rounds)
    best = {target.name: target.best for target in targets}
    for clients in changes.CLIENTS:
        told = ", ".join(f"{name} {found[clients]:.0f}" for name, found in best.items())
        print(f"{cases.realm.KIND}: changes a second, clients {clients}: {told}", flush=True)
    with_kdc, other = best[changes.WITH_KDC], best.get("kadmind")
    return other is None or all(with_kdc[clients] >= other[clients] for clients in changes.CLIENTS)


def spread(times):
    return f"{statistics.median(times):.1f} ms, {times[len(times) * 99 // 100 - 1]:.1f} ms, {times[-1]:.1f} ms"


def measured(program, kind, principals, count, rounds):
    """Prints the figures of one KDC's agent; whether kadmind is no faster than the service with that KDC."""
    names = [f"client{number:05}" for number in range(principals)]
    with realms.KINDS[kind]({"admin": realms.FIRST}) as realm:
        cases = types.SimpleNamespace(realm=realm, program=program)
        (make_mit if kind == "mit" else make_heimdal)(realm, names)
        with talking(realm) as agent:
            begun = time.monotonic()
            versions = versions_of(agent, names)
            listed = time.monotonic() - begun
            times = measure(cases, agent, versions, names[3 * max(changes.CLIENTS) :], count)
        print(f"{realm.KIND}: {principals} principals, a list of all keys {listed:.1f} s; {count} changes: median, 99th and longest "
              f"from the request to the answer {spread(times)}; a sync of this disk takes {flushes(realm.folder):.1f} ms", flush=True)
        first, again = taken(cases, names)
        print(f"{realm.KIND}: a service that lacks them has them all after {first}; one that has them has compared them all after "
              f"{again}", flush=True)
        # which was removed
        del versions[names[-1]]
        return rates(cases, versions, rounds)


def places():
    """The temporary folder, and one in memory where there is one."""
    return [it for it in (tempfile.gettempdir(), "/dev/shm") if os.access(it, os.W_OK)]


def everywhere():
    """Each KDC in each place, in a process of its own; whether none is wrong."""
    packages, wrong = str(packages_folder()), 0
    for folder in places():
        print(f"in {folder}:", flush=True)
        environment = {**os.environ, "TMPDIR": folder, "CHPW_PACKAGES": packages}
        for kind in realms.KINDS:
            wrong += subprocess.run([*itself(), "--kind", kind], env=environment, check=False).returncode != 0
    return not wrong


def main():
    parser = Parser(__doc__, "changes a second of the last server", "kadmind makes more changes than the service with a KDC")
    parser.add_program()
    parser.add_argument("--kind", choices=realms.KINDS, help="this KDC alone, in the temporary folder alone; by default each of them, on "
                        "the disk of the temporary folder and, where there is one, in memory")
    parser.add_argument("--principals", type=int, default=PRINCIPALS, metavar="N", help=f"by default {PRINCIPALS}")
    parser.add_argument("--count", type=int, default=100, metavar="N", help="keys that are written, by default 100")
    parser.add_argument("--rounds", type=int, default=changes.ROUNDS, metavar="N", help=f"of changes, by default {changes.ROUNDS}")
    words = parser.parse_args()
    if words.kind:
        is_good = measured(words.server, words.kind, words.principals, words.count, words.rounds)
    else:
        is_good = everywhere()
    sys.exit(0 if is_good else 1)


if __name__ == "__main__":
    main()
