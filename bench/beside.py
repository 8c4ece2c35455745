"""The service beside MIT's kadmind and Heimdal's kpasswdd, on one machine and in turn (harness/three_servers.py).

Each client changes the passwords of many users in turn, as a realm does, in version 0x0001, over a new connection each time, or
over UDP where the server has no TCP: a server that keeps each user's former keys would otherwise have few users with ever
more of them. No two clients have a user in common. The requests are made before the clock starts.
"""

import concurrent.futures
import dataclasses
import os
import pathlib
import re
import shutil
import signal
import statistics
import subprocess
import tempfile
import time

from bench.besiegers import Besiegers, Silent, Slow, raise_files
from harness import crafting, three_servers

# seconds that a client waits for an answer where nobody is hostile
LONG = 30
TICKS = os.sysconf("SC_CLK_TCK")


@dataclasses.dataclass(frozen=True)
class Sizes:
    """How much is measured."""

    clients: tuple = (1, 2, 4, 8, 16)
    rounds: int = 3
    users: int = 1_000
    # changes of all clients in a round, and of a cost
    changes: int = 512
    hostile: tuple = (0, 100, 500, 1_000, 2_000)
    # changes of the honest client beside them
    honest: int = 100


QUICK = Sizes(clients=(1, 2), rounds=1, users=8, changes=8, hostile=(0, 20), honest=4)


class Client:
    """Makes requests of its users in turn that no server has seen."""

    made = 0

    def __init__(self, server, users):
        self.server = server
        self.users = [it.encode() for it in users]

    def drafts(self, count):
        found = []
        for _ in range(count):
            Client.made += 1
            draft = crafting.Draft(
                client=self.users[Client.made % len(self.users)], cusec=Client.made % 1_000_000, now=int(time.time()), service=three_servers.SERVICE_KEYS,
                kvno=three_servers.KVNO, version=1, password=b"Bench-pass%d" % Client.made)
            found.append((draft, draft.message()))
        return found

    def ask(self, drafts, patience=LONG):
        """The seconds of each answer, and the answers."""
        times, answers = [], []
        for _, message in drafts:
            begun = time.monotonic()
            if self.server.tcp:
                answers.append(crafting.over_tcp(self.server.tcp, message, seconds=patience))
            else:
                answers.append(crafting.over_udp(self.server.udp, message, patience))
            times.append(time.monotonic() - begun)
        return times, answers


def made(drafts, answers):
    """Of each request, whether it was a change."""
    return [crafting.told(draft, answer) == "code 0" for (draft, _), answer in zip(drafts, answers)]


def users_of(sizes):
    return [f"user{number:04}" for number in range(sizes.users)]


def rate(server, sizes, clients, count):
    """Changes a second by so many clients, of that many changes in all."""
    users = users_of(sizes)
    clients = [Client(server, users[number::clients]) for number in range(clients)]
    asked = [client.drafts(max(1, count // len(clients))) for client in clients]
    with concurrent.futures.ThreadPoolExecutor(len(clients)) as pool:
        begun = time.monotonic()
        heard = list(pool.map(lambda it: it[0].ask(it[1]), zip(clients, asked)))
        took = time.monotonic() - begun
    wrong = [made(drafts, answers).count(False) for drafts, (_, answers) in zip(asked, heard)]
    if any(wrong):
        raise RuntimeError(f"{sum(wrong)} changes weren't made")
    return sum(map(len, asked)) / took


def rates(servers, sizes, missing):
    """Of each server the best changes a second, by clients."""
    best = {kind: {} for kind in servers}
    for clients in sizes.clients:
        for _ in range(sizes.rounds):
            for kind, server in servers.items():
                what = f"{server.NAME}: changes a second by {clients} clients, of a round"
                found = tried(missing, what, lambda: rate(server, sizes, clients, sizes.changes))
                if found is not None:
                    best[kind][clients] = max(found, best[kind].get(clients, 0))
    return best


def pid_of(server):
    return server.server.process.pid if isinstance(server, three_servers.Ours) else server.processes[-1].pid


def processor(pid):
    """Seconds that it took so far, of its own and of the system's."""
    fields = pathlib.Path(f"/proc/{pid}/stat").read_text().rpartition(")")[2].split()
    return int(fields[11]) / TICKS, int(fields[12]) / TICKS


def cost(server, sizes):
    """Milliseconds of a processor a change, by the program and by the system for it."""
    before = processor(pid_of(server))
    rate(server, sizes, 1, sizes.changes)
    return tuple(1000 * (now - then) / sizes.changes for now, then in zip(processor(pid_of(server)), before))


def calls(server, sizes):
    """System calls a change, as strace counts them."""
    if shutil.which("strace") is None:
        raise RuntimeError("there is no strace")
    with tempfile.TemporaryDirectory() as folder:
        counted = pathlib.Path(folder) / "counted"
        command = ["strace", "-f", "-c", "-o", counted, "-p", str(pid_of(server))]
        tracer = subprocess.Popen(command, stdin=subprocess.DEVNULL, stderr=subprocess.PIPE, text=True)
        try:
            said = tracer.stderr.readline()
            if "attached" not in said:
                raise RuntimeError(f"strace says: {said.strip()}")
            time.sleep(0.5)
            rate(server, sizes, 1, sizes.changes)
        finally:
            tracer.send_signal(signal.SIGINT)
            tracer.communicate()
        [found] = re.findall(r"^100\.00\s.*?\s(\d+)(?:\s+\d+)? total$", counted.read_text(), re.MULTILINE)
    return int(found) / sizes.changes


def waits(server, hostile, sizes):
    """Median and longest milliseconds of an honest client's changes, None if none was made, and how many weren't."""
    client = Client(server, users_of(sizes))
    drafts = client.drafts(sizes.honest)
    besiegers = Besiegers(server.tcp, [(Silent, hostile - hostile // 2, b""), (Slow, hostile // 2, b"")] if hostile else [])
    try:
        besiegers.stand()
        times, answers = client.ask(drafts, crafting.PATIENCE)
    finally:
        besiegers.leave()
    good = made(drafts, answers)
    times = [1000 * seconds for seconds, is_made in zip(times, good) if is_made]
    if times:
        return statistics.median(times), max(times), good.count(False)
    if not hostile:
        raise RuntimeError(f"none of {len(good)} changes was made")
    return None, None, len(good)


def tried(missing, what, work):
    """What the work gives; otherwise None, with the reason under that name. One that can't be had costs no other."""
    try:
        return work()
    except Exception as fault:
        missing[what] = (str(fault) or type(fault).__name__).splitlines()[0]
        return None


def measure(program, kinds, sizes):
    """Rates, costs, calls and waits by server; and the reason of each figure that there isn't."""
    missing, found = {}, {"rates": {}, "cost": {}, "calls": {}, "waits": {}}
    raise_files(2 * max(sizes.hostile) + 500)
    with three_servers.opened(kinds, program, users_of(sizes)) as (servers, reasons):
        missing |= {three_servers.KINDS[kind].NAME: reason for kind, reason in reasons.items()}
        found["rates"] = rates(servers, sizes, missing)
        for kind, server in servers.items():
            name = server.NAME
            found["cost"][kind] = tried(missing, f"{name}: processor", lambda: cost(server, sizes))
            found["calls"][kind] = tried(missing, f"{name}: system calls", lambda: calls(server, sizes))
            if not server.tcp:
                missing[f"{name}: wait beside connections"] = "it has no TCP, and so none"
            for hostile in sizes.hostile if server.tcp else (0,):
                what = f"{name}: wait beside {hostile:,} connections"
                found["waits"][kind, hostile] = tried(missing, what, lambda: waits(server, hostile, sizes))
    return found, missing
