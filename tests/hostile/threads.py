"""`serve` where the system starts no thread for it, or too few.

Runs `serve` with sixteen workers as a user who may have so many threads and no more, from one (its own) to sixteen, and
once where its memory leaves no room for a thread's stack. Each time it has to say `memory` and end with status 1 by itself.
Only root can become another user; without that the runs with few threads are left out, and a line says so.
"""

import os
import resource
import socket
import subprocess

from harness.cases import Case, add, main
from harness.command import TOP
from harness.server import private

NOBODY = 65534
WORKERS = 16
SECONDS = 20


def free_port():
    with socket.create_server(("127.0.0.1", 0)) as it:
        return it.getsockname()[1]


def with_threads(count):
    """To be done in the new process: it has so many threads at the most."""
    def become():
        os.setgid(NOBODY)
        os.setuid(NOBODY)
        resource.setrlimit(resource.RLIMIT_NPROC, (count, count))
    return become


def with_memory(kilobytes):
    return lambda: resource.setrlimit(resource.RLIMIT_AS, (kilobytes << 10, kilobytes << 10))


def ends(program, folder, limit):
    """What `serve` says on standard error, and its status; or that it doesn't end."""
    for name, content in (("realm.toml", (TOP / "samples/realm.toml").read_bytes()), ("seed", bytes(32))):
        private(folder / name).write_bytes(content)
        if os.getuid() == 0:
            os.chown(folder / name, NOBODY, NOBODY)
    words = ["--config", "realm.toml", "--journal", "journal", "--seed", "seed", "--port", str(free_port())]
    words += ["--workers", str(WORKERS), "--connections", "1"]
    try:
        done = subprocess.run(
            [program, "serve", *words], cwd=folder, preexec_fn=limit, capture_output=True, text=True, timeout=SECONDS)
    except subprocess.TimeoutExpired:
        return "it doesn't end"
    return f"{done.stderr.strip()} (status {done.returncode})"


class Threads(Case):
    def setUp(self):
        super().setUp()
        self.copy = self.folder / "chpw_server"
        self.copy.write_bytes(self.program.read_bytes())
        for it in (self.folder, self.copy):
            it.chmod(0o777)

    def test_memory_for_no_thread(self):
        self.tell(self.name, ends(self.copy, self.folder, with_memory(6_000)), "memory (status 1)")


def with_few(case, count):
    """So many threads, and no more."""
    if os.getuid() != 0:
        case.skipTest(f"{case.name}, since this isn't root")
    case.tell(case.name, ends(case.copy, case.folder, with_threads(count)), "memory (status 1)")


for number in range(1, WORKERS + 1):
    add(Threads, f"{number} threads", with_few, number)


if __name__ == "__main__":
    main(__doc__)
