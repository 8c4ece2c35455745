"""The measurements of bench/ that all.py runs as they are: the words of each, in full and in small, and its figures.

A figure is a line that a script prints on standard output and that has a digit, but for a limit's `ok`. What the pictures
need of them is read from these lines.
"""

import dataclasses
import os
import re
import signal
import subprocess
import sys

from harness.command import TOP
from harness.realm import packages_folder

# seconds that one may take
PATIENCE, QUICK_PATIENCE = 3_600, 180


@dataclasses.dataclass(frozen=True)
class Script:
    words: tuple
    # in place of the words after the first, where one round in small is enough
    quick: tuple
    what: str
    needs_packages: bool = False
    # in place of the temporary folder
    folder: str | None = None

    @property
    def where(self):
        """On what the files are."""
        return "in memory" if self.folder else "on the disk"

    def command(self, program, is_quick):
        words = [it.format(program=program) for it in (self.words[0], *(self.quick if is_quick else self.words[1:]))]
        return [sys.executable, "-m", f"bench.{words[0]}", *words[1:]]

    def told(self, is_quick):
        """The command as a reader would type it, without the program's path."""
        words = [it for it in (self.words[0], *(self.quick if is_quick else self.words[1:])) if it not in OF_THE_PROGRAM]
        where = [f"TMPDIR={self.folder}"] if self.folder else []
        return " ".join([*where, f"python3 -m bench.{words[0]}", *words[1:]])


OF_THE_PROGRAM = "--server", "{program}"
MEMORY = "/dev/shm"


def kdcs():
    """On the disk of the temporary folder, and in memory."""
    for folder in None, MEMORY:
        for kind, name in ("mit", "MIT"), ("heimdal", "Heimdal"):
            yield Script(("kdc", *OF_THE_PROGRAM, "--kind", kind),
                         (*OF_THE_PROGRAM, "--kind", kind, "--principals", "100", "--count", "5", "--rounds", "1"),
                         f"time to {name}'s KDC", True, folder)


SCRIPTS = (
    Script(("keys",), ("1",), "keys and the cipher, beside OpenSSL; the last line is an iteration's time over OpenSSL's"),
    Script(("der",), ("1",), "an AP-REQ as DER, megabytes a second"),
    Script(("open",), ("1",), "an AP-REQ and its KRB-PRIV opened"),
    Script(("stream",), ("1",), "a change from memory to memory without its keys' derivation, by principals; at last of 100"),
    Script(("lookup",), ("1",), "lookups by one worker, by each of four, and beside a held lock; at last of 16 principals"),
    Script(("drill",), ("2000",), "decisions, by events"),
    Script(("restore",), ("1000", "100"), "a journal restored"),
    Script(("table",), ("3000", "100"), "`table` of a long journal"),
    Script(("serve",), ("1", "20"), "changes a second, each client over one connection: one client and worker, four of each"),
    Script(("replays",), ("500",), "replays refused"),
    Script(("sync", *OF_THE_PROGRAM), (*OF_THE_PROGRAM, "--count", "3", "--changers", "1"), "a slow sync"),
    Script(("reload", *OF_THE_PROGRAM), (*OF_THE_PROGRAM, "--principals", "100", "--reloads", "2"), "a reload"),
    Script(("siege", *OF_THE_PROGRAM), (*OF_THE_PROGRAM, *"--requests 20 --flooded 3 --silent 50 --flood 5 --seconds 2 2 6 8".split()),
           "hostile clients"),
    *kdcs(),
)


def figures(script, program, is_quick):
    """The lines with figures, and None; or those before it failed, and the reason."""
    environment = {**os.environ, "PYTHONDONTWRITEBYTECODE": "1"}
    if script.folder:
        environment["TMPDIR"] = script.folder
        # which the packages are not in
        environment["CHPW_PACKAGES"] = str(packages_folder())
    with subprocess.Popen(script.command(program, is_quick), stdin=subprocess.DEVNULL, stdout=subprocess.PIPE,
                          stderr=subprocess.PIPE, text=True, env=environment, cwd=TOP, start_new_session=True) as process:
        patience = QUICK_PATIENCE if is_quick else PATIENCE
        try:
            out, errors = process.communicate(timeout=patience)
            without = "a limit is passed" if process.returncode == 1 else f"status {process.returncode}"
            reason = (errors.strip().splitlines() or [without])[-1]
        except subprocess.TimeoutExpired:
            out, reason = ended(process), f"it took more than {patience} seconds"
        except BaseException:
            ended(process)
            raise
    lines = [line.strip() for line in out.splitlines() if re.search(r"\d", line) and not line.startswith("ok: ")]
    return lines, None if process.returncode == 0 and lines else reason


def ended(process):
    """What it printed; an interrupt, which a shell's command gets too, lets it end what it started."""
    os.killpg(process.pid, signal.SIGINT)
    try:
        return process.communicate(timeout=60)[0]
    except subprocess.TimeoutExpired:
        os.killpg(process.pid, signal.SIGKILL)
        return process.communicate()[0]


def by_principals(lines):
    """Microseconds of a change from memory to memory, by principals: stream.py, whose last line is of 100."""
    found = [(int(count), float(micros)) for count, micros in re.findall(r"of (\d+) principals (\d+) us", "\n".join(lines))]
    return found + [(100, float(it)) for it in re.findall(r"answered (\d+) us", "\n".join(lines))]


def by_events(lines):
    """Microseconds of a decision, by decisions: drill.py."""
    found = re.findall(r"(\d+) requests over \d+ principals in ([\d.]+) s", "\n".join(lines))
    return [(int(count), float(seconds) * 1e6 / int(count)) for count, seconds in found]


def to_the_kdc(lines):
    """Median and 99th milliseconds from the request to the answer: kdc.py."""
    found = re.search(r"from the request to the answer ([\d.]+) ms, ([\d.]+) ms", "\n".join(lines))
    return {"median": float(found[1]), "99 of 100": float(found[2])} if found else {}
