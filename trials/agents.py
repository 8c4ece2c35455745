"""Tries wrong bodies of the agents, which are in C: a case of tests.kdc has to fail over each of trials/agent/*.edit.

An edit begins with a line `test: PART CASE KDC`: a part of tests.kdc, one of its tests without `test_` (`-` for all of them),
and at which KDC it has to fail, `mit`, `heimdal` or `both`. Then `guards:` says what it guards, `file:` names a file of agent/,
`old:` a text that stands in it once, and `new:` what replaces it; more pairs may follow. Each edit is made in a copy of agent/,
harness/ and tests/, where the agent is built and the case is run. The same cases have to pass with the agents as they are, or
nothing is known of an edit. A line is printed for each edit and KDC, with the first line that failed.
"""

import concurrent.futures
import dataclasses
import pathlib
import re
import shutil
import signal
import subprocess
import sys
import tempfile
import threading

from harness.command import TOP, Parser

FOLDER = TOP / "trials/agent"
KINDS = {"mit": ["mit"], "heimdal": ["heimdal"], "both": ["mit", "heimdal"]}
# seconds that a case may take, on whatever machine
PATIENCE = 300


@dataclasses.dataclass(frozen=True)
class Try:
    """A case at a KDC."""

    part: str
    case: str
    kind: str

    def words(self):
        words = [sys.executable, "-m", "tests.kdc", "--only", self.kind, "--part", self.part, "--program", "/bin/true"]
        return words if self.case == "-" else [*words, "-k", f"*.test_{self.case}"]

    def __str__(self):
        return f"{self.part} {self.case}, {self.kind}"


class Bad(Exception):
    """An edit that can't be tried."""


def parts_of(path):
    """The cases that an edit names, and its changes: file, old text, new text."""
    head, *lines = path.read_text(encoding="utf-8").splitlines()
    found = re.fullmatch(r"test: (\w+) (\w+|-) (mit|heimdal|both)", head)
    if not found:
        raise Bad("its first line isn't `test: PART CASE KDC`")
    tries = [Try(found[1], found[2], kind) for kind in KINDS[found[3]]]
    changes, file, old = [], None, None
    for line in lines:
        word, _, text = line.partition(" ")
        if word == "file:":
            file = text
        elif word == "old:":
            old = text
        elif word == "new:" and file and old:
            changes.append((file, old, text))
            old = None
        elif word != "guards:":
            raise Bad(f"what is {line!r}?")
    if not changes:
        raise Bad("it has no 'old:' and 'new:' pair")
    return tries, changes


def apply(changes, top):
    for name, old, new in changes:
        path = top / "agent" / name
        if not path.is_file():
            raise Bad(f"there is no file {name}")
        text = path.read_text(encoding="utf-8")
        if text.count(old) != 1:
            raise Bad(f"an 'old:' text is in {name} {text.count(old)} times, and not once")
        path.write_text(text.replace(old, new), encoding="utf-8")


def failures(one, changes=()):
    """The lines of the case that failed, over the agent with these changes."""
    with tempfile.TemporaryDirectory(prefix="trials-") as folder:
        top = pathlib.Path(folder)
        for it in ("agent", "harness", "tests"):
            shutil.copytree(TOP / it, top / it, ignore=shutil.ignore_patterns("out", "__pycache__"))
        apply(changes, top)
        out, told = outcome(one.words(), top)
    if "make: ***" in told:
        raise Bad("it doesn't compile: " + next((it for it in told.splitlines() if "error" in it), told[-200:]))
    if not re.search("^(ok|FAILED): ", out, re.M):
        raise Bad(f"no case was run: {(out + told).strip()[-300:]}")
    return re.findall("^FAILED: .*$", out, re.M)


def outcome(command, top):
    """What it prints in that folder, and tells on standard error. One that doesn't end in time is interrupted, so that it ends
    what it has started."""
    with subprocess.Popen(command, cwd=top, stdin=subprocess.DEVNULL, stdout=subprocess.PIPE, stderr=subprocess.PIPE, text=True,
                          errors="replace") as running:
        try:
            return running.communicate(timeout=PATIENCE)
        except subprocess.TimeoutExpired:
            running.send_signal(signal.SIGINT)
            running.communicate()
            raise


class AsTheyAre:
    """What a case says of the agents without an edit, which is found out once."""

    def __init__(self, one):
        self.one, self.lock, self.found = one, threading.Lock(), None

    def failures(self):
        with self.lock:
            if self.found is None:
                self.found = failures(self.one)
            return self.found


def verdict(one, changes, right):
    """Whether the case notices these changes, and not without them; and what to say."""
    try:
        failed = failures(one, changes)
        if not failed:
            return False, "NOT CAUGHT"
        before = right.failures()
        return not before, f"NOT KNOWN, since it fails as it is: {before[0]}" if before else f"caught: {failed[0]}"
    except Bad as bad:
        return False, f"BAD EDIT: {bad}"
    except subprocess.TimeoutExpired:
        return False, f"NOT KNOWN: it hasn't ended within {PATIENCE} seconds"


def begin(pool, paths):
    """Of each edit the tries that have begun, each with its KDC."""
    edits = {path: parts_of(path) for path in paths}
    right = {one: AsTheyAre(one) for tries, _ in edits.values() for one in tries}
    return {path: {one: pool.submit(verdict, one, changes, right[one]) for one in tries} for path, (tries, changes) in edits.items()}


def tell(begun):
    """Prints each verdict, and gives how many edits were caught and how many not."""
    good = 0
    for path, tries in begun.items():
        found = {one: result.result() for one, result in tries.items()}
        for one, (_, told) in found.items():
            print(f"{path.stem}, {one.kind}: {told[:300]}", flush=True)
        good += all(is_caught for is_caught, _ in found.values())
    return good, len(begun) - good


def chosen(names, parser):
    paths = {path.stem: path for path in sorted(FOLDER.glob("*.edit"))}
    if unknown := set(names) - paths.keys():
        parser.error(f"no edit {' '.join(sorted(unknown))}")
    return [paths[name] for name in names or paths]


def main():
    parser = Parser(__doc__, "N caught, M not", "M isn't 0")
    parser.add_argument("name", nargs="*", metavar="EDIT", help="these edits alone, by their names")
    parser.add_argument("--jobs", type=int, default=2, metavar="N", help="so many side by side, by default 2")
    words = parser.parse_args()
    with concurrent.futures.ThreadPoolExecutor(words.jobs) as pool:
        try:
            caught, others = tell(begin(pool, chosen(words.name, parser)))
        except Bad as bad:
            parser.error(str(bad))
        except KeyboardInterrupt:
            pool.shutdown(wait=False, cancel_futures=True)
            raise
    print(f"{caught} caught, {others} not")
    return others > 0


if __name__ == "__main__":
    sys.exit(main())
