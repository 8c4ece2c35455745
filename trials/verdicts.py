"""Which edits were refused, or caught by a test: when, and over which texts."""
import datetime
import fcntl
import hashlib
import os
import re
import shutil
import subprocess
from typing import NamedTuple


def files_of(folder):
    """A crate's files that a check, or a run of its cases, reads, in order."""
    parts = (os.walk(f"{folder}/{part}") for part in ("src", "specs", "proofs"))
    cases = [f"{folder}/{name}" for name in ("stdin", "stdout") if os.path.exists(f"{folder}/{name}")]
    return sorted([f"{at}/{name}" for part in parts for at, _, names in part for name in names] + cases)


# What a script uses: names of a module or of a package, or a C source beside it.
USED = re.compile(r"^from ([\w.]+) import (.+)$|\b(\w+\.c)\b", re.M)


def paths_of(folder, package, names, source):
    """The files that these words of a script in that folder may be: a module, modules of a package, or a C source."""
    if source:
        return [f"{folder}/{source}"]
    place = package.replace(".", "/")
    return [f"{place}.py", *(f"{place}/{name.split(' ')[0]}.py" for name in names.split(", "))]


def used_by(script, top):
    """The file of a script, named as a module, and all files of the repository that it uses, in order."""
    found, left = set(), [f"{script.replace('.', '/')}.py"]
    while left:
        path = left.pop()
        found.add(path)
        with open(f"{top}/{path}", encoding="utf-8") as file:
            used = [it for words in USED.findall(file.read()) for it in paths_of(os.path.dirname(path), *words)]
        left += [it for it in used if os.path.exists(f"{top}/{it}") and it not in found]
    return sorted(found)


class Verdict(NamedTuple):
    """The sum of all that a verdict stands on, its day, and the seconds of a processor that it took, if they are known."""
    sum: str
    day: str
    seconds: int | None

    def text(self):
        return f"{self.sum} {self.day} {'-' if self.seconds is None else self.seconds}"


def read_verdict(text):
    found, day, seconds = text.split()
    return Verdict(found, day, None if seconds == "-" else int(seconds))


def change_in(edit):
    """What an edit changes, and the test that it names: all its lines but the one that says what it guards."""
    with open(edit, "rb") as file:
        return b"".join(it for it in file if not it.startswith(b"guards: "))


class Verdicts:
    """A file with a line for each edit that was refused or caught: its path and its verdict."""

    def __init__(self, path, top, all_below):
        self.path, self.top, self.all_below = path, top, all_below
        self.sums = {}
        self.kit = subprocess.run([shutil.which("rt"), "version"], check=True, capture_output=True).stdout
        self.lines = self.read()

    def read(self):
        """The lines of the file."""
        if not os.path.exists(self.path):
            return {}
        with open(self.path, encoding="utf-8") as file:
            return {edit: read_verdict(rest) for edit, rest in (line.split(" ", 1) for line in file)}

    def crate_sum(self, name):
        """The sum of a crate's own files."""
        if name not in self.sums:
            found = hashlib.sha256()
            for path in files_of(f"{self.top}/crates/{name}"):
                with open(path, "rb") as file:
                    text = file.read()
                found.update(f"{os.path.relpath(path, self.top)} {len(text)}\n".encode() + text)
            self.sums[name] = found.hexdigest()
        return self.sums[name]

    def sum_of(self, edit, crate, script=None):
        """The sum of an edit, the crate that was checked or tested over it, all below that, a script with what it uses, and
        the toolchain."""
        found = hashlib.sha256(self.kit + change_in(f"{self.top}/trials/{edit}"))
        for path in used_by(script, self.top) if script else []:
            with open(f"{self.top}/{path}", "rb") as file:
                found.update(file.read())
        self.add_crates(found, crate)
        return found.hexdigest()[:32]

    def add_crates(self, found, crate):
        """Adds the sums of a crate and of all below it to another sum."""
        for it in sorted(self.all_below(crate) | {crate}):
            found.update(f"{it} {self.crate_sum(it)}\n".encode())

    def has(self, edit, crate, script=None):
        """Whether this edit was refused or caught over the texts as they stand."""
        return edit in self.lines and self.lines[edit].sum == self.sum_of(edit, crate, script)

    def forget(self):
        """All are to be tried again."""
        self.lines = {}

    def note(self, edit, is_good, crate, script=None, seconds=None):
        """Writes down what came of an edit, in so many seconds of a processor, beside what another run wrote meanwhile."""
        with open(f"{self.path}.lock", "w", encoding="utf-8") as lock:
            fcntl.flock(lock, fcntl.LOCK_EX)
            lines = self.read()
            lines.pop(edit, None)
            if is_good:
                lines[edit] = Verdict(self.sum_of(edit, crate, script), str(datetime.date.today()), seconds)
            there = sorted(it for it in lines.items() if os.path.exists(f"{self.top}/trials/{it[0]}"))
            with open(f"{self.path}.new", "w", encoding="utf-8") as file:
                file.writelines(f"{it} {found.text()}\n" for it, found in there)
            os.replace(f"{self.path}.new", self.path)
