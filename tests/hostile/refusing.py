"""Programs that are run with one of their allocations refused (refusing.c), and what a sweep over all of them found."""

import collections
import itertools
import pathlib
import re
import subprocess

SECONDS = 60
# How many allocations a program made, which the library says at its end.
ALLOCATIONS = re.compile(r"^allocations (\d+)\n", re.M)

Run = collections.namedtuple("Run", "status out errors allocations")
# What a sweep is called, how often a refusal fell where, and what went wrong.
Swept = collections.namedtuple("Swept", "name fell faults")


def library(folder):
    """The library that refuses an allocation, made by gcc."""
    made = f"{folder}/refusing.so"
    words = ["gcc", "-std=gnu11", "-O1", "-Wall", "-shared", "-fPIC", "-o", made]
    subprocess.run([*words, pathlib.Path(__file__).with_name("refusing.c")], check=True)
    return made


def ended(status, out, errors):
    """How a run ended: its output, and how many allocations it made, 0 if it doesn't say so."""
    errors = errors.decode(errors="replace")
    counts = [int(it) for it in ALLOCATIONS.findall(errors)]
    return Run(status, out.decode(errors="replace"), ALLOCATIONS.sub("", errors), counts[-1] if counts else 0)


class Refusing:
    """Runs programs in a folder over the library; the number of the allocation that is refused, 0 for none."""

    def __init__(self, made, folder):
        self.made = made
        self.folder = pathlib.Path(folder)

    def environment(self, number):
        return {"LD_PRELOAD": self.made, "REFUSED": str(number)}

    def run(self, words, number, text=""):
        try:
            done = subprocess.run([*map(str, words)], input=text.encode(), capture_output=True, cwd=self.folder,
                                  env=self.environment(number), timeout=SECONDS)
        except subprocess.TimeoutExpired:
            return Run("hangs", "", "", 0)
        return ended(done.returncode, done.stdout, done.stderr)


def refused_runs(run, whole):
    """A run for each allocation, until there is none of that number."""
    for number in itertools.count(1):
        found = run(number)
        if found.status == whole.status and found.allocations < number:
            return
        yield number, found


def sweep(name, run, place, wanted):
    """Runs it once with all memory, and once for each allocation, refused. `place` says where the refusal fell, and what is
    wrong, or nothing; each place that is wanted has to occur."""
    whole = run(0)
    fell, faults = collections.Counter(), []
    if not whole.allocations or place(whole, whole) != ("nowhere", None):
        return Swept(name, fell, [f"with all memory: {whole}"])
    for number, found in refused_runs(run, whole):
        where, fault = place(found, whole)
        fell[where] += 1
        if fault:
            faults.append(f"allocation {number} ({where}): {fault}")
    faults += [f"never {it}" for it in wanted if not fell[it]]
    return Swept(name, fell, faults)


def report(swept):
    counts = ", ".join(f"{where} {swept.fell[where]}" for where in sorted(swept.fell))
    print(f"{swept.name[:60]}: {counts}", flush=True)
    for it in swept.faults:
        print(f"    FAILED {it}", flush=True)
