"""The README's test command, `bash .ci/run`: every proof and test, and all that looks for what they don't show.

`rt ci` proves and tests each crate; then whether the prover refuses each wrong body of must-fail/ (`trials.run`), what
`tests.hostile` makes happen to the program that was built, the agents at a KDC and stock clients, where Debian's packages
can be had, whether `trials.run` tells a wrong body from a right one, and the documents against the source and the program.
The first step that fails ends it. When all have passed, packaging.gate_record leaves the record by which packaging.deb knows
the program that was proved.

Before each step a line says about how long it takes, and all that is left, by .ci/durations.csv; so does one after each
proof. After a step comes how long it took.
"""

import os
import pathlib
import re
import subprocess
import sys
import tempfile
import time

from harness import durations
from harness.command import PROGRAM, TOP, Parser
from tools.source import crates

DURATIONS = TOP / ".ci/durations.csv"
PYTHON = [sys.executable, "-m"]
OVER_PROGRAM = ["--program", str(PROGRAM.relative_to(TOP))]
STEPS = {
    "rt ci": ["rt", "ci"],
    "trials.run": [*PYTHON, "trials.run", "--gate"],
    "tests.hostile": [*PYTHON, "tests.hostile"],
    # replies may be late by so much where the machine does other work
    "tests.kdc": [*PYTHON, "tests.kdc", "--where-possible", "--later", "1500"],
    "trials.check": [*PYTHON, "trials.check"],
    "tools.check": [*PYTHON, "tools.check", *OVER_PROGRAM],
    "tools.documents": [*PYTHON, "tools.documents", *OVER_PROGRAM],
}
RECORD = [*PYTHON, "packaging.gate_record"]
# the memory that a proof takes at most, in bytes; `rt ci` plans with up to twice of it, so that processors would be idle
PROOF_MEMORY = 5 * 2**30
# what `rt ci` says when a crate is proved, or needs no proof
PROVED = re.compile(r"rt: (\w+) (?:proved|is kept: .*)")


def say(text):
    print(text, flush=True)


def processors():
    return len(os.sched_getaffinity(0))


def environment():
    """The environment of each step. Where there is the memory, it has `rt ci` prove a crate on each processor, with one job each."""
    found = re.search(r"MemAvailable: +(\d+) kB", pathlib.Path("/proc/meminfo").read_text())
    has_room = found and int(found[1]) * 1024 >= PROOF_MEMORY * processors()
    return {"RT_JOBS": str(processors()), **os.environ} if has_room else os.environ


def run(words, hear=None):
    """The status of a command; `hear` gets each line of what it prints, as that is printed."""
    with subprocess.Popen(words, cwd=TOP, env=environment(), stdout=subprocess.PIPE if hear else None) as process:
        try:
            for line in process.stdout or ():
                sys.stdout.buffer.write(line)
                sys.stdout.flush()
                hear(line.decode(errors="replace"))
            return process.wait()
        except KeyboardInterrupt:
            # it is stopped, too, and may have to put something back
            process.communicate()
            raise


class Proofs:
    """Hears what `rt ci` prints, and says after each proof what is left; `last` is its last line."""

    def __init__(self, seconds, later):
        took = durations.of_proofs(crates())
        share = seconds * processors() / sum(took.values())
        self.left = durations.Left({it: share * own for it, own in took.items()}, processors())
        # when the crates began that are being proved: where one ends, another begins
        self.since = [self.left.began] * processors()
        self.later = later
        self.done = set()
        self.last = ""

    def __call__(self, line):
        self.last = line
        found = PROVED.fullmatch(line.rstrip("\n"))
        if found and found[1] in self.left.seconds:
            self.done.add(found[1])
            self.since = [*self.since[1:], time.time()]
            rest = self.left.left(self.done, since=self.since)
            say(f"{len(self.done)} of {len(self.left.seconds)} crates: {found[1]}; {durations.spoken(rest)} left of this step, "
                f"{durations.spoken(rest + self.later)} of all")


def made(steps, expected):
    """Makes the steps one after the other; the last line of `rt ci`, and how long each took. The first that fails ends all."""
    took, last = {}, ""
    for number, (name, words) in enumerate(steps.items(), 1):
        later = sum(expected.get(it, 0) for it in list(steps)[number:])
        own = expected.get(name, 0)
        say(f"step {number} of {len(steps)}: {name}, {durations.spoken(own)}; {durations.spoken(own + later)} left")
        hear = Proofs(own, later) if name == "rt ci" else None
        began = time.time()
        status = run(words, hear)
        took[name] = time.time() - began
        if status:
            sys.exit(status)
        say(f"{name} passed, {took[name] / 60:.1f} minutes")
        last = hear.last if hear else last
    return last, took


def main():
    parser = Parser(__doc__, "that of `rt ci`, N passed, M failed", "a step fails; or the step's own status")
    parser.add_argument("--note", action="store_true", help="write what each step took into .ci/durations.csv, once all have passed")
    given = parser.parse_args()
    sources = subprocess.run([*RECORD, "sources"], cwd=TOP, stdout=subprocess.PIPE, text=True, check=True).stdout.strip()
    last, took = made(STEPS, durations.table(DURATIONS))
    with tempfile.TemporaryDirectory() as folder:
        log = pathlib.Path(folder) / "log"
        log.write_text(last)
        subprocess.run([*RECORD, "write", sources, log], cwd=TOP, check=True)
    if given.note:
        durations.write_table(DURATIONS, "step", took)
    print(last, end="")


if __name__ == "__main__":
    main()
