"""Which functions take how long while others prove them: start it beside `rt ci`, `./prove` or the gate.

It takes nothing from what it watches, since it only lists the files that each prover writes under /tmp as it goes, and ends when
no proof has run for a minute, or at Ctrl-C. A module's file is written once it is checked, so the time between two files is that
of the later one; it is of a clock, and longer the more proofs run beside. A library that was proved before doesn't appear.
"""

import collections
import os
import pathlib
import re
import sys
import tempfile
import time

from bench.modules import kinds
from harness.command import Parser

ROOMS = pathlib.Path(tempfile.gettempdir())
PAUSE, PATIENCE = 10, 60


def crate_of(process):
    """The crate that a process proves, None if it is gone."""
    try:
        words = pathlib.Path(f"/proc/{process}/cmdline").read_text().split("\0")
        return words[words.index("--crate-name") + 1]
    except (OSError, ValueError):
        return None


def listed(room):
    """The files in a folder in the order of their times, each with its time."""
    try:
        with os.scandir(room) as files:
            return sorted((it.stat().st_mtime, it.name) for it in files if it.is_file(follow_symlinks=False))
    except OSError:
        return []


def watch():
    """What each proof has written when it was looked at last: the files by the crate and its process."""
    found, last = {}, time.time()
    try:
        while time.time() - last < PATIENCE or not found:
            for room in ROOMS.glob("rattle-logic-built-locked-*"):
                process = re.search(r"locked-(\d+)-", room.name)[1]
                crate = crate_of(process)
                files = listed(room) if crate else []
                if files:
                    found[crate, process], last = files, time.time()
            time.sleep(PAUSE)
    except KeyboardInterrupt:
        pass
    return found


def modules(files):
    """The modules in the order of their files, each with how long it took."""
    found = collections.Counter()
    for (before, _), (ended, name) in zip(files, files[1:]):
        found[name.removeprefix("Rattle-").removesuffix(".oantt").removesuffix(".decls")] += ended - before
    return found.most_common()


def functions(found):
    """How long the modules of each function took together, the longest first."""
    sums = collections.Counter()
    for name, spent in found:
        sums[name.rpartition(".")[0].replace("-proofs.", ".").replace("-specs.contracts.", ".")] += spent
    return sums.most_common()


def main():
    parser = Parser(__doc__, "the last of the functions", "no proof was seen")
    parser.add_argument("--most", type=int, default=20, metavar="N", help="so many functions of each crate, the longest; 20 by default")
    given = parser.parse_args()
    found = watch()
    for (crate, _), files in sorted(found.items()):
        parts = modules(files)
        print(f"{crate}: {sum(spent for _, spent in parts):.0f} seconds;", ", ".join(f"{kind} {spent:.0f}" for kind, spent in kinds(parts)[:6]))
        print("\n".join(f"{spent:6.1f}  {name}" for name, spent in functions(parts)[: given.most]))
    return not found


if __name__ == "__main__":
    sys.exit(main())
