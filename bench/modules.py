"""Which modules of a crate's proof take how long, from nothing and with one processor.

The prover makes modules of each function and checks them one after the other. `Lts` has each step of the function (a call, a copy,
a drop, a branch), with all of its locals and loans, so it costs about the square of the function's length. Where it is dear, the
function mostly keeps a large value while it makes many calls, returns early often, or has calls in several arms of a `match`:
part it, and lend the value. Measure again, since a function more costs about a second. What owns memory is best made last, since
each way out after it has to let it go.

`Proof` has the goals. Where it is dear, the definitions that the contract names mostly open further than the function needs. One
that another function computes is `unfoldable` in place of an `abbrev`, and opened there alone: by `unfolding` in that function's
`tactic`, and below the signature of a lemma about it (chpw_commands).

A module's file is written once it is checked, so the time between two files is that of the later one. The libraries below the
crate have to be proved in this checkout, as by `./prove CRATE`; its own proof is made in a temporary folder, and nothing is kept.
"""

import collections
import os
import pathlib
import subprocess
import sys
import tempfile
import time

from harness.command import TOP, Parser
from tools.source import CRATES, crates


def kit():
    """The toolchain's folder."""
    page = subprocess.run(["rt", "doc"], stdout=subprocess.PIPE, text=True, check=True).stdout.strip()
    return pathlib.Path(page).parent


def all_below(name, uses):
    """The repository's libraries below a crate, direct or not."""
    return set(uses[name]).union(*(all_below(it, uses) for it in uses[name]))


def used(name):
    """All libraries that a crate uses itself, those of the toolchain, too."""
    lines = (line.split("#")[0] for line in (TOP / "crates.txt").read_text().splitlines())
    return next(line.partition(":")[2].split() for line in lines if line.partition(":")[0].strip() == name)


def library(name):
    return CRATES / name / "out/rlib" / f"{name}.rlib"


def command(name, below, folder):
    """The prover's command line for a crate; what is checked is written into the folder."""
    tools = kit()
    root = "src/lib.rt" if (CRATES / name / "src/lib.rt").is_file() else "src/main.rt"
    libraries = {it: library(it) if it in below else tools / "rlibs" / f"{it}.rlib" for it in ["std", *used(name)]}
    folders = [tools / "rlibs", *(library(it).parent for it in sorted(below))]
    return [tools / "bin/rattle", "check", "--crate-name", name, root,
            *(word for it, path in libraries.items() for word in ("--extern", f"{it}={path}")),
            *(word for it in folders for word in ("-L", f"dependency={it}")),
            "--antt-project", tools / "rattle/logic/antt-project.json", "--logic-built", tools / "logic_built",
            "--jobs", "1", "--incremental", folder]


def seconds(folder, began):
    """The modules whose files stand in the folder, each with how long it took, the longest first."""
    files = sorted((os.stat(path).st_mtime, path.name) for path in pathlib.Path(folder).rglob("*") if path.is_file())
    found, last = collections.Counter(), began
    for ended, name in files:
        found[name.removeprefix("Rattle-").removesuffix(".oantt").removesuffix(".decls")] += ended - last
        last = ended
    return found.most_common()


def kinds(found):
    """How long the modules of each kind took together, the longest first: the last word of a name."""
    sums = collections.Counter()
    for name, spent in found:
        sums[name.rpartition(".")[2]] += spent
    return sums.most_common()


def main():
    parser = Parser(__doc__, "the prover's verdict, logic=proved ..", "the crate isn't proved")
    parser.add_argument("crate", choices=crates(), metavar="CRATE")
    parser.add_argument("--most", type=int, default=40, metavar="N", help="so many modules, the longest; 40 by default")
    given = parser.parse_args()
    below = all_below(given.crate, crates())
    lacking = [it for it in sorted(below) if not library(it).is_dir()]
    if lacking:
        parser.error(f"not proved here: {' '.join(lacking)}")
    with tempfile.TemporaryDirectory(prefix="modules-") as folder:
        began = time.time()
        done = subprocess.run(command(given.crate, below, folder), cwd=CRATES / given.crate, stdout=subprocess.PIPE,
                              stderr=subprocess.STDOUT, text=True, check=False)
        print(f"{given.crate}: {time.time() - began:.0f} seconds")
        found = seconds(folder, began)
    print(", ".join(f"{kind} {spent:.0f}" for kind, spent in kinds(found)[:8]))
    print("\n".join(f"{spent:6.1f}  {name}" for name, spent in found[: given.most]))
    print(done.stdout.rstrip("\n").rpartition("\n")[2])
    return done.returncode


if __name__ == "__main__":
    sys.exit(main())
