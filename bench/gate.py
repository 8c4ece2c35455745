"""Processor seconds that the gate's parts take of each crate, from nothing and one after the other.

They are its proof, its tests, and its edits of must-fail/. By default all crates are measured, in the order of crates.txt. The
libraries below them are built first. It works on a copy, and takes hours for all. With --note those of the proofs and tests
are written into docs/results/crates.csv, by which `./prove` and the gate tell how long is left.
"""

import pathlib
import resource
import shutil
import subprocess
import sys
import tempfile

from harness import durations
from harness.command import TOP, Parser
from tools.source import crates

NEEDED = ("crates", "crates.txt", "HANDLES", "prove", "trials", "must-fail", "harness")


def copied(folder):
    """What is needed of the repository, in a repository of its own."""
    for name in NEEDED:
        if (TOP / name).is_dir():
            shutil.copytree(TOP / name, folder / name, ignore=shutil.ignore_patterns("incremental", "__pycache__"))
        else:
            shutil.copy2(TOP / name, folder / name)
    subprocess.run(["git", "init", "--quiet"], cwd=folder, check=True)


def spent(folder, *words):
    """The processor seconds of a command in a folder, and whether it failed; then its output is shown."""
    before = resource.getrusage(resource.RUSAGE_CHILDREN)
    done = subprocess.run(words, cwd=folder, stdout=subprocess.PIPE, stderr=subprocess.STDOUT, text=True, check=False)
    after = resource.getrusage(resource.RUSAGE_CHILDREN)
    if done.returncode:
        print(done.stdout, file=sys.stderr)
    return round(after.ru_utime + after.ru_stime - before.ru_utime - before.ru_stime), done.returncode != 0


def has_tests(crate):
    return any("#[test]" in it.read_text(encoding="utf-8") for it in (crate / "src").rglob("*.rt"))


def tests_of(crate):
    """The seconds of a crate's tests, from nothing; what was proved is put back."""
    kept = crate / "kept"
    (crate / "out").rename(kept)
    found = spent(crate, "rt", "test", "--jobs", "1")
    shutil.rmtree(crate / "out", ignore_errors=True)
    kept.rename(crate / "out")
    return found


def measured(top, name, below):
    """The seconds of a crate's proof, tests and edits, each with whether it failed."""
    crate = top / "crates" / name
    for it in below:
        subprocess.run(["rt", "lib"], cwd=top / "crates" / it, stdout=subprocess.DEVNULL, stderr=subprocess.DEVNULL, check=False)
    shutil.rmtree(crate / "out", ignore_errors=True)
    yield spent(crate, "rt", "lib" if (crate / "src/lib.rt").is_file() else "check", "--jobs", "1")
    yield tests_of(crate) if has_tests(crate) else (0, False)
    shutil.rmtree(crate / "out/incremental", ignore_errors=True)
    if (top / "must-fail" / name).is_dir():
        yield spent(top, sys.executable, "-m", "trials.run", "--in", "must-fail", name)
    else:
        yield 0, False


def row(name, numbers):
    print(f"| {name} | {' | '.join(map(str, numbers))} |", flush=True)


def note(found):
    """Writes these crates' seconds into the table, the most first; what it has of others stays, unless they are gone."""
    known = {it: seconds for it, seconds in durations.table(durations.CRATES).items() if it in crates()} | found
    durations.write_table(durations.CRATES, "crate", dict(sorted(known.items(), key=lambda it: -it[1])))


def main():
    uses = crates()
    parser = Parser(__doc__, "| all | PROOFS | TESTS | EDITS |, after such a row for each crate")
    parser.add_argument("crates", nargs="*", metavar="CRATE", default=list(uses), help="by default all")
    parser.add_argument("--note", action="store_true", help="write the seconds of proofs and tests into docs/results/crates.csv")
    given = parser.parse_args()
    names, total, failed, kept = given.crates, [0, 0, 0], False, {}
    with tempfile.TemporaryDirectory(prefix="gate-") as folder:
        copied(pathlib.Path(folder))
        for name in names:
            found = list(measured(pathlib.Path(folder), name, uses[name]))
            row(name, [seconds for seconds, _ in found])
            kept[name] = found[0][0] + found[1][0]
            total = [one + seconds for one, (seconds, _) in zip(total, found)]
            failed = failed or any(is_wrong for _, is_wrong in found)
    if given.note:
        note(kept)
    row("all", total)
    return 1 if failed else 0


if __name__ == "__main__":
    sys.exit(main())
