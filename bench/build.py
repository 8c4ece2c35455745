"""Builds a crate's program, unless it is newer than all sources that it stands on, as it is once the gate has run.

What is built is proved first (`./prove`), and run once on the crate's stored input; how that run ends doesn't matter.
"""
import subprocess
import sys

from harness.command import TOP, Parser
from tools.source import CRATES, crates

USES = crates()


def with_all_below(name):
    return {name}.union(*map(with_all_below, USES[name]))


def is_current(program, name):
    """Whether the program is there, and newer than each source of its crate and of those below it."""
    if not program.exists():
        return False
    folders = [CRATES / it / part for it in with_all_below(name) for part in ("src", "specs", "proofs")]
    files = [it for folder in folders for it in folder.rglob("*") if it.is_file()]
    return max(it.stat().st_mtime for it in files) < program.stat().st_mtime


def build(crate):
    """What was said of it."""
    words = (crate / "args").read_text().split() if (crate / "args").exists() else []
    with open(crate / "stdin", encoding="utf-8") as given:
        ran = subprocess.run([TOP / "prove", crate.name, *words], stdin=given, stdout=subprocess.PIPE,
                             stderr=subprocess.STDOUT, text=True)
    return ran.stdout


def built(name):
    """A crate's program, which is built first if it isn't newer than its sources; where it can't be, all ends."""
    program = CRATES / name / "out" / name
    if not is_current(program, name):
        said = build(CRATES / name)
        if not is_current(program, name):
            sys.exit(said)
    return program


def main():
    parser = Parser(__doc__, None, "it can't be built")
    parser.add_argument("crate", metavar="CRATE", choices=[it for it in USES if (CRATES / it / "src/main.rt").exists()],
                        help="a crate with a program")
    built(parser.parse_args().crate)


if __name__ == "__main__":
    main()
