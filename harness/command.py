"""The form of the scripts' command lines: `--help` answers on standard output with status 0, and a word that isn't known
gets a line on standard error and status 2.

What a script does is the text at its head. Its parser adds the use, the options, the last line and the statuses.
"""

import argparse
import os
import pathlib
import sys

TOP = pathlib.Path(__file__).resolve().parent.parent
PROGRAM = TOP / "crates/chpw_server/out/chpw_server"


def module():
    """The module that is run, as `python3 -m` names it; none where a file is run by its path."""
    spec = sys.modules["__main__"].__spec__
    return spec and spec.name.removesuffix(".__main__")


def itself():
    """The command that runs this script once more, with the same words."""
    return [sys.executable, "-m", module(), *sys.argv[1:]]


def name_of_script():
    """The script as a user calls it from the top of the repository."""
    return f"python3 -m {module()}" if module() else pathlib.Path(sys.argv[0]).name


class Parser(argparse.ArgumentParser):
    """The parser of a script with this text at its head and this last line; `wrong` is when its status is 1."""

    # the word of the command line that has to name a program, if one has
    program = None

    def __init__(self, text, last="cases N failed M", wrong="anything failed", **more):
        ends = [f"Last line: {last}."] if last else []
        ends.append(f"Status: 0; 1 if {wrong}; 2 if the command line is wrong.")
        super().__init__(prog=name_of_script(), description=text, epilog="\n".join(ends), allow_abbrev=False,
                         formatter_class=argparse.RawDescriptionHelpFormatter, **more)

    def error(self, message):
        self.exit(2, f"{self.prog}: {message} (--help says more)\n")

    def add_program(self, word="--server", program=PROGRAM, words="the program"):
        """The option that names another built program than the gate's, which has to be there."""
        usual = f", by default {program.relative_to(TOP)}" if program else ""
        option = self.add_argument(word, type=pathlib.Path, default=program, metavar="PROGRAM", help=words + usual)
        self.program = option.dest

    def parse_args(self, *words):
        found = super().parse_args(*words)
        path = self.program and getattr(found, self.program)
        if path:
            setattr(found, self.program, path.resolve())
            if not os.access(path, os.X_OK):
                self.error(f"there is no program {path}")
        return found

    def add_keep(self):
        self.add_argument("--keep", action="store_true", help="leave the folder with the realm's files and logs")
