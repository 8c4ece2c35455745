"""Runs the scripts of this folder one after the other, as the gate does: what is made to happen to the program that it built.
Each answers --help. Needs gcc.
"""

import ast
import pathlib
import re
import subprocess
import sys
import textwrap

from harness.command import TOP, Parser
from tests.hostile import SCRIPTS


def sentence(name):
    """The first sentence of what a script says of itself."""
    words = ast.get_docstring(ast.parse(pathlib.Path(__file__).with_name(f"{name}.py").read_text()))
    first = " ".join(words.partition("\n\n")[0].split())
    return re.split(r"(?<=[a-z`)])\. (?=[A-Z`])", first)[0].rstrip(".")


def listed():
    """The scripts, each with what it tries."""
    indent = " " * (max(map(len, SCRIPTS)) + 4)
    return "\n".join(textwrap.fill(f"{name:<{len(indent) - 4}}  {sentence(name)}", 124, initial_indent="  ", subsequent_indent=indent)
                     for name in SCRIPTS)


def main():
    last = "cases N failed M, that of the last script; it ends after the first one that fails"
    Parser(f"{__doc__}\n{listed()}\n", last).parse_args()
    for name in SCRIPTS:
        status = subprocess.run([sys.executable, "-m", f"tests.hostile.{name}"], cwd=TOP, check=False).returncode
        if status:
            return status
    return 0


if __name__ == "__main__":
    sys.exit(main())
