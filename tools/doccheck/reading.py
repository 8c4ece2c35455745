"""How much there is to read for a contract, where a document says so, is what the command before it prints."""

import functools
import re
import subprocess
import sys

from .tree import TOP

COMMAND = re.compile(r"tools\.believe ([a-z-](?:[\w:+-]+ ?)+)")
COUNT = re.compile(r"\d[\d,]* lines in \d[\d,]* definitions")


@functools.lru_cache(None)
def counted(words):
    """The last line of the command."""
    run = subprocess.run([sys.executable, "-m", "tools.believe", *words.split()], cwd=TOP, capture_output=True, text=True, check=False)
    return (run.stdout.splitlines() or [run.stderr.strip()])[-1]


def check(tree, faults):
    for document in tree.documents:
        commands = list(COMMAND.finditer(document.text))
        for count in COUNT.finditer(document.text):
            place = f"{document.name}:{document.text.count(chr(10), 0, count.start()) + 1}"
            before = [it for it in commands if it.start() < count.start()]
            if faults.check(before, place, f"no tools.believe stands before {count[0]}"):
                right = counted(before[-1][1])
                faults.check(count[0].replace(",", "") == right, place, f"{count[0]} stands there, and it prints {right}")
