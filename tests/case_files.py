"""Cases that stand in files of `tests/hostile/cases`: `NAME.cases`, and in `NAME.answers` what the program has to say to each.

A case is a line, and its answer the same line of the other file; or it is a block, whose first line begins with `== `, a kind and
a title, and its answer is the block of that title there. A line that is empty or begins with `#` is no case.
"""

import dataclasses
import itertools
import pathlib
import shutil
import subprocess
from concurrent.futures import ThreadPoolExecutor

from harness.cases import Case
from harness.command import TOP
from tests.model.changed_bytes import census

FOLDER = TOP / "tests/hostile/cases"
# The cases of one line, as each prefix of a journal, are run by so many threads.
THREADS = 4


def text_of(name):
    return (FOLDER / name).read_text(encoding="utf-8").removesuffix("\n")


def is_case(line):
    return line != "" and not line.startswith("#")


def lines_of(name):
    """Each case that is a line, with its answer."""
    pairs = zip(text_of(f"{name}.cases").split("\n"), text_of(f"{name}.answers").split("\n"), strict=True)
    return [pair for pair in pairs if is_case(pair[0])]


@dataclasses.dataclass
class Block:
    kind: str
    title: str
    body: str
    answer: str


def parts_of(name):
    """The first line of each block, and the text below it."""
    for part in f"\n{text_of(name)}".split("\n== ")[1:]:
        title, _, body = part.partition("\n")
        yield title, body


def blocks_of(name):
    for (title, body), (other, answer) in zip(parts_of(f"{name}.cases"), parts_of(f"{name}.answers"), strict=True):
        if title != other:
            raise ValueError(f"{name}.answers has {other} and not {title}")
        yield Block(title.split(" ")[0], title, body, answer)


def expanded(text):
    """`N * TEXT` is that text N times; `;` is a newline."""
    count, star, rest = text.partition(" * ")
    return (rest * int(count) if star and count.isdigit() else text).replace(";", "\n")


def edited(base, edits):
    """A text with edits, `OLD -> NEW` with ` | ` between."""
    for edit in edits.split(" | "):
        old, arrow, new = edit.partition(" -> ")
        if arrow:
            base = base.replace(old.replace(";", "\n"), expanded(new))
    return base


class FileCase(Case):
    """A case that runs the program once for each of many cases of a file."""

    def setUp(self):
        super().setUp()
        self.numbers = itertools.count()

    def ran(self, words, files, script=b"", env=None):
        """The program in a folder with these files: standard output, the lines on standard error, and its status."""
        folder = pathlib.Path(self.folder, str(next(self.numbers)))
        folder.mkdir()
        for name, octets in files.items():
            (folder / name).write_bytes(octets)
        done = subprocess.run([self.program, *words], input=script, capture_output=True, timeout=120, cwd=folder, env=env)
        shutil.rmtree(folder)
        return done.stdout.decode(), done.stderr.decode().splitlines(), done.returncode

    def census(self, answer, cases):
        """The answers to these cases, each after its count and its places."""
        with ThreadPoolExecutor(THREADS) as threads:
            return census(threads.map(answer, cases))

    def tell_same(self, what, found, wanted):
        """A check of a text of many lines: of a wrong one its first line that isn't as it should be."""
        if found == wanted:
            self.tell(what, "as the file of answers says", "as the file of answers says")
            return
        pairs = itertools.zip_longest(found.split("\n"), wanted.split("\n"))
        self.tell(what, *next(pair for pair in pairs if pair[0] != pair[1]))
