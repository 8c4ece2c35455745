"""The documents of the repository and their parts, and how faults are reported."""

import pathlib
import re
import subprocess

TOP = pathlib.Path(__file__).resolve().parent.parent.parent
FENCE = re.compile(r"^\s*(```+|~~~+)(.*)$")


class Faults:
    """Counts what is checked, and prints a line for each fault."""

    def __init__(self):
        self.checked = self.wrong = 0

    def check(self, holds, place, words):
        self.checked += 1
        if not holds:
            self.wrong += 1
            print(f"{place}: {words}")
        return holds


class Document:
    """A document: its lines, numbered from 1, and which of them are code."""

    def __init__(self, path):
        self.path = path
        self.name = str(path.relative_to(TOP))
        self.text = path.read_text()
        self.lines = self.text.splitlines()
        self.blocks = []  # (number of the first line within, info string, lines)
        self.is_code = [False] * len(self.lines)
        self.mark()

    def mark(self):
        fence = None
        for number, line in enumerate(self.lines):
            match = FENCE.match(line)
            if fence is None and match:
                fence, block = match[1], (number + 2, match[2].strip(), [])
                self.blocks.append(block)
                self.is_code[number] = True
            elif fence is not None:
                self.is_code[number] = True
                if match and match[1] == fence and not match[2].strip():
                    fence = None
                else:
                    block[2].append(line)
            elif line.startswith("    ") and not re.match(r"\s*([-*]|\d+\.)\s", line):
                self.is_code[number] = number == 0 or not self.lines[number - 1].strip() or self.is_code[number - 1]

    def prose(self):
        """The lines that are no code, with their numbers."""
        return ((number + 1, line) for number, line in enumerate(self.lines) if not self.is_code[number])

    def spans(self):
        """What stands in backquotes, with the number of its line."""
        for number, line in self.prose():
            for ticks, span in re.findall(r"(`+)(.+?)\1", line):
                yield number, span.strip()

    def code(self):
        """Spans and lines of code."""
        for _, span in self.spans():
            yield span
        for number, line in enumerate(self.lines):
            if self.is_code[number]:
                yield line.strip()


class Tree:
    """The repository: its documents, its crates, its files."""

    def __init__(self, documents=(), program=None):
        self.program, self.is_whole = program, not documents
        self.documents = [Document(path) for path in (map(self.named, documents) if documents else self.usual())]
        self.crates = sorted(path.name for path in (TOP / "crates").iterdir() if path.is_dir())

    def named(self, name):
        path = pathlib.Path(name).resolve()
        return path if path.is_file() else TOP / name

    def usual(self):
        for name in ("README.md", "CONTRIBUTING.md", "SECURITY.md", "CHANGELOG.md"):
            if (TOP / name).is_file():
                yield TOP / name
        yield from sorted(it for it in (TOP / "docs").rglob("*.md") if it.name != "promises.md")  # that one is made on demand
        yield from sorted((TOP / "crates").glob("*/README.md"))
        yield from sorted(TOP.glob("*/README.md"))

    def document(self, name):
        """A document by its path from the top, or none."""
        found = [it for it in self.documents if it.name == name]
        return found[0] if found else None

    def files(self):
        """The files that git has, or all of them where there is no git."""
        run = subprocess.run(["git", "ls-files"], cwd=TOP, capture_output=True, text=True, check=False)
        names = run.stdout.splitlines()
        if run.returncode or not names:
            names = [str(it.relative_to(TOP)) for it in TOP.rglob("*") if it.is_file() and "/out/" not in str(it)]
        return [TOP / name for name in names if (TOP / name).is_file()]
