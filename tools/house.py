"""Counts what makes the repository hard to take over, each beside its limit.

Words are counted as `wc -w` does, those of a page's code, too. A function's lines are those of its body; in Python they are
all of its lines. Its parameters include `self`. The lines of a crate are those of its sources, without definitions and proofs.
"""

import ast
import re
import signal

from tools.doccheck.tree import TOP, Tree
from tools.source import CRATES, generics_end, head_at
from harness.command import Parser

FUNCTION = re.compile(r"^( *)(?:pub(?:\([a-z]+\))? )?(?:ghost |const |unsafe )*fn \w+", re.MULTILINE)
IN_C = re.compile(r"^(?!typedef|struct|enum|union)\w[\w *]*?\b\w+\(([^;{}]*)\)\n?\s*\{\n(.*?)^\}", re.MULTILINE | re.DOTALL)
SOURCES = {".rt", ".antt", ".py", ".sh", ".c", ".h"}
LONG_FILE, LONG_FUNCTION, PARAMETERS, CRATE_LINES, CRATE_FUNCTIONS = 500, 40, 7, 1500, 100


# ---- files

def is_script(file):
    with open(file, "rb") as opened:
        return opened.read(2) == b"#!"


def is_python(file):
    return file.suffix == ".py" or (not file.suffix and is_script(file) and "python" in file.read_text().split("\n", 1)[0])


def name_of(file):
    return str(file.relative_to(TOP))


# ---- words

def pages(files):
    """The pages that a person is meant to read: all but the list of changes."""
    return [it for it in files if it.suffix == ".md" and it.name not in ("CHANGELOG.md", "promises.md")]


def words(files):
    return [(len(it.read_text().split()), name_of(it)) for it in files]


# ---- functions: of each its place, the lines of its body, and its parameters

def parts(text):
    """What stands between the commas of a list, outside all brackets."""
    found, depth, bare = [""], 0, text.replace("->", "  ")
    for letter in bare:
        depth += {"(": 1, "[": 1, "{": 1, "<": 1, ")": -1, "]": -1, "}": -1, ">": -1}.get(letter, 0)
        if letter == "," and not depth:
            found.append("")
        else:
            found[-1] += letter
    return [it.strip() for it in found if it.strip()]


def parameters(head):
    """The parameters of a function in Rattle, by its head."""
    start = re.search(r"\bfn \w+", head).end()
    start = generics_end(head, start)
    depth = 0
    for end in range(start, len(head)):
        depth += {"(": 1, ")": -1}.get(head[end], 0)
        if not depth:
            return parts(re.sub(r"//.*", "", head[start + 1 : end]))
    return []


def in_rattle(file):
    text = file.read_text()
    for match in FUNCTION.finditer(text):
        head = head_at(text, match.start())
        start = match.start() + len(head)
        start += len(text[start:]) - len(text[start:].lstrip())
        end = text.find(f"\n{match[1]}}}", start)
        lines = text.count("\n", start, end) if text[start : start + 2] not in ("{}", "{ ") and text[start] == "{" else 0
        yield text.count("\n", 0, match.start()) + 1, lines, len(parameters(head))


def in_python(file):
    for it in ast.walk(ast.parse(file.read_text())):
        if isinstance(it, ast.FunctionDef):
            given = it.args
            count = len(given.posonlyargs) + len(given.args) + len(given.kwonlyargs) + bool(given.vararg) + bool(given.kwarg)
            yield it.lineno, it.end_lineno - it.lineno + 1, count


def in_c(file):
    text = file.read_text()
    for match in IN_C.finditer(text):
        given = [it for it in parts(match[1]) if it != "void"]
        yield text.count("\n", 0, match.start()) + 1, match[2].count("\n"), len(given)


def functions(files):
    """The functions of all files: place, lines, parameters."""
    for file in files:
        found = in_rattle if file.suffix == ".rt" else in_c if file.suffix in (".c", ".h") else in_python if is_python(file) else None
        for number, lines, count in found(file) if found else ():
            yield f"{name_of(file)}:{number}", lines, count


# ---- crates

def sizes():
    """The lines and functions of each crate."""
    for folder in sorted(it for it in CRATES.iterdir() if it.is_dir()):
        texts = [it.read_text() for it in (folder / "src").rglob("*.rt")]
        yield folder.name, sum(it.count("\n") for it in texts), sum(len(FUNCTION.findall(it)) for it in texts)


def large_crates():
    for name, lines, count in sizes():
        if lines > CRATE_LINES or count > CRATE_FUNCTIONS:
            yield lines, f"{name}: {count} functions"


# ---- what is counted

def of_words(files):
    """Rows of words: name, count, limit, what is counted."""
    read = pages(files)
    of_crates = [it for it in read if CRATES in it.parents]
    decisions = [it for it in read if TOP / "docs/decisions" in it.parents]
    rows = [("words that a person reads, but CHANGELOG", read, 30000), ("words of README", [TOP / "README.md"], 700),
            ("words of DESIGN", [TOP / "docs/DESIGN.md"], 2500), ("words of the crates' READMEs", of_crates, None),
            ("words of the decisions", decisions, None)]
    for name, chosen, limit in rows:
        counted = words(chosen)
        yield name, sum(count for count, _ in counted), limit, counted


def of_code(files):
    """Rows of files, functions, crates, wrong bodies and lines."""
    code = [it for it in files if it.suffix in SOURCES or (not it.suffix and is_script(it))]
    found = list(functions(code))
    long = [(lines, name_of(it)) for it in code if (lines := it.read_text().count("\n")) > LONG_FILE]
    edits = [it for it in files if it.suffix == ".edit" and it.parts[-2] != "self_test"]
    agents = [it for it in edits if it.parts[-2] == "agent"]
    always = [it for it in edits if TOP / "must-fail" in it.parents]
    paths = [(text.count("sys" + ".path"), name_of(it)) for it in code if is_python(it) and "sys" + ".path" in (text := it.read_text())]
    yield f"files over {LONG_FILE} lines", len(long), 0, long
    for name, chosen in (
        (f"functions over {LONG_FUNCTION} lines", [(lines, place) for place, lines, _ in found if lines > LONG_FUNCTION]),
        (f"functions of {PARAMETERS} parameters or more", [(count, place) for place, _, count in found if count >= PARAMETERS]),
        (f"crates over {CRATE_LINES} lines or {CRATE_FUNCTIONS} functions", list(large_crates())),
    ):
        yield name, len(chosen), 0, chosen
    yield "wrong bodies of must-fail", len(always), None, []
    yield "other wrong bodies of crates", len(edits) - len(agents) - len(always), 400, []
    yield "wrong bodies of the agents", len(agents), None, []
    yield "lines with sys" + ".path", sum(count for count, _ in paths), 0, paths


def is_over(row):
    return row[2] is not None and row[1] > row[2]


def lines(row, is_listed):
    """A row as it is printed, and what it counts, if that is to be listed."""
    name, count, limit, counted = row
    chosen = sorted(counted, reverse=True) if is_listed else []
    return [f"{name:<44}{count:>8}{'' if limit is None else limit:>10}".rstrip(), *(f"    {size:>6}  {place}" for size, place in chosen)]


def main():
    parser = Parser(__doc__, "N counts, M over their limits", "a count can't be had")
    parser.add_argument("--list", action="store_true", help="below each count that is over its limit what was counted, the largest first")
    given = parser.parse_args()
    files = Tree([TOP / "README.md"]).files()
    rows = [*of_words(files), *of_code(files)]
    print(f"{'':<44}{'now':>8}{'at most':>10}")
    for row in rows:
        print("\n".join(lines(row, given.list and is_over(row))))
    print(f"{len(rows)} counts, {sum(map(is_over, rows))} over their limits")


if __name__ == "__main__":
    # whoever reads the first lines alone ends it, and sees nothing of that
    signal.signal(signal.SIGPIPE, signal.SIG_DFL)
    main()
