"""Numbers of what is in the tree: crates, edits, tests, cases, samples; and that docs/TESTS.md has the programs of these."""

import re

from harness.topic import lines_of, parts_of

from .tree import TOP

CRATES = TOP / "crates"
# The cases of scripts, and the script that runs a file of another name than its own.
FILES = TOP / "tests/hostile/cases"
SCRIPTS = {"journals": "tables"}


def crates():
    return sum(1 for it in CRATES.iterdir() if it.is_dir())


def edits(folder):
    """Those of crates: the agents aren't one."""
    return sum(1 for it in (TOP / folder).glob("*/*.edit") if it.parent.name not in ("self_test", "agent"))


def must_fail():
    return edits("must-fail")


def refused():
    """The wrong bodies of trials/ that the prover has to refuse."""
    return edits("trials")


def caught():
    """The wrong bodies of trials/ that a test has to catch."""
    return len(list((TOP / "trials").glob("*/tests/*.edit")))


def caught_by_scripts():
    """Those of them that name a script of tests.hostile."""
    found = (it.read_text().splitlines()[0] for it in (TOP / "trials").glob("*/tests/*.edit"))
    return sum(1 for it in found if it.startswith("test: tests.hostile."))


def of_agents():
    """The wrong bodies of the agents in C."""
    return len(list((TOP / "trials/agent").glob("*.edit")))


def lines(crate, topic=""):
    """The lines of `stdin` below a topic's heading; without a name, those before the first heading."""
    return lines_of((CRATES / crate / "stdin").read_text(), topic)


def cases(crate, topic=""):
    """The lines that aren't empty and don't begin with `#`."""
    return sum(1 for line in lines(crate, topic) if line.strip() and not line.startswith("#"))


def beginning(word):
    """Counts the lines of a topic that begin with a word."""
    return lambda crate, topic: sum(1 for line in lines(crate, topic) if line.startswith(f"{word} "))


def in_file(name, begins=""):
    """The cases of a script's file, or its lines that begin so."""
    lines = (FILES / f"{name}.cases").read_text().split("\n")
    return sum(1 for line in lines if line.strip() and not line.startswith("#") and line.startswith(begins))


def samples():
    return len(list((TOP / "samples/drill").glob("*.script")))


def answering():
    """The programs that answer cases on standard input, each with its topics; without a name, where it has none."""
    names = (it.parent.name for it in CRATES.glob("*/stdout") if (it.parent / "stdin").is_file())
    for name in names:
        if re.fullmatch(r"\w+_(cases|vectors)|cases_\w+", name):
            topics = parts_of((CRATES / name / "stdin").read_text())
            yield from ((name, topic) for topic in topics if topic or len(topics) == 1)


def check_whole(document, faults):
    """No program of cases is left out."""
    if document is None:
        return
    wanted = [f"| `{name}`: {topic} | " if topic else f"| `{name}` | " for name, topic in answering()]
    wanted += [f"| `tests.hostile.{SCRIPTS.get(it.stem, it.stem)}`: {it.stem} | " for it in FILES.glob("*.cases")]
    for row in wanted:
        faults.check(f"\n{row}" in document.text, document.name, f"no row {row.strip('| (')}")


def of(count, *words):
    """A counter that has nothing to take out of the document."""
    return lambda _: count(*words)


def of_topic(count):
    """A counter of what a program has of a topic."""
    return lambda it: count(it["name"], it["topic"])


# a program of cases and one of its topics, as docs/TESTS.md names them
TOPIC = r"\| `(?P<name>\w+)`: (?P<topic>\w+)"
# a script and one of its files of cases
SCRIPT = r"\| `tests\.hostile\.\w+`: (?P<file>\w+)"

# Of each document an expression and what counts the number that it finds under `n`. `name` is a crate's name, where the
# expression has one, and `topic` one of its topics. An expression that finds nothing in its document is a fault, so that no
# row is left without use.
TABLE = [
    ("docs/TESTS.md", rf"^{TOPIC} \| (?P<n>\d+) \|", of_topic(cases)),
    ("docs/TESTS.md", rf"^{SCRIPT} \| (?P<n>\d+) \|", lambda it: in_file(it["file"])),
    ("docs/TESTS.md", rf"^{SCRIPT} \| (?P<n>\d+) blocks \|", lambda it: in_file(it["file"], "== ")),
    ("docs/TESTS.md", rf"^{TOPIC} \| (?P<n>\d+), in \d+ scripts \|", of_topic(cases)),
    ("docs/TESTS.md", rf"^{TOPIC} \| \d+, in (?P<n>\d+) scripts \|", of_topic(beginning("start"))),
    ("docs/TESTS.md", rf"^{TOPIC} \| (?P<n>\d+) blocks \|", of_topic(beginning("=="))),
    ("docs/TESTS.md", r"`must-fail/` has (?P<n>\d+)", of(must_fail)),
    ("docs/TESTS.md", r"`trials/` has (?P<n>\d+)", of(refused)),
    ("docs/TESTS.md", r"(?P<n>\d+) wrong bodies that no clause", of(caught)),
    ("docs/TESTS.md", r"(?P<n>\d+) of them name a script of `tests.hostile`", of(caught_by_scripts)),
    ("docs/TESTS.md", r"(?P<n>\d+) wrong bodies of the agents", of(of_agents)),
    ("docs/TESTS.md", r"(?P<n>\d+) scripts of the drill", of(samples)),
    ("CONTRIBUTING.md", r"(?P<n>\d+) crates", of(crates)),
    ("trials/README.md", r"`must-fail/CRATE/` has (?P<n>\d+) ", of(must_fail)),
]


def check(tree, faults):
    check_whole(tree.document("docs/TESTS.md"), faults)
    for name, expression, count in TABLE:
        document = tree.document(name)
        if document is None:
            continue
        text = document.text
        found = list(re.finditer(expression, text, re.MULTILINE))
        faults.check(found, name, f"nothing matches {expression}: change the table in tools/doccheck/counts.py")
        for match in found:
            place = f"{name}:{text.count(chr(10), 0, match.start()) + 1}"
            stated = int(match["n"].replace(",", ""))
            try:
                right = count(match.groupdict())
            except FileNotFoundError as fault:
                faults.check(False, place, f"no {fault.filename} to count in")
                continue
            faults.check(stated == right, place, f"{stated} stands there, and there are {right}: {match[0]}")
