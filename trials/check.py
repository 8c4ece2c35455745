"""Whether `trials.run` tells an edit that is refused from one that isn't, and whether any edit is bad.

Runs it over the two edits of self_test/chpw_read_fully, which one check tries: one is refused there, and one, which writes a sum
in another way, is refused neither there nor by itself. Compares each verdict, the last line and the status. Within one second
of a processor neither is judged, which fails nothing. It works on a copy, so that the library that the gate proved stays as the
crates above have it. Before that it plants faults in an edit, each of which has to be told, and looks whether any edit that there
is has one: each `old:` text stands in its file exactly once, and the clause that it guards is there. Then it looks which of some
edits are the gate's share, those with the oldest verdicts before those that have none, and whether a share keeps its time.
"""
import concurrent.futures
import pathlib
import re
import shutil
import subprocess
import sys
import tempfile

from harness.command import TOP, Parser
from harness.report import Report
from trials import share, states
from trials.verdicts import Verdict

CRATE = "chpw_read_fully"
# what trials.run needs of it
SCRIPTS = ("__init__", "run", "callees", "caught", "guards", "share", "states", "together", "toolchain", "verdicts")
FILES = ("crates.txt", "HANDLES", "prove", *(f"harness/{it}.py" for it in ("__init__", "command", "durations", "topic")),
         *(f"trials/{it}.py" for it in SCRIPTS))
FOLDERS = (f"crates/{CRATE}", "trials/self_test")


def verdict_on(lines, edit):
    """What is said of an edit, up to its first further mark."""
    label = f"must-fail {CRATE}/{edit}.edit: "
    return [line.removeprefix(label).split(":")[0].split(",")[0] for line in lines if line.startswith(label)]


def runs_in_a_copy(*further):
    """A run with each of these lists of further words, one after the other."""
    with tempfile.TemporaryDirectory(prefix="trials-check-") as folder:
        copy = pathlib.Path(folder) / "top"
        for it in FOLDERS:
            shutil.copytree(TOP / it, copy / it, ignore=shutil.ignore_patterns("out"))
        for it in FILES:
            (copy / it).parent.mkdir(parents=True, exist_ok=True)
            shutil.copy2(TOP / it, copy / it)
        words = [sys.executable, "-m", "trials.run", "--in", copy / "trials/self_test", CRATE]
        runs = [[*words, *more] for more in further]
        return [subprocess.run(it, cwd=copy, stdin=subprocess.DEVNULL, stdout=subprocess.PIPE, text=True) for it in runs]


EDIT = "guards: chpw_read_fully fill bytes: planted\nfile: src/filling.rt\nold: pub fn fill<\nnew: pub fn planted<\n"
# What is changed in that edit, and what is to be said of it then.
PLANTED = (
    ("fn fill<", "fn planted<", "an `old:` text stands 0 times in src/filling.rt"),
    ("pub fn fill<", "reads", r"an `old:` text stands (?![01] )\d+ times in src/filling.rt"),
    ("src/filling.rt", "src/planted.rt", "an `old:` text stands 0 times in src/planted.rt"),
    ("fill bytes", "fill planted", "no clause planted of fill in chpw_read_fully"),
    ("fill bytes", "planted bytes", "no planted in chpw_read_fully"),
    ("fill bytes", "Planted::fill bytes", "no Planted::fill in chpw_read_fully"),
    ("pub fn planted<", "pub fn fill<", "it changes nothing"),
    ("new: ", "new:  planted\nanew: ", "a line that says nothing: anew: pub fn planted<"),
    ("new: ", "old: fn\nnew: ", "a line that says nothing: old: fn"),
    ("new: pub fn planted<\n", "", "a line that says nothing: old: pub fn fill<"),
    ("guards: chpw_read_fully fill bytes: planted\n", "", "no line `guards: CRATE CALL CLAUSE: WORDS`"),
)
# Edits with their days and seconds; the gate's share of them and of `never`, which has no verdict, in 130 seconds, where `known`
# has a verdict of today's sources.
LINES = {"old": ("2026-01-02", 60), "older": ("2026-01-01", None), "long": ("2026-01-03", 80), "known": ("2026-01-01", 1),
         "new": ("2026-01-04", 9)}
SHARE = ["older", "old", "new", "never"]
# Tasks of 100 seconds each, in a share of 315, two at a time: what each may take, and what is said of the one that is left.
TASKS = [(crate, [{"one.edit": None}]) for crate in "abcd"]
ALLOWED = [150, 150, 115]
LEFT = "must-fail d/one.edit: NOT JUDGED: the time of the share is over"


def fault_with(text, planted):
    """What is said of the edit with this text in the place of another."""
    with tempfile.TemporaryDirectory(prefix="trials-check-") as folder:
        edit = pathlib.Path(folder) / "planted.edit"
        edit.write_text(EDIT.replace(text, planted), encoding="utf-8")
        return states.fault_of(edit, TOP / "crates" / CRATE, TOP)


def tell_edits(report):
    """What is said of planted edits, and of all that there are."""
    report.tell("an edit as it should be", fault_with("", ""), None)
    for text, planted, told in PLANTED:
        found = fault_with(text, planted)
        shown = f"{planted or 'nothing'} in place of {text}".replace("\n", " / ")
        report.tell(f"{shown}: {found}", bool(re.fullmatch(told, str(found))), True)
    bad = [it.line() for it in states.all_states(TOP, lambda _: (False, None)) if it.word == "BAD"]
    report.tell("bad edits", bad, [])


def tell_share(report):
    """Which edits are the gate's share, and whether it keeps its time."""
    lines = {edit: Verdict("", day, seconds) for edit, (day, seconds) in LINES.items()}
    report.tell("the share", share.chosen(["never", *lines], lines, lambda it: it == "known", budget=130), SHARE)
    allowed = []

    def submit(task, most):
        allowed.append(most)
        ended = concurrent.futures.Future()
        ended.set_result([(True, task[0], 100)])
        return ended

    told = [verdict for found in share.within(TASKS, submit, 2, budget=315) for verdict in found]
    report.tell("what the tasks of a share may take", allowed, ALLOWED)
    report.tell("a task that is left over", told[-1], (None, LEFT, 0))


def main():
    Parser(__doc__).parse_args()
    report = Report()
    tell_edits(report)
    tell_share(report)
    ran, hurried = runs_in_a_copy([], ["--seconds", "1"])
    lines = ran.stdout.splitlines() or [""]
    report.tell("another meaning", verdict_on(lines, "part_read_told_as_the_whole"), ["refused"])
    report.tell("the same meaning", verdict_on(lines, "sum_written_out"), ["NOT REFUSED"])
    report.tell("the last line", lines[-1], "1 refused, 1 not")
    report.tell("the status", ran.returncode, 1)
    lines = hurried.stdout.splitlines() or [""]
    report.tell("too little time", verdict_on(lines, "part_read_told_as_the_whole"), ["NOT JUDGED"])
    report.tell("the last line then", lines[-1], "0 refused, 0 not, 2 not judged")
    report.tell("the status then", hurried.returncode, 0)
    return report.status()


if __name__ == "__main__":
    sys.exit(main())
