"""Whether `tools.documents` finds faults, `tools.believe` prints what it says, `tools.house` counts, and each script has the
common form.

Plants a fault of each kind in a copy of the repository and runs `tools.documents` there once: each has to be found. Asks
`tools.believe` for contracts, instances of traits and several of them, and for more than is read; and `packaging.gate_record` for
records of programs and sources that were changed. Then asks each script of tools/, trials/, harness/, tests/ and bench/ for
`--help`, which has to be on standard output with status 0, and gives it an option that it doesn't have: that is a line on
standard error and status 2. A line is printed for what isn't so.
"""

import concurrent.futures
import os
import pathlib
import re
import shutil
import signal
import subprocess
import sys
import tempfile

from harness.command import TOP, Parser
from tools.doccheck.tree import Tree

# Scripts that only other scripts call, and folders of those.
INNER = ("tests/kdc/sssd.sh", "tests/clients/suites/")
FOLDERS = ("tools", "trials", "harness", "tests", "bench")
# seconds that an answer may take, on whatever machine
PATIENCE = 300
EVERY_CHECK = ("links", "names", "tables", "prose", "counts", "made", "reading", "lines", "replies", "printed", "rooted", "tasks", "samples", "dates",
               "papers", "versions", "widths", "first")


class Copy:
    """The files of the repository in another folder."""

    def __init__(self, top):
        self.top = pathlib.Path(top)
        for file in Tree(["README.md"]).files():
            place = self.top / file.relative_to(TOP)
            place.parent.mkdir(parents=True, exist_ok=True)
            shutil.copy2(file, place)

    def append(self, name, text):
        file = self.top / name
        file.write_text(f"{file.read_text()}\n{text}\n")

    def change(self, name, expression, change):
        """Changes the first text that matches; what stands there then."""
        file = self.top / name
        text = file.read_text()
        match = re.search(expression, text, re.MULTILINE)
        if match is None:
            raise LookupError(f"nothing in {name} matches {expression}")
        file.write_text(text[: match.start()] + change(match) + text[match.end() :])

    def one_more(self, name, expression):
        """Makes the number `n` that an expression finds one more."""
        self.change(name, expression, lambda it: it[0].replace(it["n"], str(int(it["n"]) + 1), 1))

    def first(self, folder, ending, text):
        """The first file of this ending below a folder of the program's own crates, which has this text."""
        files = sorted(self.top.glob(f"crates/chpw_*/{folder}/**/*{ending}"))
        return str(next(it for it in files if text in it.read_text()).relative_to(self.top))


def row_with(cell, planted):
    """A row of a table, and after it the same with another cell."""

    def changed(match):
        cells = match[0].split("|")
        cells[cell] = f" {planted} "
        return f"{match[0]}\n{'|'.join(cells)}"

    return changed


# A row of a crate's promises, of one call and one clause: promise, call and clause, definition.
ROW = r"^\| [^|`]+ \| `(?P<call>\w+(?:::\w+)?)`: `\w+` \| [^|]+ \|$"


def in_words(copy):
    """Names that don't exist, in a document; each with what is to be said of it."""
    planted = {
        "`chpw_planted`": "no crate and no function chpw_planted",
        "`Table::planted`": "no Table::planted",
        # in two parts, as below, so that it isn't an option of this script
        "`serve --" + "planted`": "no option --" + "planted",
        "`harness/planted.py`": "no file harness/planted.py",
        "`tests.hostile.planted`": "no script tests.hostile.planted",
        "`planted" + "_name`": "no planted" + "_name in any source",
        "chpw_book, `Desk::close` (`legal`, `planted`)": "no clause planted of Desk::close",
        "[chpw_record `Records`, `Planted`]": "no Planted in the definitions of chpw_record",
        "[planted](planted.md)": "no planted.md to link to",
        "[planted](TESTS.md#planted)": "no heading #planted in TESTS.md",
        "Planted on 2026-01-01.": "has a date: 2026-01-01",
    }
    for text, words in planted.items():
        copy.append("docs/DESIGN.md", text)
        yield rf"docs/DESIGN\.md:\d+: {words}"


def in_counts(copy):
    copy.one_more("docs/TESTS.md", r"^\| `\w+`: \w+ \| (?P<n>\d+) \|")
    yield r"docs/TESTS\.md:\d+: \d+ stands there, and there are \d+: \| `\w+`: \w+ \| \d+ \|"
    copy.one_more("trials/README.md", r"has (?P<n>\d+) more")
    yield r"trials/README\.md:\d+: \d+ stands there, and there are \d+: `must-fail/CRATE/` has \d+"
    copy.change("docs/TESTS.md", r"^\| `cases_service`: invocation ", lambda it: "| planted ")
    yield r"docs/TESTS\.md: no row `cases_service`: invocation"
    command = re.search(r"tools\.believe [a-z]\w* [\w:]+", (copy.top / "docs/PROOFS.md").read_text())[0]
    copy.append("docs/PROOFS.md", f"`python3 -m {command}` prints 1 lines in 1 definitions")
    yield r"docs/PROOFS\.md:\d+: 1 lines in 1 definitions stands there, and it prints \d+ lines in \d+ definitions"


def in_tables(copy):
    """A row with a call, a clause or a definition that doesn't exist; and a README without one of its public calls."""
    found = ((file, re.search(ROW, file.read_text(), re.MULTILINE)) for file in sorted(copy.top.glob("crates/*/README.md")))
    (file, row), (other, left_out) = [it for it in found if it[1]][:2]
    name = str(file.relative_to(copy.top))
    for cell, planted, words in (
        (2, "`planted_call`: `value`", "no call planted_call"),
        (2, f"`{row['call']}`: `planted_clause`", f"no clause planted_clause of {row['call']}"),
        (3, "`planted_definition`", "no definition planted_definition"),
    ):
        copy.change(name, ROW, row_with(cell, planted))
        yield rf"{name}:\d+: {words}"
    last = left_out["call"].rpartition("::")[2]
    other.write_text("".join(it for it in other.read_text().splitlines(True) if not re.search(rf"\b{last}\b", it)))
    yield rf"{other.relative_to(copy.top)}: no row or line for {left_out['call']}"


def in_made(copy):
    copy.change("docs/PROOFS.md", r"(<!-- (?:clause|definition) .* -->\n+```\w+\n)", lambda it: it[1] + "-- planted\n")
    yield r"tools.quotes --check: docs/PROOFS\.md: a quote differs"
    copy.change("docs/decisions/torn-tail.md", r"^journal,", lambda _: "keys,")
    yield r"tools.decisions --check: docs/decisions/README\.md differs"
    copy.append("docs/layers.svg", "<!-- planted -->")
    yield r"tools\.picture --check: docs/layers\.svg differs"


def in_sources(copy):
    source = copy.first("src", ".rt", "fmt::Display")
    copy.append(source, 'fn planted() { eprintln!(rt; "a planted line") }')
    yield rf"{source}:\d+: isn't in .*: a planted line"
    script = "harness/serving.py"
    copy.append(script, "# docs/PLANTED says so, and pap" + "er 3")
    yield rf"{script}:\d+: no docs/PLANTED\.md"
    yield rf"{script}:\d+: cites a paper"
    program = "crates/chpw_invocation/src/program.rt"
    copy.change(program, r'LONG_VERSION: &str =\s*"', lambda it: f"{it[0]}9.")
    yield rf"{program}: LONG_VERSION has 9\.\S+, and VERSION is"
    copy.change("README.md", r"`rt version`: `", lambda it: f"{it[0]}planted ")
    yield r"README\.md:\d+: has planted .*, and LONG_VERSION has"
    proof = copy.first("proofs", ".antt", "")
    copy.append(proof, f"-- {'planted ' * 20}")
    yield rf"{proof}:\d+: has 163 characters"


def in_first_lines(copy):
    """First lines of another form, with another layer, a caller too many, one too few, and where a crate has callers."""
    for crate, expression, planted, words in (
        ("chpw_rules", r"\A//! Layer: ", "//! Planted: ", r"isn't //! Layer: "),
        ("krb_aes", r"\A//! Layer: [^.]+", "//! Layer: planted", "has the layer planted, and crates.txt has standards and codecs"),
        ("krb_keytab", r"chpw_import\.$", "chpw_import and krb_aes.", "is called by krb_aes, which doesn't use it"),
        ("krb_keys", r"chpw_table and others above\.$", "chpw_table.", "doesn't name chpw_book, which uses it"),
        ("chpw_blocks", r"Called by: .*", "Called by: nobody.", "nobody calls it, and chpw_resume uses it"),
        ("chpw_resume", r"chpw_desks\.$", "chpw_desks and others above.", "has others above that call it, and there are none"),
    ):
        source = f"crates/{crate}/src/lib.rt"
        copy.change(source, expression, lambda _, text=planted: text)
        yield rf"{source}:1: {words}"


def in_replies(copy):
    """An error code of a row, a row's text, and the code of an update's answer."""
    copy.change("docs/PROTOCOL.md", r"^Expired .*32 ", lambda it: it[0].replace("32", "33"))
    yield r"docs/PROTOCOL\.md:\d+: Expired is 3 32 ticket expired"
    copy.change("docs/PROTOCOL.md", r"^Reused .*before ", lambda it: it[0].replace("before", "sooner"))
    yield r"docs/PROTOCOL\.md:\d+: Reused is 4  password used before"
    copy.change("docs/PROTOCOL.md", r"^NotNewer +2", lambda it: it[0].replace("2", "3"))
    yield r"crates/chpw_table/specs/Replies\.antt: docs/PROTOCOL\.md lacks the answer NotNewer: 2 not newer"


def in_printed(copy):
    """A quotation of a manual page, a row of the frame's table, and a text in a sentence."""
    copy.change("packaging/man/chpw_server.8", r"^\.Dq history full", lambda _: ".Dq history planted")
    yield r"packaging/man/chpw_server\.8:\d+: no source prints history planted"
    copy.change("docs/PROTOCOL.md", r"^6  bad version ", lambda _: "6  bad planting ")
    yield r"docs/PROTOCOL\.md:\d+: no source prints bad planting"
    copy.change("docs/PROTOCOL.md", r"error 61, `message too long`", lambda _: "error 61, `message planted`")
    yield r"docs/PROTOCOL\.md:\d+: no source prints message planted"


def in_commands(copy):
    for command in ("cp planted.toml /var/lib/boddrelyn/", "runuser -u boddrelyn -- true > /run/boddrelyn/planted"):
        copy.append("docs/ADMIN.md", f"```sh\n{command}\n```")
        words = re.escape(command.replace("> ", ""))
        yield rf"docs/ADMIN\.md:\d+: root, and not the service's user, meets a name of that user's: {words}"


def in_tasks(copy):
    copy.append("docs/ADMIN.md", "### Planted\n\n```sh task\ntrue\n```")
    yield r"docs/ADMIN\.md: Planted: block 1 isn't run"


def in_samples(copy):
    copy.change("samples/drill/changes.expected", r"\A", lambda it: "planted\n")
    yield r"samples/drill/changes\.script: prints something else"
    copy.change("docs/ADMIN.md", r"^```sh sample\n\$ .*\n", lambda it: f"{it[0]}planted\n")
    yield r"docs/ADMIN\.md:\d+: .*and not \['planted'"


def planted(program):
    """Each fault that has to be found, and whether it is."""
    with tempfile.TemporaryDirectory(prefix="documents-") as top:
        copy = Copy(top)
        kinds = [in_words, in_counts, in_tables, in_made, in_sources, in_first_lines, in_replies, in_printed, in_commands, in_tasks]
        kinds += [in_samples] * (program is not None)
        wanted = [it for kind in kinds for it in kind(copy)]
        command = [sys.executable, "-m", "tools.documents", *(["--program", program] if program else [])]
        only = [word for it in EVERY_CHECK for word in ("--only", it)]
        run = subprocess.run([*command, *only], cwd=top, capture_output=True, text=True, check=False)
        lines = run.stdout.splitlines()
        for it in wanted:
            yield f"planted: {it}", any(re.match(it, line) for line in lines)
        ended = lines and re.fullmatch(r"\d+ checked, \d+ wrong", lines[-1]) and run.returncode == 1
        yield f"tools.documents ends with status {run.returncode}: {run.stderr[-300:]}", bool(ended)


DESK, INSTANCE, SERVICE = "chpw_book Desk::close", "chpw_book AtDesk as Decider", "chpw_messages Service as Messages"
# what is asked of tools.believe, and what it has to print, or say
BELIEVED = [
    (INSTANCE, [r"^    ghost gathered = \{ λ a\. ", r"^    ghost may_be_full = ", r"^    ghost follows = ", r"^    ghost made = ",
                r"^        ensures shown ", r"^pub trait Decider \{", r"^    ghost stays: ", r"^IsKvnoTold opening own kvno =",
                r"^-- crates/chpw_table/specs/Decision\.antt"]),
    (SERVICE, [r"^    ghost opens = ", r"^    ghost error_frame = ", r"^    ghost private_frame = ", r"^pub trait Messages \{",
               r"^OpensUnder accepts realm "]),
    (f"{DESK} + {INSTANCE}", [r"^    pub fn close<", r"^    ghost gathered = "]),
]
UNBELIEVED = [
    ("chpw_book AtDesk as Messages", "there is no instance AtDesk as Messages in chpw_book"),
    (f"{INSTANCE} planted", "AtDesk as Decider has no planted"),
    ("chpw_book AtDesk::decide", "there is no AtDesk::decide with a contract in chpw_book; chpw_book AtDesk as Decider is an instance"),
]


def believe(words):
    """What tools.believe prints and says, and its status."""
    run = subprocess.run([sys.executable, "-m", "tools.believe", *words.split()], cwd=TOP, capture_output=True, text=True, check=False)
    return run.stdout, run.stderr, run.returncode


def names_in(printed):
    """The place and the first line of each thing that is printed, with the comments above it."""
    return re.findall(r"^-- (crates/\S+\n(?:--.*\n|///.*\n|#\[.*\n)*.*)", printed, re.MULTILINE)


def counted(printed):
    """How much there is to read, by the last line."""
    return [int(it) for it in re.findall(r"\d+", printed.splitlines()[-1])]


def is_one_list(*words):
    """Whether several are printed as one list: what one of them has stands there, each once, and counts once."""
    [together, *alone] = [believe(it)[0] for it in (" + ".join(words), *words)]
    names = names_in(together)
    counts = counted(together)
    each = [counted(it) for it in alone]
    return (len(names) == len(set(names)) and set(names) == {it for text in alone for it in names_in(text)}
            and len(names) == counts[1] + len(words) and all(max(it) <= count <= sum(it) for count, it in zip(counts, zip(*each))))


def is_quiet_where_cut(words):
    """Whether nothing is said where only the first line is read."""
    command = [sys.executable, "-m", "tools.believe", *words.split()]
    with subprocess.Popen(command, cwd=TOP, stdout=subprocess.PIPE, stderr=subprocess.PIPE) as running:
        running.stdout.readline()
        running.stdout.close()
        said = running.stderr.read()
    return said == b"" and running.returncode in (0, -signal.SIGPIPE)


def believed():
    """What tools.believe has to print, and whether it does."""
    for words, wanted in BELIEVED:
        printed, said, status = believe(words)
        yield f"tools.believe {words}: status {status}, {said[-200:]}", (said, status) == ("", 0)
        for it in wanted:
            yield f"tools.believe {words}: {it}", re.search(it, printed, re.MULTILINE) is not None
    for words, wanted in UNBELIEVED:
        yield f"tools.believe {words}: {wanted}", believe(words) == ("", f"{wanted}\n", 1)
    yield "tools.believe, several as one list", is_one_list(DESK, INSTANCE, SERVICE)
    yield "tools.believe, one twice", believe(f"{INSTANCE} + {INSTANCE}") == believe(INSTANCE)
    yield "tools.believe, its first line alone", is_quiet_where_cut(DESK)


def recorded():
    """Whether packaging/gate_record.py knows the program that a gate proved, of these sources, and no other."""
    with tempfile.TemporaryDirectory(prefix="record-") as top:
        copy = Copy(top)
        program, log = copy.top / "crates/chpw_server/out/chpw_server", copy.top / "log"
        program.parent.mkdir(exist_ok=True)

        def asked(*words):
            run = subprocess.run([sys.executable, "-m", "packaging.gate_record", *words], cwd=copy.top, capture_output=True, text=True,
                                 check=False)
            return f"{run.stdout}{run.stderr}".strip(), run.returncode

        def gate(last, meanwhile=None):
            program.write_text("program")
            sources, _ = asked("sources")
            if meanwhile:
                copy.append(meanwhile, "// planted")
            log.write_text(f"{last}\n")
            return asked("write", sources, log)[0]

        good, bad = "3 passed, 0 failed", "3 passed, 1 failed"
        yield "no record", asked("check")[0].startswith("not proved: the gate left no record")
        yield "a gate that failed", gate(bad).endswith(f"no record: rt ci ended with: {bad}") and asked("check")[1] == 1
        source = "crates/chpw_server/src/main.rt"
        yield "sources changed meanwhile", gate(good, source).endswith("sources were changed while the gate ran") and asked("check")[1] == 1
        yield "a gate that passed", gate(good) == "" and asked("check") == (good, 0)
        program.write_text("another")
        yield "another program", asked("check") == ("not proved: the gate proved another program: this one was built after it", 1)
        gate(good)
        copy.append(source, "// planted")
        yield "sources changed later", asked("check")[0].startswith("not proved: the sources have changed since the gate")


# A function of seven parameters and a body of 41 lines, in each language.
PARAMETERS = [f"planted_{number}" for number in range(7)]
LONG = {
    "chpw_*/src/**/*.rt": "fn planted({}) {{\n{}}}".format(", ".join(f"{it}: u8" for it in PARAMETERS), "    // planted\n" * 41),
    "*.py": "def planted({}):\n{}    return None".format(", ".join(PARAMETERS), "    # planted\n" * 41),
    "*.c": "static int planted({})\n{{\n{}}}".format(", ".join(f"int {it}" for it in PARAMETERS), "    planted();\n" * 41),
}


def house(copy):
    """What tools.house counts, by name; and its last line."""
    run = subprocess.run([sys.executable, "-m", "tools.house"], cwd=copy.top, capture_output=True, text=True, check=False)
    rows = (re.match(r"(\S.*?) +(\d+)(?: +\d+)?$", it) for it in run.stdout.splitlines())
    return {it[1]: int(it[2]) for it in rows if it}, (run.stdout.splitlines() or [run.stderr])[-1]


def plant_words(copy):
    """Two words more in a page of each kind."""
    for name in ("README.md", "docs/DESIGN.md", "crates/krb_aes/README.md", "docs/decisions/torn-tail.md", "CHANGELOG.md"):
        copy.append(name, "planted words")


def plant_code(copy):
    """A long function in each language, a long file with a line of paths, a wrong body, and a crate of many functions."""
    for pattern, text in LONG.items():
        chosen = next(it for it in sorted(copy.top.rglob(pattern)) if it.read_text().count("\n") < 300)
        copy.append(str(chosen.relative_to(copy.top)), text)
    (copy.top / "tools/planted.py").write_text("planted\n" * 500 + "sys" + ".path\n")
    (copy.top / "trials/planted").mkdir()
    (copy.top / "trials/planted/planted.edit").write_text("planted")
    copy.append("crates/krb_protocol/src/lib.rt", "\n".join(f"fn planted_{number}() {{}}" for number in range(101)))


def housed():
    """What tools.house has to count once it is planted, and whether it does."""
    with tempfile.TemporaryDirectory(prefix="house-") as top:
        copy = Copy(top)
        before, last = house(copy)
        yield f"tools.house ends with: {last}", re.fullmatch(r"\d+ counts, \d+ over their limits", last) is not None
        plant_words(copy)
        plant_code(copy)
        after, _ = house(copy)
        more = {name: after[name] - count for name, count in before.items() if name in after}
        for name, count in zip(more, (8, 2, 2, 2, 2, 1, 3, 3, 1, 0, 1, 0, 1)):
            yield f"tools.house: {more[name]} more {name} and not {count}", more[name] == count
        yield f"tools.house: {len(before)} counts and not 13", len(before) == 13


def scripts():
    """The commands of the scripts that somebody calls."""
    yield [TOP / "prove"]
    for file in Tree(["README.md"]).files():
        name = str(file.relative_to(TOP))
        if name.split("/")[0] in FOLDERS and not name.startswith(INNER):
            text = file.read_bytes()
            if text.startswith(b"#!"):
                yield [file]
            elif file.suffix == ".py" and b"\nif __name__ == \"__main__\":\n" in text:
                yield [sys.executable, "-m", name.removesuffix(".py").removesuffix("/__main__").replace("/", ".")]


def has_form(script):
    """What is wrong with a script's `--help`, or its answer to what it doesn't know; nothing if neither is."""
    environment = {**os.environ, "PYTHONDONTWRITEBYTECODE": "1"}
    for word, wanted in (("--help", (0, True, 0)), ("--planted-option", (2, False, 1))):
        run = subprocess.run([*script, word], stdin=subprocess.DEVNULL, capture_output=True, text=True, timeout=PATIENCE,
                             check=False, env=environment, cwd=TOP)
        found = run.returncode, run.stdout.startswith("usage: "), run.stderr.count("\n")
        if found != wanted:
            return f"{' '.join(map(str, script))} {word}: status {run.returncode}, {run.stdout[:80]!r}, {run.stderr[-200:]!r}"
    return None


def main():
    parser = Parser(__doc__, "N passed, M failed")
    parser.add_program("--program", None, "the built chpw_server, to run the samples with")
    program = parser.parse_args().program
    with concurrent.futures.ThreadPoolExecutor(2) as pool:
        forms = pool.map(has_form, scripts())
        results = [(words, is_found) for words, is_found in planted(program)]
        results += believed()
        results += housed()
        results += [(f"packaging/gate_record.py: {words}", is_right) for words, is_right in recorded()]
        results += [(words, words is None) for words in forms]
    for words, is_right in results:
        if not is_right:
            print(f"FAILED: {words}", flush=True)
    failed = sum(not is_right for _, is_right in results)
    print(f"{len(results) - failed} passed, {failed} failed")
    return 1 if failed else 0


if __name__ == "__main__":
    sys.exit(main())
