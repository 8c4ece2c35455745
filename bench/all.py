"""Measures everything that docs/results shows of speed, on this machine, in one run and one after the other.

The scripts of bench/ run as they are (keys.py beside OpenSSL); then the service, MIT's kadmind and Heimdal's kpasswdd take
turns: changes a second by clients, processor and system calls a change, and an honest client's wait beside silent and
dripping connections. Each table goes into docs/results/bench_NAME.csv, and what it shows into docs/results/bench.csv;
tools.tables puts some into docs/RESULTS.md. The pictures stand beside them. With --out all is one file of a folder.

The packages are those of harness/fetch.sh; without them the service is measured alone. A figure that can't be had is a dash,
and its reason stands below. Let nothing else run on the machine. --quick does each part once and small, to try the script.
"""

import csv
import dataclasses
import os
import pathlib
import platform
import signal
import subprocess
import sys
import time

from bench import beside, scripts, svg, tables
from harness import three_servers
from harness.command import TOP, Parser

NAMES = {kind: it.NAME for kind, it in three_servers.KINDS.items()}
RESULTS = TOP / "docs/results"


def output_of(*words):
    done = subprocess.run(words, capture_output=True, text=True, cwd=TOP)
    return done.stdout.strip() or "-"


def machine():
    """Where and when this runs, a row each."""
    model = next((line.partition(":")[2].strip() for line in pathlib.Path("/proc/cpuinfo").read_text().splitlines()
                  if line.startswith("model name")), "-")
    yield "Machine", f"{model}, {os.cpu_count()} processors, {platform.system()} {platform.release()}"
    yield "Load before", f"{os.getloadavg()[0]:.2f}"
    yield "Date", time.strftime("%Y-%m-%d")
    yield "Sources", output_of("git", "log", "-1", "--format=%h")


@dataclasses.dataclass
class Table:
    """A table: the name of its file, its heading, what it shows, its head and its rows."""

    name: str
    heading: str
    words: str
    heads: list
    rows: list

    def cells(self):
        return [[str(it) for it in row] for row in (self.heads, *self.rows)]

    def markdown(self):
        head, *rows = (" | ".join(it).join(("| ", " |")) for it in ([cell.replace("|", "\\|") for cell in row] for row in self.cells()))
        return "\n".join([f"### {self.heading}", "", self.words, "", head, "|---" * len(self.heads) + "|", *rows, ""])

    def write(self, file):
        with open(file, "w", newline="") as opened:
            csv.writer(opened, lineterminator="\n").writerows(self.cells())


def figure(value, form="{:,.0f}"):
    return "-" if value is None else form.format(value)


class Measured:
    """All figures of a run, and of each that there isn't the reason."""

    def __init__(self, arguments):
        self.is_quick = arguments.quick
        self.sizes = beside.QUICK if arguments.quick else beside.Sizes()
        self.missing = {}
        self.lines = {}
        lacking = three_servers.packages_are_there()
        self.kinds = [kind for kind in NAMES if kind == "ours" or lacking is None]
        if lacking is not None:
            self.missing["MIT's and Heimdal's programs"] = lacking
        self.lacking, self.program, self.parts = lacking, arguments.server, arguments.part
        self.head = list(machine())
        self.beside = {"rates": {}, "cost": {}, "calls": {}, "waits": {}}

    def of_each_script(self):
        for script in scripts.SCRIPTS:
            if not self.parts or script.words[0] in self.parts:
                self.measure(script, self.program, self.lacking)

    def in_turn(self):
        if not self.parts or "beside" in self.parts:
            print("the servers in turn", flush=True)
            self.beside, missing = beside.measure(self.program, self.kinds, self.sizes)
            self.missing |= missing

    def measure(self, script, program, lacking):
        told = script.told(self.is_quick)
        print(told, flush=True)
        if script.needs_packages and lacking is not None:
            self.lines[script], reason = [], "the packages can't be had"
        else:
            self.lines[script], reason = scripts.figures(script, program, self.is_quick)
        if reason:
            self.missing[told] = reason

    def lines_of(self, *words):
        """Of the first script with these first words; none where it didn't run."""
        return next((lines for script, lines in self.lines.items() if script.words[: len(words)] == words), [])

    def count(self):
        """How many figures there are."""
        found = self.beside
        others = [it for name in ("cost", "calls", "waits") for it in found[name].values() if it is not None]
        return sum(map(len, self.lines.values())) + len(others) + sum(map(len, found["rates"].values()))

    def last_line(self):
        return f"figures {self.count()}, not had {len(self.missing)}"

    # ---- tables

    def tables(self):
        yield Table("run", "The run", "The run, and what it lacks.", ["What", "Value"], [
            *self.head, ("Last line", f"`{self.last_line()}`"), *((f"not had: {what}", why) for what, why in self.missing.items())])
        if any(self.beside.values()):
            yield from self.servers()
        yield from self.costs()
        yield from self.long_scripts()
        yield from self.kdcs()

    def text(self, names):
        """All tables, and the pictures of these names, as one document."""
        return "\n".join([*(it.markdown() for it in self.tables()), *(f"![{self.titles[it]}]({it}.svg)\n" for it in names)])

    def servers(self):
        kinds, found, heading = list(NAMES), self.beside, "Beside kadmind and kpasswdd"
        rates = [found["rates"].get(kind, {}) for kind in kinds]
        yield Table("rates", heading, "Changes a second, by clients; the best round.", ["Clients", *NAMES.values()],
                    [[clients, *(figure(it.get(clients)) for it in rates)] for clients in self.sizes.clients])
        costs = [found["cost"].get(kind) or (None, None) for kind in kinds]
        yield Table("cost", heading, "What a change costs the server, one client.", ["A change", *NAMES.values()], [
            ["processor of its own, ms", *(figure(it[0], "{:.2f}") for it in costs)],
            ["of the system's, ms", *(figure(it[1], "{:.2f}") for it in costs)],
            ["system calls", *(figure(found["calls"].get(kind), "{:,.1f}") for kind in kinds)]])
        yield Table("waits", heading, "An honest client's wait, ms: median, longest; how many of its changes weren't made within 3 s, "
                    "if any. Of the hostile connections half are silent, and half send a byte a second.", ["Hostile", *NAMES.values()],
                    [[f"{hostile:,}", *(wait(found["waits"].get((kind, hostile)), self.sizes.honest) for kind in kinds)]
                     for hostile in self.sizes.hostile])

    def costs(self):
        """The figures of the short scripts, as they print them."""
        rows = []
        for script, lines in self.lines.items():
            if script.words[0] not in tables.TABLES and script.words[0] != tables.KDC:
                rows += [[script.what, line, f"`{script.told(self.is_quick)}`"] for line in lines or ["-"]]
        if rows:
            yield Table("scripts", "What it costs, and how that grows", "The lines of the short scripts.", ["What", "Figures", "Command"], rows)

    def long_scripts(self):
        for script, lines in self.lines.items():
            name = script.words[0]
            if name in tables.TABLES:
                title, words, work = tables.TABLES[name]
                last = "".join(f" Last line: `{line}`." for line in lines if line.startswith("limits "))
                yield Table(name, title, f"`{script.told(self.is_quick)}`. {words}{last}", *tables.rows_of(lines, work))
            if name in tables.MORE:
                words, work = tables.MORE[name]
                yield Table(f"{name}_more", title, words, *tables.rows_of(lines, work))

    def kdcs(self):
        found = {script: lines for script, lines in self.lines.items() if script.words[0] == tables.KDC and lines}
        if found:
            work = lambda _: (tables.OF_KDCS[2], [tables.kdc(lines, it.where) for it, lines in found.items()])
            yield Table("kdc", tables.OF_KDCS[0], f"`bench.kdc`. {tables.OF_KDCS[1]}", *tables.rows_of(sum(found.values(), []), work))

    # ---- pictures

    titles = {
        "rates": "Changes a second by clients", "cost": "What a change takes of a processor",
        "calls": "System calls of the server for a change",
        "waits": "An honest client's median wait beside hostile connections",
        "lost": "An honest client's changes that weren't made, of 100", "principals": "A decision by principals",
        "events": "A decision by events", "kdc": "From the service's request to the KDC's answer",
    }

    def draw(self):
        """The pictures that there are figures for, by name."""
        found, titles = self.beside, self.titles
        named = dict(self.head)
        note = f"{named['Date']}, {named['Machine'].rpartition(', ')[0]}"
        cost = {NAMES[kind]: it[0] + it[1] for kind, it in found["cost"].items() if it}
        calls = {NAMES[kind]: it for kind, it in found["calls"].items() if it is not None}
        lost = {name: [(hostile, 100 * it[2] / self.sizes.honest) for (whose, hostile), it in found["waits"].items()
                       if whose == kind and it] for kind, name in NAMES.items()}
        waits = {name: [(hostile, it[0]) for (whose, hostile), it in found["waits"].items() if whose == kind and it and it[0]]
                 for kind, name in NAMES.items()}
        drawn = {
            "rates": svg.lines(titles["rates"], note, "clients", "changes a second",
                               {NAMES[kind]: list(it.items()) for kind, it in found["rates"].items()}),
            "cost": svg.bars(titles["cost"], note, "ms", {"a change": cost}),
            "calls": svg.bars(titles["calls"], note, "system calls", {"a change": calls}),
            "waits": svg.lines(titles["waits"], note, "silent and dripping connections", "ms", waits),
            "lost": svg.lines(titles["lost"], note, "silent and dripping connections", "of 100", lost),
            "principals": svg.lines(titles["principals"], note, "principals", "microseconds",
                                    {"a change": scripts.by_principals(self.lines_of("stream"))}),
            "events": svg.lines(titles["events"], note, "decisions in the history", "microseconds",
                                {"a decision": scripts.by_events(self.lines_of("drill"))}),
            "kdc": svg.bars(titles["kdc"], note, "ms", {
                name: scripts.to_the_kdc(self.lines_of("kdc", *scripts.OF_THE_PROGRAM, "--kind", kind))
                for kind, name in (("mit", "MIT"), ("heimdal", "Heimdal"))}),
        }
        return {name: text for name, text in drawn.items() if text}


def wait(found, asked):
    if found is None:
        return "-"
    median, longest, wrong = found
    if median is None:
        return f"none of {asked} made"
    return f"{median:.1f}, {longest:.1f}" + (f"; {wrong} of {asked} not made" if wrong else "")


def write(measured, out):
    """The tables and pictures of what there is so far."""
    folder = out or RESULTS
    folder.mkdir(parents=True, exist_ok=True)
    pictures = measured.draw()
    for name, text in pictures.items():
        (folder / f"{name}.svg").write_text(text)
    if out:
        (out / "results.md").write_text(measured.text(pictures))
        return
    found = list(measured.tables())
    for it in found:
        it.write(folder / f"bench_{it.name}.csv")
    index = Table("", "", "", ["Table", "What it shows"], [[f"bench_{it.name}.csv", it.words] for it in found])
    index.write(folder / "bench.csv")


def main():
    parser = Parser(__doc__, "figures N, not had M", "no figure could be had")
    parser.add_program()
    parser.add_argument("--quick", action="store_true", help="each part once and in small; needs --out")
    parser.add_argument("--out", type=pathlib.Path, metavar="FOLDER", help="write results.md and the pictures there")
    parts = sorted({it.words[0] for it in scripts.SCRIPTS} | {"beside"})
    parser.add_argument("--part", action="append", choices=parts, metavar="PART",
                        help="this part alone, may be repeated; needs --out: " + ", ".join(parts))
    arguments = parser.parse_args()
    # an end from outside ends what was started, too
    signal.signal(signal.SIGTERM, lambda *_: sys.exit(1))
    if (arguments.quick or arguments.part) and not arguments.out:
        parser.error("--quick and --part need --out")
    measured = Measured(arguments)
    measured.of_each_script()
    # what there is outlasts what goes wrong from here on
    write(measured, arguments.out)
    measured.in_turn()
    write(measured, arguments.out)
    print(measured.last_line())
    return 0 if measured.count() else 1


if __name__ == "__main__":
    sys.exit(main())
