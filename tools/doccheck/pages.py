"""The manual pages of packaging/man have the options, values, limits and defaults of each command's help, and no others.

The help of chpw_server is read from the source, and with --program also from what the program prints; that of the agents
from agent/main.c; and the settings of a configuration, with their limits, from the crates that read them. In a page an
option is an item `.It Fl -NAME Ar VALUE` in the section of its command, in brackets in the synopsis if it may be left out.
Its text has the limits as the help has them, `N to N`, and ends with `The default is WORD.` if there is one.
"""

import dataclasses
import re
import subprocess

from .tree import TOP

HELP = TOP / "crates/chpw_invocation/src/option_lists.rt"
AGENT = TOP / "agent/main.c"
PARTS = TOP / "crates/chpw_config/src/explanation.rt"
SETTINGS = TOP / "crates/chpw_config/src/explanation/key.rt"
LIMITS = TOP / "crates/chpw_rules/src/limits.rt"
NOTHING = {"nowhere", "no wait", "no log"}  # how a help says that by default there is none
RANGE = re.compile(r"\b(\d+) to (\d+)\b")
PATIENCE = 20


@dataclasses.dataclass
class Option:
    """An option, or a word without a name before it."""

    value: str = ""
    is_needed: bool = False
    default: str | None = None
    ranges: set = dataclasses.field(default_factory=set)


def of_text(value, is_needed, text):
    """An option of the help, by its text."""
    found = re.search(r"\[default: ([^]]*)\]", text)
    default = found and ("none" if found[1] in NOTHING else found[1])
    return Option(value, is_needed, default, set(RANGE.findall(text)))


# ---- what the programs have

def rows_of(source):
    """The options that a part of the source has: kind, greatest number, name, value and help of each."""
    row = r'OptionLine \{\s*name: "([\w-]+)",\s*kind: OptionKind::(\w+)(?:\((\w+)(?: as u32)?\))?,\s*value: "(\w*)",\s*help: "((?:[^"\\]|\\.)*)"'
    return [(kind, limit, name, value, help_) for name, kind, limit, value, help_ in re.findall(row, source)]


def lists_of_source():
    """Of each command the rows of its options, from the source."""
    source = HELP.read_text()
    shared = {name: rows_of(body)[0] for name, body in re.findall(r"\nconst (\w+): OptionLine = (.*?);\n", source, re.DOTALL)}
    lists = {"drill": []}
    for name, body in re.findall(r"static (\w+)_OPTIONS: \[OptionLine; \d+\] = \[(.*?)\];", source, re.DOTALL):
        parts = re.findall(r"OptionLine \{.*?\n?\s*\}|\b[A-Z_]+\b(?=[,\]]|$)", body, re.DOTALL)
        lists[name.lower().replace("_", "-")] = [shared[it] if it in shared else rows_of(it)[0] for it in parts]
    return lists


def of_source():
    """The commands of chpw_server with their options, from the source."""
    needed = {"Required", "Number", "Word"}
    commands = {}
    for command, rows in lists_of_source().items():
        options = commands[command] = {}
        for kind, _, name, value, help_ in rows:
            is_word = kind.endswith("Word")
            options[value if is_word else f"--{name}"] = of_text("" if is_word else value, kind in needed, help_)
    return commands


def of_program(program, command):
    """The options of a command, from what `--help` prints; which of them are needed isn't read."""
    run = subprocess.run([program, command, "--help"], capture_output=True, text=True, timeout=PATIENCE, check=False)
    options, is_list = {}, False
    for line in (run.stdout + run.stderr).splitlines():
        is_list = line in ("Arguments:", "Options:") or is_list and line.startswith("  ")
        found = re.match(r"\s{2,6}(?:(--[\w-]+)(?: <(\w+)>)?|[<\[](\w+)[>\]])(?:\s+(.*))?$", line)
        if is_list and found:
            options[found[1] or found[3]] = of_text(found[2] or "", False, found[4] or "")
    return options


def of_agent():
    """The options of its usage, and those that its command line is compared with."""
    source = AGENT.read_text()
    usage = " ".join(re.findall(r'tell\("(usage: [^"]*)"', source))
    options = {name: Option(value, not bracket) for bracket, name, value in re.findall(r"(\[?)(--[\w-]+) ([A-Z]+)", usage)}
    return options, set(re.findall(r'strcmp\(words\[at\], "(--[\w-]+)"\)', source))


def settings():
    """The tables of a configuration with their settings, and the limits of each that is a number or a text."""
    limits = {name: (int(low.replace("_", "")), int(high.replace("_", "")))
              for name, low, high in re.findall(r"pub const (\w+): Limits = Limits \{\s*low: ([\d_]+),\s*high: ([\d_]+)", LIMITS.read_text())}
    source, tables = SETTINGS.read_text(), {}
    for name, body in re.findall(r"const (\w+): \[Key; \d+\] = \[(.*?)\];", source, re.DOTALL):
        for setting, held in re.findall(r'\("(\w+)", Holds::(\w+(?:\(\w+\))?)\)', body):
            of = "ENTRY_COUNTS" if held == "Entries" else re.sub(r".*\((.*)\)", r"\1", held)
            is_number = held.startswith(("Number", "Text", "Entries")) and of != "ETYPES"
            tables.setdefault(PLACES[name], {})[setting] = limits.get(of) if is_number else None
    tables["[kdc]"] = dict.fromkeys(re.findall(r'put_patterns\(words, file.get\("kdc"\), "(\w+)"', PARTS.read_text()))
    return tables


PLACES = {
    "SERVICE": "[service]", "SERVICE_KEY": "[[service.key]]", "POLICY": "[policy]", "RULE": "[[rule]]",
    "PRINCIPAL": "[[principal]]", "PRINCIPAL_KVNO": "[[principal.key]]", "PRINCIPAL_KEY": "[[principal.key]]",
}


# ---- what the pages have

def sections(text):
    """The sections of a page, and within them those of a command or a table."""
    for part in re.split(r"^\.S[hs] ", text, flags=re.MULTILINE)[1:]:
        name, _, body = part.partition("\n")
        yield name.strip('"'), body


def items(body):
    """The items of a section: options, words and settings; not those of a list within the list."""
    found, name, depth = {}, None, 0
    for line in body.splitlines():
        depth += line.startswith(".Bl ") - line.startswith(".El")
        match = re.match(r"\.It (?:Fl -([\w-]+)(?: Ar (\w+))?|Ar (\w+)|Ic (\w+))$", line)
        if match and depth == 1:
            name = f"--{match[1]}" if match[1] else match[3] or match[4]
            found[name] = [match[2] or "", ""]
        elif depth == 0:
            name = None
        elif name and not line.startswith(".It"):
            found[name][1] += " " + re.sub(r"^\.\w+ ", "", re.sub(r"^\.Fl -(\S+)(?: (\W))?$", r"--\1\2", line))
    return {name: (value, set(RANGE.findall(text)), default_of(text)) for name, (value, text) in found.items()}


def default_of(text):
    found = re.search(r"The default is (.*?)\.(?: |$)", text)
    return found and found[1]


def synopses(body):
    """Of each command in a synopsis the options with their values, and whether they are needed."""
    for part in re.split(r"^\.Nm$", body, flags=re.MULTILINE)[1:]:
        command = re.search(r"^\.Cm ([\w-]+)", part, re.MULTILINE)
        options = {}
        for optional, name, value, word in re.findall(r"^\.(Op )?(?:Fl -([\w-]+)(?: Ar (\w+))?|Ar (\w+))$", part, re.MULTILINE):
            options[f"--{name}" if name else word] = (value, not optional)
        yield command and command[1], options


# ---- the comparison

class Page:
    def __init__(self, name, text, faults):
        self.name, self.faults = f"packaging/man/{name}", faults
        self.sections = dict(sections(text))
        self.synopses = dict(synopses(self.sections["SYNOPSIS"])) if "SYNOPSIS" in self.sections else {}

    def compare(self, wanted, section, command, shows_need=True):
        """The options of a command with a section of the page."""
        what = command or "its command"
        there = items(self.sections.get(section, ""))
        self.same_names(f"{section}: an option of {what}", wanted, there)
        for name in wanted.keys() & there.keys():
            value, ranges, default = there[name]
            it = wanted[name]
            self.same(f"{what} {name}: its value", it.value, value)
            self.same(f"{what} {name}: its limits", sorted(it.ranges), sorted(ranges))
            self.same(f"{what} {name}: its default", it.default, default)
        if shows_need:
            synopsis = self.synopses.get(command, {})
            self.same_names(f"SYNOPSIS: an option of {what}", wanted, synopsis)
            for name in wanted.keys() & synopsis.keys():
                it = wanted[name]
                self.same(f"SYNOPSIS: {what} {name}: value, and whether it is needed", (it.value, it.is_needed), synopsis[name])

    def same_names(self, what, wanted, there):
        for name in wanted:
            self.faults.check(name in there, self.name, f"{what} is missing: {name}")
        for name in there:
            self.faults.check(name in wanted, self.name, f"{what} that the program doesn't have: {name}")

    def same(self, what, wanted, there):
        self.faults.check(wanted == there, self.name, f"{what} is {wanted} and not {there}")


def check(tree, faults):
    if not tree.is_whole or not (TOP / "packaging/man").is_dir():
        return
    from packaging import manual

    server = Page("chpw_server.8", manual.page("chpw_server.8"), faults)
    commands = of_source()
    server.same_names("SYNOPSIS: a command", commands, [it for it in server.synopses if it])
    for command, options in commands.items():
        server.compare(options, command, command)
        if tree.program is not None:
            server.compare(of_program(tree.program, command), command, command, False)
    for name in ("kdc_mit.8", "kdc_heimdal.8"):
        page = Page(name, manual.page(name), faults)
        options, named = of_agent()
        page.same("the options of its usage", sorted(named), sorted(options))
        page.compare(options, "DESCRIPTION", None)
    check_settings(Page("boddrelyn.toml.5", manual.page("boddrelyn.toml.5"), faults))


def check_settings(page):
    tables = settings()
    page.same_names("a table", tables, [it for it in page.sections if it.startswith("[")])
    for table, wanted in tables.items():
        there = items(page.sections.get(table, ""))
        page.same_names(f"{table}: a setting", wanted, there)
        for name in wanted.keys() & there.keys():
            if wanted[name] is not None:
                limits = tuple(map(str, wanted[name]))
                page.same(f"{table} {name}: its limits", [limits], sorted(there[name][1]))
    [most] = [high for table in ("[service]",) for _, high in [tables[table]["max_entries"]]]
    page.same("[service] max_entries: its default", str(most), items(page.sections["[service]"])["max_entries"][2])
