"""The commands of chpw_server and of a running service, and their options, are the same wherever they are written.

The commands for a running service are those of chpw_control's `Command`: their words, and which of them takes a file. The
commands of the program, with their options, are those of its help, and a definition says which of them clap is to have.
Compared with these are the definitions, the texts of help and refusals, the limits and defaults in the source, the manual
page, and the tables of docs/ADMIN.md and docs/PROTOCOL.md. What has to change for one more command is what this names.
"""

import re

from . import pages
from .tree import TOP

CONTROL = "crates/chpw_control/src/command.rt"
CONTROL_SPEC = "crates/chpw_control/specs/Commands.antt"
LISTS = "crates/chpw_invocation/src/option_lists.rt"
TEXTS = "crates/chpw_invocation/src/texts.rt"
REFUSALS = ("crates/chpw_invocation/src/refusing.rt", "crates/chpw_invocation/specs/Refusals.antt")
PROGRAM_SPEC = "crates/chpw_invocation/specs/Program.antt"
OPTIONS_SPEC = "crates/chpw_invocation/specs/Options.antt"
CONSTANTS = "crates/chpw_invocation/src/invocation.rt"
MATCHING = "crates/chpw_invocation/src/matching.rt"
PAGE = "packaging/man/chpw_server.8"
ADMIN = "docs/ADMIN.md"
PROTOCOL = "docs/PROTOCOL.md"
# a default that is no number of its own
DERIVED = {"clients-per-peer"}


def read(name):
    return (TOP / name).read_text()


def part(text, start, end):
    """What stands in a text from the first match of one expression to the next one of another."""
    begun = re.search(start, text)
    rest = text[begun.end():] if begun else ""
    ended = re.search(end, rest)
    return rest[: ended.start()] if ended else rest


class Place:
    """A file, whose parts are compared with what is wanted."""

    def __init__(self, name, faults):
        self.name, self.faults, self.text = name, faults, read(name)

    def same(self, what, wanted, there):
        self.faults.check(wanted == there, self.name, f"{what}: {wanted} is wanted, and {there} is there")


# ---- commands for a running service

def control_commands():
    """The words of the commands, in their order, and which of them take a file."""
    source = read(CONTROL)
    with_file = set(re.findall(r"^    (\w+)\(F\),", part(source, r"pub enum Command", r"\n}"), re.MULTILINE))
    words = re.findall(r'Command::(\w+)(?:\(_\))? => "([\w-]+)"', part(source, r"pub fn word\(", r"\n    }\n"))
    return {word: name in with_file for name, word in words}


def in_line(words, last):
    """A list in a sentence: `a, b or c`."""
    return f"{', '.join(words[:-1])} {last} {words[-1]}"


def check_control(faults):
    """Each place that lists the commands for a running service."""
    commands = control_commands()
    words = list(commands)
    [file_word] = [it for it in words if commands[it]]
    source = Place(CONTROL, faults)
    source.same("the words that `named` knows", words, re.findall(r'word == b"([\w-]+)"', source.text))
    spec = Place(CONTROL_SPEC, faults)
    spec.same("the words of `word_of`", words, re.findall(r'^word_of .* = codes "([\w-]+)"', spec.text, re.MULTILINE))
    spec.same("the words of `named`", words, re.findall(r'bytes_eq word \(codes "([\w-]+)"\)', spec.text))
    for name in REFUSALS:
        place = Place(name, faults)
        place.same("the commands of a refusal", [", ".join(words)], re.findall(r"'<COMMAND>' is one of: ([\w, -]+)", place.text))
        place.same("the command that a refusal requires a file of", {file_word}, set(re.findall(r"the command '([\w-]+)'", place.text)))
    lists, texts = Place(LISTS, faults), Place(TEXTS, faults)
    [there] = [help_ for _, _, name, _, help_ in pages.lists_of_source()["control"] if name == "command"]
    lists.same("the help of COMMAND", in_line(words, "or"), there)
    there = re.findall(r"^  ([\w-]+)( FILE)?  +\w", part(texts.text, r"const CONTROL_MORE", r"Example:"), re.MULTILINE)
    texts.same("the commands of CONTROL_MORE", commands, {word: bool(file) for word, file in there})
    check_control_documents(commands, faults)


def check_control_documents(commands, faults):
    """The manual page and the documents; their order is their own."""
    page = Place(PAGE, faults)
    section = part(part(page.text, r"\n\.Ss control\n", r"\n\.S[sh] "), r"\n\.It Ar COMMAND\n", r"\n\.El\n")
    page.same("the commands of control", sorted(commands), sorted(re.findall(r"^\.It Cm ([\w-]+)", section, re.MULTILINE)))
    admin = Place(ADMIN, faults)
    table = part(admin.text, r"\n\| `chpw_server control --socket SOCKET \.\.` \|.*\n", r"\n\n")
    there = {word: bool(file) for word, file in re.findall(r"^\| `([\w-]+)( FILE)?` \|", table, re.MULTILINE)}
    admin.same("the commands of control", commands, {it: there[it] for it in commands if it in there} | there)
    protocol = Place(PROTOCOL, faults)
    line = part(protocol.text, r"\n- \*\*The line\*\*: ", r", byte by byte")
    there = {word: bool(file) for word, file in re.findall(r"`([\w-]+)( FILE)?`", line)}
    protocol.same("the commands of a line", commands, there)


# ---- commands of the program, and their options

def constants():
    """The numbers that the source names: limits and defaults."""
    return {name: int(value.replace("_", "")) for name, value in re.findall(r"pub const (\w+): u\d+ = ([\d_]+);", read(CONSTANTS))}


def limits_of_source():
    """Of each command the options with a number, and the greatest."""
    numbers = constants()
    return {(command, name): numbers[limit] for command, rows in pages.lists_of_source().items() for _, limit, name, _, _ in rows if limit}


def defaults_of_source():
    """The options with a default number, by their names alone."""
    line = re.compile(r'number_or\(\s*options,\s*"([\w-]+)",\s*(?:u32::from\()?(DEFAULT_\w+)')
    numbers = constants()
    return {name: numbers[default] for name, default in line.findall(read(MATCHING))}


def rules_of_spec():
    """Of each command in the definitions its options, with the kind of their rules, and with the greatest number."""
    named = re.findall(r'^(\w+) = (\w+) \(codes "([\w-]+)"\)(?: (\d+))?$', read(OPTIONS_SPEC), re.MULTILINE)
    own = {name: (option, rule, limit and int(limit)) for name, rule, option, limit in named}
    commands = {}
    for command, body in re.findall(r'= command \(codes "([\w-]+)"\)\s+(\[\]|\((?:.|\n)*?∷ \[\]\))', read(PROGRAM_SPEC)):
        rows = re.findall(r'(?:\(|∷ )\s*(\w+)(?: \(codes "([\w-]+)"\))?(?= ∷|\s*\n|$)', body)
        commands[command] = dict((option, (rule, None)) if option else (own[rule][0], own[rule][1:]) for rule, option in rows)
    return commands


KINDS = {"required": True, "numbered": True, "required_word": True, "optional": False, "may_be_numbered": False, "optional_word": False,
         "repeated": False, "flag": False}


def check_program(faults):
    """The definition's list of commands and options, and the limits and defaults that help and source give."""
    commands, spec, source = pages.of_source(), Place(PROGRAM_SPEC, faults), Place(LISTS, faults)
    rules, limits, defaults = rules_of_spec(), limits_of_source(), defaults_of_source()
    spec.same("the commands", sorted(commands), sorted(rules))
    for command in commands.keys() & rules.keys():
        there = {name: KINDS[rule] for name, (rule, _) in rules[command].items()}
        wanted = {name.removeprefix("--").lower(): it.is_needed for name, it in commands[command].items()}
        spec.same(f"the options of {command}, and whether they are needed", wanted, there)
        for name, it in commands[command].items():
            name = name.removeprefix("--").lower()
            check_number(source, f"{command} {name}", it, limits.get((command, name)), rules[command].get(name, ("", None))[1], spec)
            if name in defaults and (command, name) in limits:
                source.same(f"{command} {name}: its default", str(defaults[name]), it.default)
    admin = Place(ADMIN, faults)
    table = part(admin.text, r"\n\| Command of chpw_server \|.*\n", r"\n\n")
    there = re.findall(r"`([\w-]+)`", " ".join(re.findall(r"^\| ([^|]*) \|", table, re.MULTILINE)))
    admin.same("the commands of chpw_server", sorted(commands), sorted(there))
    check_serve(admin, commands["serve"])
    check_refusals(commands, faults)


def check_refusals(commands, faults):
    """Each option that a refusal names is one of the program's, with the value that its help has."""
    options = {(name, it.value) for command in commands.values() for name, it in command.items()}
    names = {name for name, _ in options}
    for file in REFUSALS:
        place = Place(file, faults)
        for name, value in re.findall(r"'(--[\w-]+)(?: <(\w+)>)?'", place.text):
            faults.check((name, value) in options, file, f"a refusal names {name} <{value}>, and no command has that")
        for name in re.findall(r"'(--[\w-]+) [^<']", place.text):
            faults.check(name in names, file, f"a refusal names {name}, and no command has that")


def check_number(source, what, option, limit, of_spec, spec):
    """An option with a number: its help has the limit, and so has its rule."""
    if limit is not None:
        source.same(f"{what}: the limits in its help", {("1", str(limit))}, option.ranges)
        spec.same(f"{what}: its limit", limit, of_spec)


def check_serve(admin, options):
    """The table of serve's options in ADMIN: names, limits and defaults."""
    table = part(admin.text, r"\n### Options of serve\n", r"\n### ")
    there = {}
    for names, value in re.findall(r"^\| (`--[^|]*) \| ([^|]*) \|", table, re.MULTILINE):
        plain = value.replace(",", "")
        for name in re.findall(r"--[\w-]+", names):
            default = re.search(r"\[([^]]*)\]", value)
            there[name] = set(pages.RANGE.findall(plain)), default and default[1].replace(",", "")
    admin.same("the options of serve", sorted(options), sorted(there))
    for name in options.keys() & there.keys():
        ranges, default = there[name]
        admin.same(f"serve {name}: its limits", sorted(options[name].ranges), sorted(ranges))
        if options[name].default is not None and name.removeprefix("--") not in DERIVED:
            admin.same(f"serve {name}: its default", options[name].default, default)


def check(tree, faults):
    if tree.is_whole and (TOP / PAGE).is_file():
        check_control(faults)
        check_program(faults)
