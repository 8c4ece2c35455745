"""Several edits tried by one check, where each changes the body of another function.

A contract stands for its function in the proofs of all others, so what is said of one function's own proof is said of
that one's body alone, whatever bodies the others have.
"""
import re
from typing import NamedTuple

FUNCTION = re.compile(r"( *)(?:pub(?:\(\w+\))? )?(?:const )?(?:unsafe )?fn (\w+)")
BEGINS = re.compile(r"(?:pub(?:\(\w+\))? )?(?:impl|trait)\b")
# What methods stand in: an impl of a trait, an impl of a type alone, or a trait.
BLOCK = re.compile(r"(?:pub(?:\(\w+\))? )?(?:impl(?:<.*?>)? (?:(?:\w+::)*(\w+)(<.*>)? for )?(?:\w+::)*(\w+)|trait (\w+))")
# The types that stand after a trait's name: the prover writes them there too, but for a parameter.
TYPE = re.compile(r"\b[A-Z]\w+")
# What is said of a function whose own proof fails.
FAILED = re.compile(r"not proved|no proof: expected answers in ")
# What is said of a goal of it.
GOAL = "it is not proved that "
# What is said further where that may be since a callee's does.
CALLEE = "which is not proved"
# A proof file that names what an edit took away: such a line says nothing of the contract.
NAMES = re.compile(r"has no field|is not in scope|has no `|was not admitted")


class Function(NamedTuple):
    """A function of a source: its name as the prover writes it, with its type; the line at which it begins, the first
    one of its body and the one after that."""
    name: str
    head: int
    opened: int
    closed: int


def block_at(lines, at):
    """What begins at a line, if it is an impl or a trait, whose head may be of several lines."""
    if not BEGINS.match(lines[at]):
        return None
    end = next((it for it in range(at, len(lines)) if lines[it].endswith("{")), at)
    return BLOCK.match(" ".join(map(str.strip, lines[at : end + 1])).replace("-> ", ""))


def functions_of(text):
    """The functions of a source in rt fmt's layout."""
    lines, found, block = text.split("\n"), [], ""
    for at, line in enumerate(lines):
        begins = block_at(lines, at)
        if begins:
            of_trait, of_what, of_type, trait = begins.groups()
            block = f"{trait or of_type + (of_trait or '') + ''.join(TYPE.findall(of_what or ''))}::"
        head = FUNCTION.match(line)
        if not head:
            continue
        indent, name = head[1], f"{block if head[1] else ''}{head[2]}"
        for opened in range(at, len(lines)):
            if lines[opened].startswith(indent) and lines[opened][len(indent) :][:1] not in ("", " "):
                if lines[opened].endswith("{"):
                    closed = next((it for it in range(opened, len(lines)) if lines[it] == indent + "}"), opened)
                    found.append(Function(name, at, opened + 1, closed))
                    break
                if opened > at and not lines[opened].startswith((f"{indent})", f"{indent}>")) and lines[opened] != f"{indent}where":
                    break
    return found


def module_of(path):
    """The module of a source."""
    module = path.removeprefix("src/").removesuffix(".rt").removesuffix("/mod").replace("/", "::")
    return "" if module in ("lib", "main") else module


def function_changed(path, was, now):
    """The module and the name of the one function of a source whose body differs; None where more does, or the name
    isn't the only one of its kind there."""
    before, after = was.split("\n"), now.split("\n")
    first = next((it for it, (one, other) in enumerate(zip(before, after)) if one != other), min(len(before), len(after)))
    last = len(before)
    while last > first and len(after) - len(before) + last > first and before[last - 1] == after[len(after) - len(before) + last - 1]:
        last -= 1
    functions = functions_of(was)
    names = [it.name for it in functions]
    for it in functions:
        if it.opened <= first and last <= it.closed and names.count(it.name) == 1:
            return module_of(path), it.name
    return None


def shares(edits, most):
    """Splits edits, each with the function that it changes or None, into lists of at most so many: of each function
    one in a list, and what changes more by itself."""
    lists = []
    for edit, function in edits:
        free = (it for it in lists if function and len(it) < most and None not in it.values() and function not in it.values())
        into = next(free, None)
        if into is None:
            into = {}
            lists.append(into)
        into[edit] = function
    return lists


def path_of(function):
    """What a function's path below its crate ends with. A method stands in the module of its type, whatever file it is
    written in."""
    module, name = function
    return name if "::" in name or not module else f"{module}::{name}"


def is_within(line, function, texts):
    """Whether what is said is of a place in this function, by the sources' texts."""
    place = re.match(r"(?:note: )?(?:\./)?(src/\S+?\.rt):(\d+):\d+: ", line)
    if not place or place[1] not in texts or module_of(place[1]) != function[0]:
        return False
    at = int(place[2]) - 1
    return any(it.name == function[1] and it.head <= at <= it.closed for it in functions_of(texts[place[1]]))


def failed_proof(said, crate, function, texts):
    """The line in which a check says that a function's own proof fails; None where it doesn't, or that isn't sure."""
    verdicts = [it for it in said if re.match(rf"fn {crate}::(?:\w+::)*{re.escape(path_of(function))}: ", it)]
    if len(verdicts) != 1 or not FAILED.match(verdicts[0].split(": ", 1)[1]):
        return None
    place = verdicts[0].split(": ")[0].removeprefix(f"fn {crate}::").replace("::", "/")
    goal = next((it for it in said if GOAL in it and is_within(it, function, texts)), None)
    proofs = rf"(?:\./)?proofs/{re.escape(place)}/\S+ error"
    errors = [it for it in said if re.match(proofs, it)]
    if goal is None and (any(NAMES.search(it) for it in errors) or CALLEE in verdicts[0] and not errors):
        return None
    return goal or verdicts[0]
