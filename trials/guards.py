"""What an edit guards: its line `guards: CRATE CALL CLAUSE: WORDS`.

CALL is a function of the crate: of a type or a trait as `Type::name`, of a trait at a type as `TypeTrait::name`, of a module
also as `module::name`. CLAUSE is the name of one of its clauses; `-` where the clause has no name, or where no clause speaks
of it.
"""
import functools
import pathlib
import re
from typing import NamedTuple

from trials import together

LINE = re.compile(r"guards: (\w+) (\S+) (\S+): (.+)")
CLAUSE = re.compile(r"^ *ensures (\w+) \{", re.MULTILINE)
# What ends a function's head: its body's brace, or the semicolon of one without a body.
ENDS = re.compile(r"(?m)^ *\{$|;$|^(?! *ensures| *requires).*\{$")


class Guard(NamedTuple):
    """A crate, a call of it, a clause of that, and what it promises."""
    crate: str
    call: str
    clause: str
    words: str


def guard_of(edit):
    """What an edit guards; None if it doesn't say that."""
    with open(edit, encoding="utf-8") as file:
        found = next(filter(None, map(LINE.fullmatch, file.read().splitlines())), None)
    return Guard(*found.groups()) if found else None


def names_of(block, name, module):
    """How a function may be called: by its name and what it stands in, an impl, a trait, or else its module."""
    if not block:
        return {name, f"{module.rpartition('::')[2]}::{name}"}
    of_trait, of_what, of_type, trait = block.groups()
    at_type = f"{of_type}{of_trait or ''}{''.join(together.TYPE.findall(of_what or ''))}"
    return {f"{it}::{name}" for it in (trait, of_trait, of_type, at_type) if it}


def heads_in(text, module):
    """The head of each function of a source, with the names by which that may be called."""
    lines, found, block, at = text.split("\n"), [], None, 0
    for number, line in enumerate(lines):
        block = together.block_at(lines, number) or block
        head = together.FUNCTION.match(line)
        if head:
            end = ENDS.search(text, at)
            found.append((names_of(block if head[1] else None, head[2], module), text[at : end.end() if end else None]))
        at += len(line) + 1
    return found


@functools.lru_cache(None)
def heads_of(folder):
    """The head of each function of a crate, with the names by which that may be called."""
    files = sorted(pathlib.Path(folder).glob("src/**/*.rt"))
    texts = ((it.read_text(encoding="utf-8"), str(it.relative_to(folder))) for it in files)
    return [head for text, path in texts for head in heads_in(text, together.module_of(path))]


def fault_of(edit, top):
    """Why what an edit guards isn't there; None if it is. The functions of the agents, in C, aren't looked at."""
    guard = guard_of(edit)
    if not guard:
        return "no line `guards: CRATE CALL CLAUSE: WORDS`"
    if guard.crate == "agent" or guard.call == "-":
        return None
    heads = [head for names, head in heads_of(f"{top}/crates/{guard.crate}") if guard.call in names]
    if not heads:
        return f"no {guard.call} in {guard.crate}"
    if guard.clause != "-" and not any(guard.clause in CLAUSE.findall(it) for it in heads):
        return f"no clause {guard.clause} of {guard.call} in {guard.crate}"
    return None
