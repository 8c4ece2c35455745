"""Callees that a check takes by their contracts.

A contract stands for its function in the proofs of all others. So a check that asks of some functions whether their own
proofs fail needs no other's body and no other's proof: a loop without an end and a hole stand in their places. The crate's
own check is what proves those.
"""
import contextlib
import os
import re
from typing import NamedTuple

from trials import together

TYPE = re.compile(r"(?:pub(?:\(\w+\))? )?(?:struct|enum|union) (\w+)")
IMPL = re.compile(r"impl(?:<(.*?)>)? \w+(?:<([^<>]*)>)? \{")
PARAMETER = re.compile(r"(?:^|, )(?:const )?(\w+)")
TEST = re.compile(r"#\[(?:cfg\()?test\b")
PROOF = """use {module}.Statement.{{statement}}

pub {name}_spec : {{M : Type 1}} → statement M
{name}_spec = ?
"""


class Source(NamedTuple):
    """A source of a crate: its file, its module, its lines, and its functions."""
    file: str
    module: str
    lines: list
    functions: list


def sources_of(folder):
    """The sources of a crate that have no tests."""
    found = []
    for at, _, names in os.walk(f"{folder}/src"):
        for name in sorted(names):
            with open(f"{at}/{name}", encoding="utf-8") as file:
                text = file.read()
            if not TEST.search(text):
                module = together.module_of(os.path.relpath(f"{at}/{name}", folder))
                found.append(Source(f"{at}/{name}", module, text.split("\n"), together.functions_of(text)))
    return found


def modules_of_types(sources):
    """The module of each type of a crate; that of a name that stands twice is None."""
    found = {}
    for source in sources:
        for line in source.lines:
            head = TYPE.match(line)
            if head:
                found[head[1]] = None if head[1] in found else source.module
    return found


def is_of_any(source, method):
    """Whether a method stands in an impl of a type alone, whatever the type's parameters are."""
    block = next(it for it in reversed(source.lines[: method.head]) if it and not it.startswith((" ", "/", "#")))
    head = IMPL.fullmatch(block)
    if not head:
        return False
    parameters = PARAMETER.findall(head[1] or "")
    return all(it.startswith("'") or it in parameters for it in (head[2] or "'_").split(", "))


def calls_itself(source, function):
    """Whether a function may be in a cycle of calls, whose proof is that of the whole cycle."""
    of_type, _, name = function.name.rpartition("::")
    call = rf"\b(?:self\.|Self::|{of_type}::){name}\b" if of_type else rf"(?<![.:\w]){name}(?:::<.*?>)?\("
    above = source.lines[max(function.head - 5, 0) : function.head]
    body = source.lines[function.opened : function.closed]
    return any("#[cycle" in it for it in above) or any(re.search(call, it) for it in body)


def places_of(sources):
    """Where the proofs of functions stand, as a path below the crate's root: those of functions by themselves and of
    methods of a type alone, which are in no cycle of calls. Each has its source."""
    modules = modules_of_types(sources)
    found = {}
    for source in sources:
        for it in source.functions:
            of_type, _, name = it.name.rpartition("::")
            module = modules.get(of_type) if of_type else source.module
            if module is not None and (not of_type or is_of_any(source, it)) and not calls_itself(source, it):
                place = "::".join(part for part in (module, of_type, name) if part)
                found[place] = None if place in found else (source, it)
    return {place: function for place, function in found.items() if function}


def leave_out(source, function):
    """Leaves out a body, but for that of a function that constants may call. The lines keep their numbers."""
    length = function.closed - function.opened
    if length and "const fn " not in source.lines[function.head]:
        indent = " " * (len(source.lines[function.closed]) + 3)
        source.lines[function.opened : function.closed] = [f"{indent}loop {{}}", *[""] * (length - 1)]


def leave_proof_out(folder, crate, place):
    """Puts a proof with a hole into the place of a function's."""
    room = f"{folder}/proofs/{place.replace('::', '/')}"
    os.makedirs(room, exist_ok=True)
    for name in ("Invariants", "Answers"):
        with contextlib.suppress(FileNotFoundError):
            os.remove(f"{room}/{name}.antt")
    module = f"Rattle.{crate}.proofs.{place.replace('::', '.')}"
    with open(f"{room}/Proof.antt", "w", encoding="utf-8") as file:
        file.write(PROOF.format(module=module, name=place.rsplit("::")[-1]))


def take_by_contract(folder, crate, functions):
    """Leaves out body and proof of each other function than these, in a copy of a crate."""
    sources = sources_of(folder)
    for place, (source, function) in places_of(sources).items():
        if (source.module, function.name) not in functions:
            leave_out(source, function)
            leave_proof_out(folder, crate, place)
    for source in sources:
        with open(source.file, "w", encoding="utf-8") as file:
            file.write("\n".join(source.lines))
