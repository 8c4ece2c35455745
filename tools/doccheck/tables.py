"""Tables of promises: the calls, their clauses and their definitions exist, and no public call is left out.

In a crate's README the calls are the crate's own, and each public call with named clauses is there, in a row or a line: as
`Type::call`, or as `call` where no other type has a public call of that name or the line names the type. Private calls
may be there, too. In docs/ a row names the crates: `chpw_book: ..` before a call. A table that a script makes of the
READMEs (docs/promises.md) is left to that script.
"""

import collections
import functools
import re

from .sources import CRATES, FUNCTION, OWNER, clauses_of, crate, owner_names, uses

MADE = {"docs/promises.md"}
TICKED = re.compile(r"`([^`]+)`")
# Calls that stand for several, and traits of the standard library.
PLACEHOLDERS = {"read_x", "write_x"}
STANDARD = {"Display", "Debug", "Drop", "Read", "Write", "Error"}
# Definitions of the libraries, and a trait's clauses as a whole.
FOREIGN = re.compile(r"\b(?:std|clap|toml|hex|slab|mathlib)'s `?\w+`?|\bthose of `\w+`")
PUBLIC_MODULE = re.compile(r"^pub mod (\w+);", re.MULTILINE)
GIVEN_ON = re.compile(r"^pub use \w+(?:::\w+)*::(?:\{([^}]*)\}|(\w+));", re.MULTILINE)


def check(tree, faults):
    for document in tree.documents:
        folder = document.path.parent.name
        own = folder if folder in tree.crates and document.path.name == "README.md" else None
        if document.name in MADE or not (own or document.name.startswith("docs/")):
            continue
        for number, columns, cells in rows(document):
            Row(tree, own, f"{document.name}:{number}", columns, cells).check(faults)
        if own:
            check_whole(document, own, faults)


def check_whole(document, name, faults):
    """Whether the README of a crate names each of its public calls that have clauses."""
    calls = public_calls(name)
    owners = collections.Counter(call.rpartition("::")[2] for call in calls)
    lines = [set(ticked(line)) for _, line in document.prose()]
    for call in calls:
        owner, _, last = call.rpartition("::")
        spans = {call, *(it for it in PLACEHOLDERS if last.startswith(it.rstrip("x")))}
        is_named = any(spans & line or (last in line and (owners[last] == 1 or owner in types_in(line))) for line in lines)
        faults.check(is_named, document.name, f"no row or line for {call}")


def types_in(spans):
    """The types and modules of the calls of a line, and what stands in it by itself."""
    return spans | {it.rpartition("::")[0] for it in spans}


def public_calls(name):
    """The functions of a crate with clauses that others can call, and those of its public traits, as `Type::call`."""
    folder = CRATES / name / "src"
    library = folder / "lib.rt"
    if not library.is_file():
        return []
    text = library.read_text()
    given = {it.strip() for several, single in GIVEN_ON.findall(text) for it in (*several.split(","), single)}
    calls = []
    for file in sorted(folder.rglob("*.rt")):
        modules = file.relative_to(folder).with_suffix("").parts
        calls += public_calls_of(file, set(PUBLIC_MODULE.findall(text)).intersection(modules), given)
    return calls


def public_calls_of(file, modules, given):
    """Those of a file, in one of these public modules or of names that the library gives on."""
    text = file.read_text()
    owners = [(it.start(), text.find("\n}", it.start()), it) for it in OWNER.finditer(text)]
    for function in FUNCTION.finditer(text):
        owner = next((it for start, end, it in owners if start <= function.start() < end), None)
        names = owner_names(owner[1], owner[2]) if owner else []
        is_public = function[0].lstrip().startswith("pub ") or (owner and owner[1] == "trait")
        if not is_public or len(names) > 1 or not clauses_of(text, function):
            continue
        if names and names[0] in given:
            yield f"{names[0]}::{function[2]}"
        elif not names and (modules or function[2] in given):
            yield "::".join((*modules, function[2]))


def rows(document):
    """The rows of the tables that have a column of calls, each with the places of its columns."""
    columns = None
    for number, line in document.prose():
        if not line.startswith("|"):
            columns = None
            continue
        cells = [it.strip() for it in line.strip().removeprefix("|").removesuffix("|").split("|")]
        if columns is None:
            columns = columns_of(cells)
        elif columns and not set(line) <= set("|-: ") and len(cells) > columns["call"]:
            yield number, columns, cells


def columns_of(heads):
    """Where calls, clauses and definitions stand; nothing where no calls do."""
    places = {}
    for place, head in enumerate(heads):
        for name, words in (("call", "Calls?(, clauses?)?"), ("clause", "Clauses?"), ("definition", "Spec|Definitions?")):
            if re.fullmatch(words, head):
                places[name] = place
    is_joined = "call" in places and "clause" in heads[places["call"]].lower()
    return places if "clause" in places or is_joined else {}


def owner_and_name(path):
    parts = path.split("(")[0].split("::")
    return (parts[-2] if len(parts) > 1 else None), parts[-1]


def ticked(text):
    """The names in backquotes, and `laws::{a, b}` as two."""
    for span in TICKED.findall(text):
        group = re.fullmatch(r"(.*?)::\{(.*)\}", span)
        yield from (f"{group[1]}::{it.strip()}" for it in group[2].split(",")) if group else (span,)


@functools.lru_cache(None)
def view(name):
    return View(name)


class View:
    """What a crate has, and what those have that it stands on."""

    def __init__(self, name):
        self.own = crate(name)
        self.near = [self.own, *(crate(it) for it in sorted(uses().get(name, ())))]

    def is_call(self, call):
        """Whether it is a function of the crate, or a type or a trait whose own facts are meant."""
        owner, name = owner_and_name(call)
        if name in PLACEHOLDERS | STANDARD:
            return True
        if owner is not None:
            return self.own.has_in(owner, name) or any(it.name == owner and it.has(name) for it in self.near)
        return self.own.has(name) or any(name in it.types or name in it.functions for it in self.near)

    def clauses_of(self, call):
        """The clauses of a call, and those of the traits' calls of its name, which it has too."""
        owner, name = owner_and_name(call)
        if name in PLACEHOLDERS:
            return set().union(*self.own.functions.values())
        kinds = self.own.traits.get(owner, set()) if owner else set().union(*self.own.traits.values())
        promised = {it for found in self.near for kind in kinds for it in found.owned.get(kind, {}).get(name, ())}
        if owner is not None:
            own = self.own.owned.get(owner, {}).get(name)
            given = own or set().union(*(it.owned[owner].get(name, ()) for it in self.near))
            return promised | given | self.own.types.get(owner, set())
        if name in self.own.functions:
            return promised | self.own.functions[name]
        return set().union(promised, *(it.functions.get(name, ()) for it in self.near), self.of_type(name))

    def of_type(self, name):
        """What a type keeps: its functions' clauses, its ghost words, and the fields of the facts that it keeps."""
        if not any(name in it.types for it in self.near):
            return set()
        kept = (it.types.get(name, set()).union(*it.owned.get(name, {}).values()) for it in self.near)
        return set(self.own.fields).union(*kept)

    def is_defined(self, name):
        """Whether it is a definition, a field of one, a call, a clause of the crate's or of a law's."""
        for it in self.near:
            if it.defines(name) or name in it.functions or name in it.types:
                return True
            if any(name in clauses for clauses in it.owned.get("laws", {}).values()):
                return True
        return any(name in clauses for clauses in self.own.functions.values())

    def is_file(self, word):
        return any(word in it.specs or word in it.proofs for it in self.near)


class Row:
    """A promise: which calls carry it, by which clauses, over which definitions."""

    def __init__(self, tree, own, place, columns, cells):
        self.tree, self.place = tree, place
        self.is_apart = "clause" in columns
        self.calls, self.clauses, self.definitions = (
            FOREIGN.sub("", cells[columns[it]]) if it in columns and columns[it] < len(cells) else ""
            for it in ("call", "clause", "definition")
        )
        named = [it for it in re.findall(r"\w+", " ".join(cells)) if it in tree.crates]
        self.views = [view(it) for it in ([own] if own else dict.fromkeys(named or tree.crates))]
        self.others = [] if own else [view(it) for it in tree.crates]
        self.where = own or "any crate"

    def views_of(self, call):
        """The crates that have a call: of those that the row names, else of all."""
        return [it for it in self.views if it.is_call(call)] or [it for it in self.others if it.is_call(call)]

    def check(self, faults):
        for calls, clauses, fields in self.groups() if self.is_apart else self.joined_groups():
            for call in calls:
                faults.check(self.views_of(call), self.place, f"no call {call} in {self.where}")
            known = self.known_of(calls)
            for clause in clauses:
                faults.check(clause in known, self.place, f"no clause {clause} of {', '.join(calls) or 'any call'}")
            for field in fields:
                faults.check(any(it.is_defined(field) for it in self.all()), self.place, f"no field {field}")
        self.check_definitions(faults)

    def groups(self):
        """Calls with their clauses, and the fields of a clause's definition, which stand after a colon."""
        calls, clauses = self.calls.split(";"), self.clauses.split(";")
        if len(calls) != len(clauses):
            calls, clauses = [self.calls], [self.clauses]
        for call, clause in zip(calls, clauses):
            head, _, tail = clause.partition(":")
            yield [it for it in ticked(call) if it not in self.tree.crates], TICKED.findall(head), TICKED.findall(tail)

    def joined_groups(self):
        """The same where calls and clauses stand in one cell: after a colon, or what is no call."""
        for part in self.calls.split(";"):
            head, colon, tail = part.partition(": ")
            names = list(ticked(head))
            calls = [it for it in names if self.views_of(it)] or names[:1]
            yield calls, TICKED.findall(tail) if colon else [it for it in names if it not in calls], []

    def all(self):
        return self.views + self.others

    def known_of(self, calls):
        """The clauses of these calls; where a row names none, as in `all other calls`, those of the crate."""
        if not calls:
            return set().union(*(clauses for it in self.views for clauses in it.own.functions.values()))
        found = set()
        for call in calls:
            for it in self.views_of(call):
                found |= it.clauses_of(call)
                if re.search(r"\b(type|invariant|trait)\b|'s\b", self.calls):
                    found |= it.of_type(call)
        return found

    def check_definitions(self, faults):
        for span in TICKED.findall(self.definitions):
            file = span.removeprefix("specs/")
            if file != span:
                known = any(file in it.own.specs for it in self.all())
                faults.check(known, self.place, f"no {span} in {self.where}")
            elif re.fullmatch(r"[\w']+", span) and span not in self.tree.crates:
                known = any(it.is_defined(span) or it.is_file(span) for it in self.all())
                faults.check(known, self.place, f"no definition {span}")
        for word in re.findall(r"\b[A-Z]\w*\b", TICKED.sub("", self.definitions)):
            if not word.isupper() and word != "The":
                faults.check(any(it.is_file(word) for it in self.all()), self.place, f"no file {word}.antt of specs")
