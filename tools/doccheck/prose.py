"""Sentences that name code.

`call` (`clause`, `clause`) has these clauses; [crate `File`, `File.name`] has these files of definitions, with these names;
and each identifier stands in some source. An identifier is a span in backquotes with an underscore or a capital amid its
letters. The crates that a line names are looked at first, then all. In the README of a crate of cases a call has parts of a
program in parentheses.
"""

import functools
import re

from .names import FOREIGN_OWNERS
from .sources import crate
from .tables import MADE, PLACEHOLDERS, TICKED, owner_and_name, rows, view

SPAN = r"`[^`]+`"
PAIR = re.compile(rf"`([\w:]+)` \(({SPAN}(?:(?:, | and |, and ){SPAN})*)\)")
BRACKETS = re.compile(r"\[(\w+ `[A-Z][^]]*)\](?!\()")
CLAUSE = re.compile(r"[a-z][a-z0-9_]*")
IDENTIFIER = re.compile(r"[A-Za-z]\w*_\w+|[A-Z][a-z0-9]+(?:[A-Z][a-z0-9]*)+")
WORD = re.compile(r"[A-Za-z_]\w*")

# Names of other projects', and of the toolchain's.
FOREIGN = {"krb5_kt_next_entry", "start_io"}


def check(tree, faults):
    for document in tree.documents:
        if document.name in MADE:
            continue
        tables = {number for number, _, _ in rows(document)}
        folder = document.path.parent.name
        own = [folder] if folder in tree.crates else []
        for number, line in document.prose():
            place = f"{document.name}:{number}"
            check_brackets(tree, faults, place, line)
            if number not in tables and not folder.startswith("cases_"):
                check_pairs(tree, faults, place, line, own)
            for span in TICKED.findall(line):
                if IDENTIFIER.fullmatch(span) and span not in FOREIGN:
                    faults.check(span in words_of_sources(tree), place, f"no {span} in any source")


def check_pairs(tree, faults, place, line, own):
    for call, text in PAIR.findall(line):
        clauses = [it for it in TICKED.findall(text) if CLAUSE.fullmatch(it) and it not in tree.crates]
        owner, name = owner_and_name(call)
        if not clauses or owner in FOREIGN_OWNERS or name in PLACEHOLDERS:
            continue
        named = [it for it in re.findall(r"\w+", line) if it in tree.crates]
        views = [it for it in map(view, [*own, *named]) if it.is_call(call)]
        views = views or [it for it in map(view, tree.crates) if it.is_call(call)]
        if not faults.check(views, place, f"no call {call}"):
            continue
        known = set().union(*(it.clauses_of(call) | it.of_type(call) for it in views))
        for clause in clauses:
            faults.check(clause in known, place, f"no clause {clause} of {call}")


def check_brackets(tree, faults, place, line):
    for text in BRACKETS.findall(line):
        for part in text.split(";"):
            name = part.split()[0]
            if not faults.check(name in tree.crates, place, f"no crate {name}"):
                continue
            for span in TICKED.findall(part):
                file, _, word = span.partition(".")
                known = crate(name).specs.get(file)
                holds = known is not None and (not word or word in known)
                faults.check(holds, place, f"no {span} in the definitions of {name}")


@functools.lru_cache(None)
def words_of_sources(tree):
    """All words of files that are no documents."""
    words = set()
    for file in tree.files():
        if file.suffix not in (".md", ".svg", ".png"):
            words |= set(WORD.findall(file.read_text(errors="replace")))
    return words
