"""What the manual pages quote, and the texts of refused frames in PROTOCOL, are printed: each stands in a source or a definition."""

import re

from .tree import TOP

DOCUMENT = "docs/PROTOCOL.md"
PAGES = ("packaging/man/chpw_server.8", "packaging/man/boddrelyn.toml.5")
QUOTED = re.compile(r"^\.Dq (.*?)(?: [,.:])?$", re.MULTILINE)
# A value stands where a quotation has capitals or a number; `..` is more of the same.
VALUE = re.compile(r"\b[A-Z][A-Z@]*\b|\.\.|\b[A-Z]?\d+\b")
LITERAL = re.compile(r"\"((?:[^\"\\\n]|\\.)*)\"")
PLACEHOLDER = re.compile(r"\{[^}]*\}")
# A row of the frame's table: code, text, condition. In a sentence the text comes after the error code.
ROW = re.compile(r"^\d  ([a-z][a-z ]*?) {2,}\S")
TOLD = re.compile(r"error \d+[,:]? `([^`]+)`")


def literals():
    """All texts of the program: literals of its sources and of its definitions, with a blank for each value."""
    for pattern in ("crates/chpw_*/src/**/*.rt", "crates/krb_*/src/**/*.rt", "crates/chpw_*/specs/**/*.antt", "crates/krb_*/specs/**/*.antt"):
        for file in TOP.glob(pattern):
            for text in LITERAL.findall(file.read_text()):
                yield PLACEHOLDER.sub(" ", text).replace("\\n", " ")


def quotations():
    """What the manual pages quote, with the place."""
    for page in PAGES:
        text = (TOP / page).read_text()
        for match in QUOTED.finditer(text):
            yield f"{page}:{text.count(chr(10), 0, match.start()) + 1}", match[1]


def refusals(document):
    """The texts of refused frames, with the place."""
    for start, _, lines in document.blocks:
        rows = [ROW.match(line) for line in lines]
        if rows and all(rows):
            yield from ((f"{DOCUMENT}:{number}", row[1]) for number, row in enumerate(rows, start))
    for number, line in document.prose():
        yield from ((f"{DOCUMENT}:{number}", text) for text in TOLD.findall(line))


def check(tree, faults):
    document = tree.document(DOCUMENT)
    if not document:
        return
    known = "\n".join(literals())
    for place, text in (*quotations(), *refusals(document)):
        pieces = [piece.strip() for piece in VALUE.split(text)]
        lacking = [piece for piece in pieces if re.search(r"[a-z]", piece) and piece not in known]
        faults.check(not lacking, place, f"no source prints {text}")
