"""The tables of PROTOCOL's decision are the definition's: of each row the result code, the error code and the text."""

import re

from .tree import TOP

DOCUMENT = "docs/PROTOCOL.md"
ANSWERS = TOP / "crates/chpw_table/specs/Replies.antt"
NUMBERS = TOP / "crates/krb_protocol/src/codes.rt"
CODE = re.compile(r"^pub const (\w+): [ui]\d+ = (\d+);", re.MULTILINE)
BY_ERROR = re.compile(r"^answer_of (\w+) = by_error (\w+) (\w+) \(codes \"(.*)\"\)$", re.MULTILINE)
BY_PRIVATE = re.compile(r"^answer_of (\w+) = by_private (\w+) \(codes \"(.*)\"\)$", re.MULTILINE)
TOLD = re.compile(r"^told_of(?:_update u)? (\w+)\.(\w+) = record \{ code = (\w+); text = (?:codes \"(.*)\"|taken_text u) \}$", re.MULTILINE)
TAKEN = re.compile(r"^taken_text \(update\.\w+ .*\) = codes \"(.*)\"$", re.MULTILINE)
HEAD = re.compile(r"row +code +error +text +condition")


def of_definition():
    """The rows of the definition: name, code, error code or nothing, and text."""
    text, numbers = ANSWERS.read_text(), dict(CODE.findall(NUMBERS.read_text()))
    rows = {row: (numbers[code], numbers[error], words) for row, code, error, words in BY_ERROR.findall(text)}
    return rows | {row: (numbers[code], "", words) for row, code, words in BY_PRIVATE.findall(text)}


def of_document(document):
    """The rows of the document's table, likewise, each with the number of its line."""
    for start, _, lines in document.blocks:
        if lines and HEAD.match(lines[0]):
            error, text, end = (lines[0].index(it) for it in ("error", "text", "condition"))
            for number, line in enumerate(lines[1:], start + 1):
                row, code = line[:error].split()
                yield number, row, (code, line[error:text].strip(), line[text:end].strip())


def check_updates(document, faults):
    """What a raise and an update are told stands there, a raise's in a sentence, an update's in its table."""
    source, numbers = ANSWERS.read_text(), dict(CODE.findall(NUMBERS.read_text()))
    place = f"{ANSWERS.relative_to(TOP)}"
    for kind, verdict, code, text in TOLD.findall(source):
        if kind == "raise":
            wanted = rf"`{text}`( as in {verdict})? \((code )?{numbers[code]}\)"
        else:
            said = text or ", ".join(TAKEN.findall(source))
            wanted = rf"^{verdict} +{numbers[code]}  {said}(  |$)"
        faults.check(re.search(wanted, document.text, re.MULTILINE), place, f"{DOCUMENT} lacks the answer {verdict}: {numbers[code]} {text}")


def check(tree, faults):
    document = tree.document(DOCUMENT)
    if not document:
        return
    wanted, found = of_definition(), {}
    for number, row, answer in of_document(document):
        found[row] = answer
        faults.check(answer == wanted.get(row), f"{DOCUMENT}:{number}", f"{row} is {' '.join(wanted.get(row, ('no row',)))}")
    faults.check(set(found) == set(wanted), DOCUMENT, f"lacks the rows {set(wanted) - set(found)}")
    check_updates(document, faults)
