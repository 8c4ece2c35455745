"""Each line that the program can print on standard error stands where an administrator looks it up."""

import re

from .tree import TOP

CRATES = TOP / "crates"
# Where lines are looked up; the codes of a journal's and a configuration's faults also where those are described.
DOCUMENTS = ("docs/ADMIN.md",)
CODES = ("docs/PROTOCOL.md",)
# What `import` says of an entry that it leaves out is the end of a line; it may stand in the text of these too.
REASONS = "*_import/src/left.rt"
REASON = re.compile(r"\bb\"(\w[^\"]* [^\"]*)\"")
TEXTS = (*DOCUMENTS, "docs/PROTOCOL.md")
# Crates that are no part of the program.
TESTS = re.compile(r".*_(cases|tests|vectors|streams|realm|lines)|(cases|tests|support)_.*|bench")
DISPLAY = re.compile(r"^impl(?:<.*>)? fmt::Display for (\w+)", re.MULTILINE)
WRITTEN = re.compile(r"(?:write!\(\s*f,\s*|write_str\(\s*|eprintln!\(\s*rt;\s*|eprintln!\(\s*self\.rt;\s*)\"((?:[^\"\\]|\\.)*)\"")
PLACEHOLDER = re.compile(r"\{[^}]*\}")
# Types whose texts are the ends of lines, and what may stand before an end.
ENDS = re.compile(r".*Words|SetAside")
BEFORE = r"(?:.+: |.+, since |\.\. )?"


def printed():
    """The texts that the program prints: of each the place, the text with its placeholders, and whether it is the end of a
    line."""
    for folder in sorted(CRATES.iterdir()):
        if TESTS.fullmatch(folder.name):
            continue
        for file in sorted((folder / "src").rglob("*.rt")):
            text = file.read_text()
            pieces = [(match.start(), text.find("\n}", match.start()), match[1]) for match in DISPLAY.finditer(text)]
            for match in WRITTEN.finditer(text):
                types = [name for start, end, name in pieces if start <= match.start() < end]
                if types or match[0].startswith("eprintln"):
                    number = text.count("\n", 0, match.start()) + 1
                    yield f"{file.relative_to(TOP)}:{number}", match[1], any(map(ENDS.fullmatch, types))


def pattern(text, is_end):
    """What a document may have for a text: anything but nothing where a placeholder stands, and before an end."""
    words = r".+".join(re.escape(part) for part in PLACEHOLDER.split(text))
    return BEFORE + words if is_end else words


def check(tree, faults):
    lookups = [it for it in map(tree.document, DOCUMENTS) if it]
    if not lookups:
        return
    spans = [span for document in lookups for span in document.code()]
    codes = spans + [span for it in map(tree.document, CODES) if it for span in it.code()]
    for place, text, is_end in printed():
        if not re.search(r"[A-Za-z]", PLACEHOLDER.sub("", text)):
            continue
        is_code = re.match(r"J\d", text) is not None
        wanted = pattern(re.sub(r" at .*", "", text) if is_code else text, is_end)
        found = any(re.fullmatch(wanted, span) for span in (codes if is_code else spans))
        faults.check(found, place, f"isn't in {' or '.join(it.name for it in lookups)}: {text}")
    texts = [it.text for it in map(tree.document, TEXTS) if it]
    for file in CRATES.glob(REASONS):
        source = file.read_text()
        for match in REASON.finditer(source):
            words, number = match[1].strip(), source.count("\n", 0, match.start()) + 1
            found = any(words in text for text in texts)
            faults.check(found, f"{file.relative_to(TOP)}:{number}", f"no document has what `import` says: {words}")
