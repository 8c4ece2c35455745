"""Relative links and their anchors lead somewhere, and so do the documents that sources and scripts name."""

import re

from .tree import TOP, Document

LINK = re.compile(r"!?\[[^\]]*\]\(([^)\s]+)\)")
MENTION = re.compile(r"(?<!\]\()(?<![\w./])docs/([A-Z]{3,})\b")


def anchors(document):
    """The anchors of a document's headings, made as the hosts of repositories make them."""
    found, counts = set(re.findall(r"<a (?:id|name)=\"([^\"]+)\"", document.text)), {}
    for _, line in document.prose():
        match = re.match(r"#{1,6}\s+(.*?)\s*#*$", line)
        if match is None:
            continue
        words = re.sub(r"\[([^\]]*)\]\([^)]*\)", r"\1", match[1]).lower()
        anchor = re.sub(r"[^\w\- ]", "", words).replace(" ", "-")
        count = counts.get(anchor, 0)
        counts[anchor] = count + 1
        found.add(f"{anchor}-{count}" if count else anchor)
    return found


def check_mentions(tree, faults):
    """Each docs/NAME in a comment, a sample or a document's text."""
    for file in tree.files():
        if TOP / "tools" in file.parents:
            continue
        try:
            text = file.read_text()
        except UnicodeDecodeError:
            continue
        for match in MENTION.finditer(text) if "docs/" in text else ():
            place = f"{file.relative_to(TOP)}:{text.count(chr(10), 0, match.start()) + 1}"
            faults.check((TOP / f"docs/{match[1]}.md").is_file(), place, f"no docs/{match[1]}.md")


def check(tree, faults):
    if tree.is_whole:
        check_mentions(tree, faults)
    known = {}
    for document in tree.documents:
        for number, line in document.prose():
            bare = re.sub(r"(`+).+?\1", "", line)
            for target in LINK.findall(bare):
                if re.match(r"[a-z]+:", target):
                    continue
                path, _, anchor = target.partition("#")
                place = f"{document.name}:{number}"
                file = (document.path.parent / path).resolve() if path else document.path
                if not faults.check(file.exists(), place, f"no {path} to link to") or not anchor:
                    continue
                if file not in known:
                    known[file] = anchors(Document(file)) if file.suffix == ".md" and TOP in file.parents else set()
                faults.check(anchor in known[file], place, f"no heading #{anchor} in {path or document.name}")
