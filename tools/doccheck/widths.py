"""No line of a source, a definition or a proof is too long to be read."""

from .tree import TOP

MOST = 160


def check(tree, faults):
    for file in tree.files():
        if file.suffix in (".rt", ".antt"):
            for number, line in enumerate(file.read_text().splitlines(), 1):
                faults.check(len(line) <= MOST, f"{file.relative_to(TOP)}:{number}", f"has {len(line)} characters")
