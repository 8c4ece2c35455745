"""What scripts make of the sources: written, or compared with what stands there."""

import sys

from harness.command import TOP


def add_check(parser, words):
    parser.add_argument("--check", action="store_true", help=f"change nothing, and report {words}")


def make(file, text, is_check, differs):
    """Writes a file; with `is_check`, ends with this line and status 1 where it has another text."""
    if not is_check:
        file.write_text(text)
    elif not file.is_file() or file.read_text() != text:
        sys.exit(differs)


def remake(files, changed, is_check, differs):
    """Writes what `changed` makes of the text of documents, and says which; with `is_check` nothing is written. The status."""
    wrong = 0
    for file in files:
        text = file.read_text()
        anew = changed(text)
        if anew != text:
            wrong += 1
            name = file.relative_to(TOP) if TOP in file.parents else file
            print(f"{name}: {differs if is_check else 'written anew'}")
            if not is_check:
                file.write_text(anew)
    return 1 if is_check and wrong else 0
