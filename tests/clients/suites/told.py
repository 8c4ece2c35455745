"""What a suite tells `tests.clients.peers`: a line for each test, `test NAME`, and below it a line `note WORDS` for each thing that is
another one than the suite expects."""

import traceback


def tell(name, notes):
    print(f"test {name}", flush=True)
    for note in notes:
        print("note " + " ".join(str(note).split()), flush=True)


def run(name, work):
    """A test whose notes the work gives; a fault of it is one, too."""
    try:
        tell(name, work() or ())
    except Exception as fault:
        tell(name, [f"{type(fault).__name__}: {(str(fault) or traceback.format_exc(limit=-1))[:300]}"])


def wanted(what, got, expected):
    """A note if they differ."""
    return [] if got == expected else [f"{what}: {got!r} and not {expected!r}"]
