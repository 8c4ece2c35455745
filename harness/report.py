"""A line for each case."""


class Report:
    """Prints what was found, and counts what differs from what was wanted.

    `last` is the last line, with both numbers.
    """

    def __init__(self, last="cases {} failed {}"):
        self.last = last
        self.cases = 0
        self.failed = 0

    def tell(self, what, found, wanted):
        self.cases += 1
        if found == wanted:
            print(f"ok: {what}: {found}", flush=True)
        else:
            self.failed += 1
            print(f"FAILED: {what}: {found!r} and not {wanted!r}", flush=True)

    def status(self):
        """Prints the last line."""
        print(self.last.format(self.cases, self.failed))
        return 1 if self.failed else 0
