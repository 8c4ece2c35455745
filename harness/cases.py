"""Cases over a built program, run by unittest: a line for each check, and at the end how many there were, and failed.

A case is a test, and has a folder of its own; each of its checks is a subtest. The lines of a case begin with the name of its
method, without `test_` and with spaces, or with the name that `named` gives it.
"""

import pathlib
import re
import sys
import tempfile
import traceback
import unittest

from harness.command import PROGRAM, Parser


def named(name):
    """Gives a case another name than its method has."""
    def give(body):
        body.case_name = name
        return body
    return give


def add(kind, name, body, *words):
    """Adds a case to a class, for one row of a table: what `body` does with the case and these words."""
    method = "test_" + re.sub(r"\W+", "_", name)
    if hasattr(kind, method):
        raise ValueError(f"{kind.__name__} has two cases {name}")
    setattr(kind, method, named(name)(lambda case: body(case, *words)))


class Case(unittest.TestCase):
    """A case with a folder, which is gone afterwards."""

    program = PROGRAM
    # the words of the command line
    words = None

    def setUp(self):
        body = getattr(self, self._testMethodName)
        self.name = getattr(body, "case_name", self._testMethodName.removeprefix("test_").replace("_", " "))
        folder = tempfile.TemporaryDirectory(prefix="chpw-case-")
        self.addCleanup(folder.cleanup)
        self.folder = pathlib.Path(folder.name)

    def tell(self, what, found, wanted):
        """A check: whether this is what is wanted."""
        with self.subTest(what=what, found=found):
            if found != wanted:
                self.fail(f"{found!r} and not {wanted!r}")


class Lines(unittest.TestResult):
    """Prints a line for each check, and one for a case that goes wrong in another way."""

    def __init__(self):
        super().__init__()
        self.checks = self.failed = 0

    def note(self, line, is_right):
        self.checks += 1
        self.failed += not is_right
        print(f"{'ok' if is_right else 'FAILED'}: {line}", flush=True)

    def addSubTest(self, test, subtest, fault):
        super().addSubTest(test, subtest, fault)
        what, found = subtest.params["what"], subtest.params["found"]
        self.note(f"{what}: {fault[1] if fault else found}", fault is None)

    def went_wrong(self, test, fault):
        traceback.print_exception(*fault)
        self.note(f"{getattr(test, 'name', test)}: went wrong: {fault[1]!r}", False)

    def addError(self, test, fault):
        super().addError(test, fault)
        self.went_wrong(test, fault)

    def addFailure(self, test, fault):
        super().addFailure(test, fault)
        self.went_wrong(test, fault)

    def addSkip(self, test, reason):
        super().addSkip(test, reason)
        print(f"left out: {reason}", flush=True)


class InOrder(unittest.TestLoader):
    """Loads the cases in the order in which they are written."""

    def getTestCaseNames(self, kind):
        order = [name for one in reversed(kind.__mro__) for name in vars(one)]
        return sorted(super().getTestCaseNames(kind), key=order.index)


def pattern_of(words):
    """What unittest selects cases by, of words of a case's name."""
    return words if "*" in words else f"*{re.sub(r'[^A-Za-z0-9]+', '_', words)}*"


def main(text, add_options=lambda parser: None):
    """Runs the cases of the script with this text at its head, and ends. It may have options of its own: `words` of a case."""
    parser = Parser(text)
    parser.add_program("--program")
    add_options(parser)
    parser.add_argument("-k", action="append", metavar="NAME", help="the cases whose name has this in it; may be repeated")
    words = parser.parse_args()
    Case.program, Case.words = words.program, words
    loader = InOrder()
    loader.testNamePatterns = [pattern_of(it) for it in words.k] if words.k else None
    cases = loader.loadTestsFromModule(sys.modules["__main__"])
    if cases.countTestCases() == 0:
        parser.error(f"there is no case {', '.join(words.k)}")
    lines = Lines()
    cases.run(lines)
    print(f"cases {lines.checks} failed {lines.failed}")
    sys.exit(1 if lines.failed else 0)
