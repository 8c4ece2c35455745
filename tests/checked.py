"""Tests of real programs beside each other: a line for each check, and steps that go on from each other."""

import traceback
import unittest

from harness.cases import InOrder, Lines, pattern_of


class Checked(unittest.TestCase):
    """A test makes any number of checks. Steps that go on from each other are one test, and a subtest each."""

    def tell(self, what, found, wanted=True):
        """A check: whether this is what is wanted."""
        is_right = found == wanted
        with self.subTest(what=what, found=self.shown(found)):
            if not is_right:
                self.fail(f"{found!r} and not {wanted!r}")
        return is_right

    def shown(self, found):
        """What the check's line has of it."""
        return found

    def in_turn(self, steps, *words):
        """Makes each of them with these words. One that can't be gone on with has failed, and the next one is made."""
        for step in steps:
            print(f"- {step.__name__}", flush=True)
            with self.subTest(step=step.__name__):
                step(*words)

    def enter(self, context):
        """What `with` gives; it is left when the test ends."""
        value = context.__enter__()
        self.addCleanup(context.__exit__, None, None, None)
        return value


class Counted(Lines):
    """A line for each check; of a test or a step alone one where it goes wrong in another way."""

    def startTest(self, test):
        super().startTest(test)
        print(f"- {test.id().rpartition('.')[2]}", flush=True)

    def addSubTest(self, test, subtest, fault):
        if "what" in subtest.params:
            super().addSubTest(test, subtest, fault)
        elif fault is not None:
            unittest.TestResult.addSubTest(self, test, subtest, fault)
            self.went_wrong(subtest, fault)

    def went_wrong(self, test, fault):
        traceback.print_exception(*fault)
        self.note(f"{test}: went wrong: {fault[1]!r}", False)

    def status(self):
        """Prints the last line."""
        print(f"{self.checks - self.failed} passed, {self.failed} failed", flush=True)
        return 1 if self.failed else 0


class Chosen(InOrder):
    """Loads the tests whose name has one of these words in it."""

    def __init__(self, words=None):
        super().__init__()
        self.testNamePatterns = [pattern_of(it) for it in words] if words else None

    def suite(self, kinds):
        return unittest.TestSuite(map(self.loadTestsFromTestCase, kinds))


def add_choice(parser):
    """The option by which tests are chosen, as unittest has it."""
    parser.add_argument("-k", action="append", metavar="NAME", dest="words",
                        help="the tests whose name has this in it, or matches it where it has a *; may be repeated")
