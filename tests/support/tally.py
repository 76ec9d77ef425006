"""Counts cases and rows as they are run, and tells each failure at once and, at the end, what was left out."""
import collections
import os
import time
import traceback
import unittest


def times():
    """Seconds by the clock, and of processor time of this process and of its children that have ended."""
    return time.monotonic(), sum(os.times()[:4])


class Tally(unittest.TestResult):
    """Counts a case once, or each of its rows in its place, as passed, failed, or left out with a reason. A line is
    printed for each class, with its seconds by the clock and of processor time."""

    def __init__(self, say=print):
        super().__init__()
        self.passed = self.failed = 0
        self.left_out = collections.defaultdict(list)
        self.say, self.closing = say, ""
        self.kind, self.before = None, (0, 0, 0)
        self.begun = self.ended = times()
        self.rows = 0

    @property
    def skips(self):
        return sum(map(len, self.left_out.values()))

    def leave_out(self, cases, reason):
        """Leaves out all cases of a suite."""
        for case in cases:
            if isinstance(case, unittest.TestSuite):
                self.leave_out(case, reason)
            else:
                self.left_out[reason].append(name_of(case))

    def take(self, said, passed, failed, left_out):
        """Tells and counts what became of cases that were run elsewhere."""
        for line in said:
            self.say(line)
        self.passed += passed
        self.failed += failed
        for reason, names in left_out.items():
            self.left_out[reason] += names

    def counts(self):
        return self.passed, self.failed, self.skips

    # ---- What unittest calls

    def startTest(self, test):
        super().startTest(test)
        self.rows = 0
        if self.kind != name_of(test).rpartition(".")[0]:
            self.end_class()
            self.kind, self.before = name_of(test).rpartition(".")[0], self.counts()

    def stopTest(self, test):
        super().stopTest(test)
        self.ended = times()

    def addSuccess(self, test):
        super().addSuccess(test)
        self.passed += not self.rows

    def addSubTest(self, test, subtest, err):
        super().addSubTest(test, subtest, err)
        self.rows += 1
        self.passed += err is None
        if err is not None:
            self.fail(test, err)

    def addFailure(self, test, err):
        super().addFailure(test, err)
        self.fail(test, err)

    def addError(self, test, err):
        super().addError(test, err)
        if not isinstance(test, unittest.TestCase):  # a class that can't be prepared, after the last case of another
            self.end_class()
        self.fail(test, err)

    def addSkip(self, test, reason):
        super().addSkip(test, reason)
        self.rows += 1
        self.left_out[reason].append(name_of(test))

    def addUnexpectedSuccess(self, test):
        super().addUnexpectedSuccess(test)
        self.failed += 1
        self.say(f"FAILED {name_of(test)}: it was expected to fail")

    # ---- What is told

    def fail(self, test, err):
        """Counts a failure and tells it: what a comparison says, or what else was raised, and where."""
        self.failed += 1
        kind, why, _ = err
        said = str(why) if issubclass(kind, AssertionError) else "".join(traceback.format_exception(*err)).strip()
        self.say(f"FAILED {name_of(test)}: {said}")

    def end_class(self):
        if self.kind:
            changes = zip(("passed", "failed", "skipped"), self.before, self.counts())
            told = ", ".join(f"{now - was} {word}" for word, was, now in changes if now > was)
            clock, processor = (now - was for was, now in zip(self.begun, self.ended))
            self.say(f"{self.kind.removeprefix('tests.')}: {told}, {clock:.1f} s, of a processor {processor:.1f} s")
            self.begun = self.ended
        self.kind = None

    def end(self):
        """Tells what was left out, what all took, and all counts in the last line. Gives the status of the run."""
        self.end_class()
        for reason, names in self.left_out.items():
            self.say(f"left out, since {reason}: {', '.join(together(names))}")
        self.say(f"all of it: of a processor {times()[1]:.0f} s")
        if self.closing:
            self.say(self.closing)
        self.say(f"{self.passed} passed, {self.failed} failed, {self.skips} skipped")
        return 1 if self.failed or not self.passed and not self.skips else 0


def name_of(test):
    """Gives the name of a case, of the case that a row belongs to, or of a class whose preparation failed."""
    return getattr(test, "test_case", test).id()


def together(names):
    """Gives names of cases, those of one class as its name and how many cases or rows they are."""
    of_class = collections.defaultdict(list)
    for name in names:
        of_class[name.rpartition(".")[0]].append(name)
    told = [f"{kind} ({len(some)})" if len(some) > 1 else some[0] for kind, some in of_class.items()]
    return [name.removeprefix("tests.") for name in told]
