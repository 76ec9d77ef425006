"""Runs cases side by side. Those of a subject are a lane: one after another, in a process of its own. So many lanes run
at a time as are asked for, and what becomes of each is told in the order in which they stand."""
import collections
import contextlib
import json
import os
import queue
import signal
import subprocess
import sys
import unittest
from concurrent.futures import ThreadPoolExecutor

from tests.support import places
from tests.support.tally import Tally

# Subjects that are in the lane of another, which builds the same files.
TOGETHER = {"packages": "page"}
# Lanes that take longest, which begin first; edits go before all others, since they are as long as half of these. (Two
# provers side by side would take a tenth more, since they contend for memory.)
LONGEST = ("edits", "page", "sampler", "scale", "library")
# What stands on nothing that is proved or built in this checkout: a lane beside the proofs.
BESIDE = ("documents", "gate", "tables", "packages.test_clean")
# It begins when they say this, since from then on they take one processor most of the time.
ONE_BY_ONE = "rt: dm_code proved\n"


def cases_of(suite):
    for it in suite:
        yield from cases_of(it) if isinstance(it, unittest.TestSuite) else [it]


def lane_of(case):
    """Gives the lane of a case, or None for what stands for a module that can't be loaded or is left out."""
    top, subject, *_ = case.id().split(".")
    return TOGETHER.get(subject, subject) if top == "tests" else None


def run(suite, tally, count, words):
    """Runs a suite in so many lanes at a time, or here if it has but one, by the words of a run that hold there."""
    lanes = collections.defaultdict(list)
    for case in cases_of(suite):
        lanes[lane_of(case)].append(case)
    if count < 2 or len(lanes) < 2:
        suite.run(tally)
        return
    unittest.TestSuite(lanes.pop(None, ())).run(tally)
    tally.end_class()
    with Lanes({name: [case.id() for case in cases] for name, cases in lanes.items()}, words, count) as all_of_them:
        all_of_them.tell(tally)


class Lanes(contextlib.AbstractContextManager):
    """Lanes by the names of their cases, so many at a time."""

    def __init__(self, names, words, count):
        self.names, self.words, self.processes = names, words, []
        self.reports = {name: queue.SimpleQueue() for name in names}
        self.waiting = sorted(names, key=lambda it: (*LONGEST, it).index(it))
        self.pool = ThreadPoolExecutor(count)

    def begin(self):
        while self.waiting:
            self.pool.submit(self.run_lane, self.waiting.pop(0))

    def __exit__(self, kind, *_):
        if kind:
            self.pool.shutdown(wait=False, cancel_futures=True)
            for process in self.processes:
                with contextlib.suppress(ProcessLookupError):
                    os.killpg(process.pid, signal.SIGTERM)  # what it has started ends with it
        self.pool.shutdown()

    def tell(self, tally):
        """Tells and counts what becomes of them, until the last has ended."""
        self.begin()
        for reports in self.reports.values():
            for report in iter(reports.get, None):
                tally.take(*report)

    def run_lane(self, name):
        """Runs a lane in a process of its own, which reports what becomes of each class."""
        reading, writing = os.pipe()
        first = [] if name == LONGEST[0] else ["nice", "-n", "5"]
        words = [*first, sys.executable, "-m", "tests", *self.words, "--lane", str(writing)]
        how = {"stdin": subprocess.PIPE, "pass_fds": [writing], "cwd": places.TOP, "start_new_session": True,
               "env": {**os.environ, "PYTHONDONTWRITEBYTECODE": "1"}}
        tell = self.reports[name].put
        try:
            with subprocess.Popen(words, **how) as process, open(reading, encoding="utf-8") as reports:
                self.processes.append(process)
                os.close(writing)
                process.stdin.write("\n".join(self.names[name]).encode())
                process.stdin.close()
                for report in reports:
                    tell(json.loads(report))
            if process.returncode:
                tell(([f"FAILED {name}: its process ended with {process.returncode}"], 0, 1, {}))
        except OSError as why:
            tell(([f"FAILED {name}: {why}"], 0, 1, {}))
        tell(None)


class Lane(Tally):
    """Counts the cases of one lane, and reports each class to the run that has started it."""

    def __init__(self, reports):
        self.said = []
        super().__init__(self.said.append)
        self.reports = open(reports, "w", encoding="utf-8")

    def end_class(self):
        super().end_class()
        print(json.dumps([self.said, self.passed, self.failed, self.left_out]), file=self.reports, flush=True)
        self.said.clear()
        self.passed = self.failed = 0
        self.left_out.clear()

    def end(self):
        """Ends the lane, whose status says only that it came to its end."""
        self.end_class()
        return 0
