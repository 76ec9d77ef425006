"""Runs the tests and counts them: all, or those of folders, modules, classes or cases, by their names or paths below
tests/ (`program`, `program.test_answers.Answers`, `tests/program/test_answers.py`). Each part that needs something that
isn't installed or built is left out, and named at the end.

    python3 -m tests [--proofs | --users] [-j COUNT] [-k WORD ..] [SUBJECT ..]

Subjects run side by side (tests/support/lanes.py). Where proofs are asked for and the toolchain is missing, the status
is 3 in place of 0.
"""
import argparse
import os
import re
import shutil
import signal
import subprocess
import sys
import unittest

from tests.support import lanes, places, users
from tests.support.tally import Tally


def found(names, words):
    """Gives the cases with these names, all if there are none, whose names have one of these words or fit a pattern."""
    loader = unittest.TestLoader()
    loader.testNamePatterns = [word if "*" in word else f"*{word}*" for word in words] or None
    return unittest.TestSuite(cases_of(loader, name) for name in names or ["tests"])


def cases_of(loader, name):
    """Gives the cases of a folder of tests/, or of a module, a class or a case in one, by its name or its path."""
    parts = name.removesuffix(".py").strip("/").replace("/", ".").split(".")
    parts = parts if parts[0] == "tests" else ["tests", *parts]
    if os.path.isdir(places.path(*parts)):
        return loader.discover(places.path(*parts), top_level_dir=places.TOP)
    return loader.loadTestsFromName(".".join(parts))


def chosen(given, early):
    """Gives the cases that are asked for, but for those that run early."""
    is_lane, left_out = given.lane is not None, tuple(f"tests.{name}." for name in early)
    names = sys.stdin.read().split() if is_lane else given.names or (users.CASES if given.users else [])
    dear = users.DEAR if given.users and not is_lane else ()
    cases = unittest.TestSuite(it for it in lanes.cases_of(found(names, given.k))
                               if it.id().split(".")[-1] not in dear and not it.id().startswith(left_out))
    if not cases.countTestCases():
        print(f"no case has {' or '.join(given.k) or 'this'} in its name", file=sys.stderr)
    return cases


def prove(tally, beside):
    """Runs tests/proofs, adds the counts of its last line, and tells its processor time; what may run beside it begins
    once it leaves a processor. Whether all of it passed."""
    if not shutil.which("rt"):
        tally.left_out["the Rattle toolchain (rt) isn't on the path, so nothing is proved"].append("tests.proofs")
        return True
    counted = (0, 0)
    how = {"stdin": subprocess.DEVNULL, "stdout": subprocess.PIPE, "text": True, "errors": "replace"}
    with subprocess.Popen([places.path("tests", "proofs")], **how) as run:
        for line in run.stdout:
            print(line, end="", flush=True)
            if line == lanes.ONE_BY_ONE:
                beside.begin()
            if counts := re.fullmatch(r"(\d+) passed, (\d+) failed\n", line):
                counted = int(counts[1]), int(counts[2])
        _, status, used = os.wait4(run.pid, 0)
        run.returncode = os.waitstatus_to_exitcode(status)
    passed, failed = counted
    tally.say(f"proofs: of a processor {used.ru_utime + used.ru_stime:.0f} s")
    tally.passed += passed
    tally.failed += max(failed, 1) if run.returncode or not passed else 0
    return not tally.failed


def end_in_order(own):
    """Lets SIGTERM end this process as Ctrl-C does, with its folders and processes; its children end at once."""
    def end(number, frame):
        if os.getpid() == own:
            signal.default_int_handler(number, frame)
        os._exit(128 + number)
    signal.signal(signal.SIGTERM, end)


def main():
    how = {"description": __doc__, "formatter_class": argparse.RawDescriptionHelpFormatter}
    words = argparse.ArgumentParser(prog="python3 -m tests", **how)
    words.add_argument("--proofs", action="store_true", help="begin with tests/proofs, and count what it does")
    words.add_argument("--users", action="store_true", help="run what tests/support/users.py names")
    words.add_argument("-j", metavar="COUNT", type=int,
                       default=int(os.environ.get("RT_JOBS") or len(os.sched_getaffinity(0)) + 1),
                       help="run so many subjects at a time; by default RT_JOBS, or one more than there are "
                       "processors, since some wait")
    words.add_argument("--lane", metavar="FILE", type=int, help=argparse.SUPPRESS)  # that takes what becomes of a lane
    words.add_argument("-k", metavar="WORD", action="append", default=[], help="run cases whose names have this word")
    words.add_argument("names", metavar="SUBJECT", nargs="*", help="a folder, module, class or case of tests/")
    given = words.parse_args()
    end_in_order(os.getpid())
    is_lane = given.lane is not None
    tally = lanes.Lane(given.lane) if is_lane else Tally(lambda line: print(line, flush=True))
    is_unproved = given.proofs and not shutil.which("rt")
    if is_unproved:
        print("Nothing will be proved: the Rattle toolchain (rt) isn't on the path.", flush=True)
    if given.users:
        tally.closing = users.UNPROVED
        users.prepare()
    early = lanes.BESIDE if given.proofs and given.j > 1 and not (given.names or given.k) else ()
    try:
        with lanes.Lanes({"beside": early} if early else {}, [], 1) as beside:
            # (some modules build the library when they are loaded, which takes what is proved then)
            is_proved = not given.proofs or prove(tally, beside)
            cases = chosen(given, early)
            if is_proved:
                lanes.run(cases, tally, 1 if is_lane else given.j, ["--users"] * given.users)
            else:
                tally.leave_out(cases, "the proofs failed")
            beside.tell(tally)
    except KeyboardInterrupt:
        tally.say("broken off by a signal")
        tally.failed += 1
    return tally.end() or (3 if is_unproved else 0)


if __name__ == "__main__":
    sys.exit(main())
