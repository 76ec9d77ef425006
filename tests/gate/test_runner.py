"""How the runner counts cases, rows and what is left out, what it tells of each, and with which status it ends."""
import os
import re
import shutil
import subprocess
import sys

from tests.support import commands, places
from tests.support.case import Case

SUITE = '''
import time
import unittest
from tests.support.case import Case


class Cases(Case):
    def test_without_rows(self):
        pass

    def test_rows_of_which_one_is_wrong(self):
        self.rows([("one", 1, 1), ("two", 2, 3), ("three", 3, 3)])

    def test_a_row_that_is_left_out(self):
        self.row("one", 1, 1)
        with self.subTest("two"):
            self.skipTest("nothing is installed")

    def test_no_row(self):
        self.rows([])

    def test_what_breaks_off(self):
        self.row("before", 1, 1)
        raise OSError("the way is gone")

    @unittest.skip("nothing is installed")
    def test_skipped(self):
        pass


class Prepared(Case):
    @classmethod
    def setUpClass(cls):
        time.sleep(0.3)

    def test_at_once(self):
        pass


class Unprepared(Case):
    @classmethod
    def setUpClass(cls):
        raise AssertionError("it can't be prepared")

    def test_never_run(self):
        pass
'''


# A case by itself, whose body follows.
ALONE = '''
import os, subprocess, sys, time
from tests.support.case import Case


class Alone(Case):
    def test_alone(self):
'''
# It waits, in a folder whose name it tells; a child works; it waits until the case of another subject has begun; its
# process ends.
SLOW = ALONE + """\
        print(self.folder(), flush=True)
        time.sleep(60)
"""
BUSY = ALONE + """\
        subprocess.run([sys.executable, "-c", "import time\\nwhile time.process_time() < 1: pass"], check=True)
"""
MEETING = ALONE + """\
        open("{own}", "w").close()
        until = time.monotonic() + 60
        while not os.path.exists("{other}") and time.monotonic() < until:
            time.sleep(0.01)
        self.row("the other", os.path.exists("{other}"), True)
        self.row("a row that is wrong", "{own}", "first")
"""
LOST = ALONE + "        os._exit(7)"


class Runner(Case):
    @classmethod
    def setUpClass(cls):
        """Runs a suite of a copy of the runner, with a stand-in for the proofs."""
        cls.top = cls.folder_of_class()
        for name in ("tests/__init__.py", "tests/__main__.py", "tests/environment", *cls.support()):
            cls.write(name, places.text_of(name))
        cls.write("tests/sample/__init__.py", "")
        cls.write("tests/sample/test_sample.py", SUITE)
        os.chmod(os.path.join(cls.top, "tests", "environment"), 0o755)

    @staticmethod
    def support():
        return [f"tests/support/{name}" for name in os.listdir(places.path("tests", "support")) if name.endswith(".py")]

    @classmethod
    def write(cls, name, text):
        path = os.path.join(cls.top, name)
        os.makedirs(os.path.dirname(path), exist_ok=True)
        places.wrote(text, path)

    def ran(self, *words, **more):
        """Status and lines of a run of the copy."""
        status, said = commands.said([sys.executable, "-m", "tests", *words], cwd=self.top,
                                     env=commands.environment(**more))
        return status, said.splitlines()

    def subject(self, name, text, module=None):
        self.write(f"tests/{name}/__init__.py", "")
        self.write(f"tests/{name}/{module or f'test_{name}'}.py", text)
        self.addCleanup(shutil.rmtree, os.path.join(self.top, "tests", name))

    def proofs(self, script):
        """Puts a script in the place of tests/proofs, and of the toolchain, which isn't asked for more."""
        for name, text in (("tests/proofs", script), ("bin/rt", "exit 1")):
            self.write(name, f"#!/bin/sh\n{text}\n")
            os.chmod(os.path.join(self.top, name), 0o755)
        return {"PATH": os.pathsep.join([os.path.join(self.top, "bin"), os.environ["PATH"]])}

    def test_rows_are_counted_in_place_of_their_case(self):
        status, said = self.ran()
        self.assertEqual((status, said[-1]), (1, "6 passed, 4 failed, 2 skipped"))

    def test_what_failed_and_what_is_left_out_is_named(self):
        told = "\n".join(self.ran()[1])
        for words in ("Cases.test_rows_of_which_one_is_wrong: two: 2, and not 3", "OSError: the way is gone",
                      "test_no_row: 0 not greater than 0", "setUpClass (tests.sample.test_sample.Unprepared): it can't",
                      "left out, since nothing is installed: sample.test_sample.Cases (2)"):
            self.row(words, words in told, True)

    def test_the_time_of_a_class_is_told_with_what_prepares_it(self):
        told = re.search(r"sample.test_sample.Prepared: 1 passed, ([\d.]+) s", "\n".join(self.ran()[1]))
        self.assertGreaterEqual(float(told[1]), 0.3)

    def test_the_processor_time_of_a_class_is_told_with_that_of_its_children(self):
        self.subject("busy", BUSY)
        said = "\n".join(self.ran("busy")[1])
        of_class = re.search(r"busy.test_busy.Alone: 1 passed, [\d.]+ s, of a processor ([\d.]+) s", said)
        of_all = re.search(r"(?m)^all of it: of a processor (\d+) s$", said)
        self.row("of the class", float(of_class[1]) >= 1, True)
        self.row("of all", float(of_all[1]) >= 1, True)

    def test_cases_are_chosen_by_words_and_names(self):
        for words, last in ((["-k", "left_out"], "1 passed, 0 failed, 1 skipped"),
                            (["sample", "-k", "without"], "1 passed, 0 failed, 0 skipped"),
                            (["tests/sample/test_sample.py", "-k", "without"], "1 passed, 0 failed, 0 skipped"),
                            (["sample.test_sample.Cases.test_without_rows"], "1 passed, 0 failed, 0 skipped")):
            self.row(" ".join(words), (self.ran(*words)[0], self.ran(*words)[1][-1]), (0, last))

    def test_a_word_that_no_case_has_is_a_failure(self):
        self.assertEqual(self.ran("-k", "nosuch")[0], 1)

    def test_subjects_run_side_by_side_and_are_told_in_their_order(self):
        self.subject("first", MEETING.format(own="first", other="second"))
        self.subject("second", MEETING.format(own="second", other="first"))
        status, said = self.ran("-j", "2", "second", "first", "sample.test_sample.Cases.test_without_rows")
        self.row("the last line", (status, said[-1]), (1, "4 passed, 1 failed, 0 skipped"))
        self.row("in order", [re.sub(" passed.*", "", line) for line in said[:-2]], [
            "FAILED tests.second.test_second.Alone.test_alone: a row that is wrong: 'second', and not "
            "'first'", "second.test_second.Alone: 1", "first.test_first.Alone: 2", "sample.test_sample.Cases: 1"])

    def test_side_by_side_the_same_is_counted(self):
        self.subject("busy", BUSY)
        wanted = "7 passed, 4 failed, 2 skipped"
        for count in ("1", "2"):
            said = self.ran("-j", count)[1]
            self.row(f"{count} at a time", said[-1], wanted)
            self.row(f"{count} at a time, left out", "left out, since nothing is installed: sample.test_sample.Cases "
                     "(2)" in said, True)

    def test_the_longest_goes_before_the_others(self):
        for name, relation in (("edits", "=="), ("others", ">")):
            self.subject(name, ALONE + f"        self.row('nice', os.nice(0) {relation} {os.nice(0)}, True)")
        self.assertEqual(self.ran("-j", "2", "edits", "others")[0], 0)

    def test_a_subject_whose_process_is_lost_has_failed(self):
        self.subject("lost", LOST)
        status, said = self.ran("-j", "2", "lost", "sample.test_sample.Prepared")
        self.assertEqual((status, said[0], said[-1]), (1, "FAILED lost: its process ended with 7",
                                                       "1 passed, 1 failed, 0 skipped"))

    def test_a_signal_ends_a_run_in_order(self):
        self.subject("slow", SLOW)
        for subjects in (["slow"], ["slow", "sample.test_sample.Prepared"]):
            run = self.process([sys.executable, "-m", "tests", "-j", "2", *subjects], cwd=self.top,
                               stdout=subprocess.PIPE, text=True)
            room = run.stdout.readline().strip()
            self.assertTrue(os.path.isdir(room))
            run.terminate()
            said = run.communicate(timeout=60)[0].splitlines()
            wanted = 1, "broken off by a signal", "0 passed, 1 failed, 0 skipped", False
            self.row(str(subjects), (run.returncode, said[0], said[-1], os.path.exists(room)), wanted)

    def test_proofs_are_counted(self):
        status, said = self.ran("--proofs", "-k", "without", **self.proofs("echo '7 passed, 0 failed'"))
        self.assertEqual((status, said[-1]), (0, "8 passed, 0 failed, 0 skipped"))

    def test_what_stands_on_no_proof_runs_beside_the_proofs(self):
        for subject, name in (("documents", "test_texts"), ("gate", "test_own"), ("tables", "test_made"),
                              ("packages", "test_clean")):
            self.subject(subject, MEETING.format(own=name, other="proving"), name)
        until = "for turn in $(seq 600); do [ ! -e test_clean ] || break; sleep 0.1; done; [ -e test_clean ]"
        proofs = f"touch proving; echo 'rt: dm_code proved'; {until} && echo '7 passed, 0 failed'"
        status, said = self.ran("--proofs", **self.proofs(proofs))
        self.row("the last line", (status, said[-1]), (1, "17 passed, 8 failed, 2 skipped"))

    def test_where_a_proof_fails_the_cases_are_left_out(self):
        for script, last in (("echo '6 passed, 2 failed'; exit 1", "6 passed, 2 failed, 1 skipped"),
                             ("echo '7 passed, 0 failed'; exit 3", "7 passed, 1 failed, 1 skipped"),
                             ("echo nothing", "0 passed, 1 failed, 1 skipped")):
            status, said = self.ran("--proofs", "-k", "without", **self.proofs(script))
            self.row(script, (status, said[-1]), (1, last))

    def test_the_proofs_are_left_out_without_the_toolchain(self):
        status, said = self.ran("--proofs", "-k", "without", PATH=self.folder())
        told = "left out, since the Rattle toolchain (rt) isn't on the path, so nothing is proved: proofs"
        first = "Nothing will be proved: the Rattle toolchain (rt) isn't on the path."
        self.assertEqual((status, said[0], told in said, said[-1]), (3, first, True, "1 passed, 0 failed, 1 skipped"))
