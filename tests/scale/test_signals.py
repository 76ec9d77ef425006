"""Signals that the recipes of docs/SCALE.md get: while they run, and while dm_parts makes something."""
import os
import shutil
import signal

from tests.scale.faults import ALONE, Faults, hit, in_parts, signalled, to_output
from tests.scale.runs import PATH
from tests.support import places

# Stands for mktemp, whose file or folder is there when all processes of the run get a signal, and is told afterwards.
MAKES = """#!/bin/sh
made=$(REAL "$@") || exit
case "$*" in WHICH) kill -s INT 0; sleep 0.1 ;; esac
echo "$made"
"""
FILE = "a file of grids on all processors"


class Signals(Faults):
    def test_once_an_answer_has_come(self):
        for name in ALONE:
            block = in_parts(to_output(self.recipes[name]), "20K")
            for number in (signal.SIGINT, signal.SIGTERM, signal.SIGHUP):
                for to_all in (True, False):
                    which = f"{name}: {number.name} to {'all of its processes' if to_all else 'the script'}"
                    self.sound(which, signalled(block, *self.of(name), number, to_all, None))

    def test_a_closed_pipe_that_the_script_itself_meets(self):
        kept = in_parts(self.recipes[FILE], "20K")
        for which, block, delay in (("into a file", kept, 0.3), ("once an answer has come", to_output(kept), None)):
            self.sound(which, signalled(block, *self.of(FILE), signal.SIGPIPE, False, delay))

    def test_after_a_part_of_a_second(self):
        for name in ALONE:
            kept = in_parts(self.recipes[name], "20K")
            block = in_parts(to_output(self.recipes[name]), "20K")
            for delay in (0.02, 0.05, 0.1, 0.2, 0.4, 0.6, 0.8):
                how = signal.SIGINT, True, delay
                self.sound(f"{name}: SIGINT after {delay} s", signalled(block, *self.of(name), *how))
                if "--output" in kept:
                    self.sound(f"{name}, into a file: SIGINT after {delay} s", signalled(kept, *self.of(name), *how))


class Starts(Faults):
    def beside(self, fake):
        """What is wrong with a run that finds the programs of a folder first."""
        return hit(self.recipes[FILE], *self.of(FILE), path=fake + os.pathsep + PATH)

    def test_a_signal_as_something_is_made(self):
        for what, which in (("its folder", "-d*"), ("the file of its answers", "answers.txt.*")):
            made = os.path.join(self.folder(), "mktemp")
            places.wrote(MAKES.replace("REAL", shutil.which("mktemp")).replace("WHICH", which), made)
            os.chmod(made, 0o755)
            self.sound(what, self.beside(os.path.dirname(made)))

    def test_rights_that_cannot_be_set(self):
        fake = self.folder()
        os.symlink(shutil.which("false"), os.path.join(fake, "chmod"))
        self.sound("chmod fails", self.beside(fake))
