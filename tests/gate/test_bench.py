"""docs/PERF.md: its recipe begins well, and the edits of which it says that they are gone were there at the start."""
import os
import re
import unittest

from tests.support import commands, needs, places
from tests.support.case import Case

PAGE = places.text_of("docs", "PERF.md")
START = re.search(r"^The start: (\w+)$", PAGE, re.M)[1]


def git(*words):
    return commands.said(["git", "-C", places.TOP, *words])


@needs.programs("git")
@unittest.skipIf(git("cat-file", "-e", START)[0], "the history isn't there")
class Bench(Case):
    @needs.toolchain
    def test_the_jobs_compile_at_the_start(self):
        """The recipe up to its first proof, in place of which the jobs are compiled unproved and run."""
        here = os.path.join(self.folder(), "here")
        self.assertEqual(git("clone", "--quiet", places.TOP, here)[0], 0)
        steps = re.search(r"```sh\n(.*?)^\(cd ([^ ]*) && rt run\)", PAGE, re.S | re.M)
        status, told = commands.said(["sh", "-e", "-c", steps[1]], cwd=here)
        self.assertEqual(status, 0, told)
        status, told = commands.said(["rt", "try", "--", "each", "7", "1"], cwd=os.path.join(here, steps[2]))
        self.row("dm_jobs", (status, re.findall(r", \d+ answered, \d+ refused$", told, re.M)[:1] != []), (0, True))

    def test_the_edits_that_are_gone_were_there(self):
        gone = re.search(r"^Edits whose line is gone.*?\n\n", PAGE, re.S | re.M)[0]
        known = {os.path.basename(it).split(".")[0] for it in git("ls-tree", "-r", "--name-only", START)[1].split()
                 if "/must-fail/" in it}
        self.row("edits that weren't there", [it for it in re.findall(r"`(\w+)`", gone) if it not in known], [])
