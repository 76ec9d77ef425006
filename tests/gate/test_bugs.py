"""Each bug that tests/bugs plants can be planted: the text that it replaces stands there once."""
from tests.library import planted as in_library
from tests.page import planted as in_page
from tests.python import planted as in_python
from tests.sampler import planted as in_sampler
from tests.support.case import Case


class Bugs(Case):
    def test_each_can_be_planted(self):
        for own in (in_library, in_page, in_python, in_sampler):
            self.all_sound((str(bug), bug.problem(own.sources(bug))) for bug in own.bugs())
