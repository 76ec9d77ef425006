"""The page in headless Chromium against the program: what is typed, clicked and dragged there, and what the page shows.
A case for each part; the parts are shared out among some browsers. Nothing is proved here."""
from tests.page import browser, crew
from tests.page.parts import PARTS
from tests.support import needs, places
from tests.support.case import Case

PAGE = places.path("web", "out", "mitsubadoor.html")
PATIENCE = 1800  # seconds in which a part has to end that others wait for


@needs.program
@needs.module("selenium")
@needs.page
@needs.programs(*browser.CHROMIUM)
class Page(Case):
    chosen = []  # the parts that are to be run, by their names

    def __init__(self, name="runTest"):
        super().__init__(name)
        self.chosen.append(name.removeprefix("test_"))

    @classmethod
    def setUpClass(cls):
        cls.pool, cls.told = cls.enterClassContext(crew.at_work()), {}
        for part in PARTS:
            if part.__name__ in cls.chosen:
                cls.ask(part.__name__)

    @classmethod
    def ask(cls, name):
        """Gives what tells of a part once that has been run."""
        if name not in cls.told:
            cls.told[name] = cls.pool.apply_async(crew.rows_of, (name, PAGE))
        return cls.told[name]

    def run_part(self, name):
        """Compares what a part compares, and fails if it couldn't go on."""
        rows, fault = self.ask(name).get(PATIENCE)
        self.rows(rows)
        if fault:
            self.fail(fault)


def case_of(part):
    """Gives the case of a part."""
    def test(self):
        self.run_part(part.__name__)
    test.__doc__ = part.__doc__
    return test


for each in PARTS:
    setattr(Page, f"test_{each.__name__}", case_of(each))
