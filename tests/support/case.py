"""The case with which tests are written: rows of a table are subtests, and folders and processes end with it."""
import shutil
import tempfile
import unittest

from tests.support import commands

# So much of a value is shown where a row fails.
SHOWN = 600


def shown(value):
    text = repr(value)
    return text if len(text) <= SHOWN else f"{text[:SHOWN]} .. ({len(text)} characters)"


class Case(unittest.TestCase):
    """A case whose rows are subtests."""

    def row(self, name, got, wanted):
        """Compares one row, as a subtest with this name."""
        with self.subTest(name):
            if got != wanted:
                self.fail(f"{name}: {shown(got)}, and not {shown(wanted)}")

    def rows(self, rows):
        """Compares rows, each a name, what came, and what is wanted. There has to be one."""
        self.each(self.row, rows)

    def sound(self, name, problem):
        """Fails, as a subtest with this name, with what is wrong, if anything is."""
        with self.subTest(name):
            if problem is not None:
                self.fail(f"{name}: {problem[:3000]}")

    def all_sound(self, rows):
        """Fails for each row with what is wrong; a row is a name and that, or None. There has to be one."""
        self.each(self.sound, rows)

    def there(self, rows):
        """Fails for each row, a name and whether it is found, whose name isn't. There has to be one."""
        self.all_sound((name, None if is_there else "not found") for name, is_there in rows)

    def each(self, compare, rows):
        """Puts each row to a comparison, of which there has to be one."""
        count = 0
        for count, row in enumerate(rows, 1):
            compare(*row)
        self.assertGreater(count, 0, "there is no row")

    def folder(self):
        """Gives a temporary folder, which is gone when the case ends."""
        return self.enterContext(tempfile.TemporaryDirectory(ignore_cleanup_errors=True))

    @classmethod
    def folder_of_class(cls):
        """Gives a temporary folder, which is gone when the last case of the class has ended."""
        return cls.enterClassContext(tempfile.TemporaryDirectory(ignore_cleanup_errors=True))

    def skip_for(self, reason):
        """Skips the case, or the row, where there is a reason."""
        if reason:
            self.skipTest(reason)

    def process(self, words, **how):
        """Starts a process, which is ended when the case ends."""
        return self.enterContext(commands.started(words, **how))


class Rows(Case):
    """A case that has rows: one without any is no test."""

    def setUp(self):
        self.counted = 0

    def tearDown(self):
        self.assertGreater(self.counted, 0, "there is no row")

    def subTest(self, *name, **more):
        self.counted += 1
        return super().subTest(*name, **more)

    def holds(self, name, whether, said=""):
        self.sound(name, None if whether else said or "it doesn't hold")

    def leave_out(self, what):
        """Leaves out what something isn't installed for."""
        with self.subTest(what):
            self.skipTest(what)

    def has(self, program, what):
        """Whether a program is installed; if it isn't, what needs it is left out."""
        return bool(shutil.which(program)) or self.leave_out(f"{what} ({program} isn't installed)")
