"""Tries the recipes of docs/INTERCHANGE.md that tell their result, and each row of the table of what you see and what
to do, with the encoders that are installed. Nothing is proved here."""
import itertools

from tests.recipes.rows import ROWS
from tests.recipes.shell import Zxing, blocks, lacking, page
from tests.support import needs


@needs.library
@needs.program
class Recipes(Zxing):
    def test_each_line_that_tells_its_result(self):
        for number, block in enumerate(blocks(), 1):
            if "() {" not in block and "tests.corpus.make" not in block:
                self.block(f"block {number}", block)

    def block(self, name, block):
        """Runs each line that tells its result after the lines before it, and then the whole block."""
        before = ""
        for line in block.splitlines():
            command, _, told = line.partition("  # ")
            if reason := lacking(command):
                with self.subTest(f"{name} from {command}"):
                    self.skipTest(reason)
                return
            if told and not line.startswith(" "):
                self.row(command, self.run_here(f"{{ :{before}\n}} > before.txt 2>&1; {command}")[1], told.strip())
            before += "\n" + command
        self.row(f"the end of {name}", self.run_here(before)[0], 0)


@needs.program
class Table(Zxing):
    @staticmethod
    def table():
        """The rows of the table of what you see."""
        part = page().split("## What you see, what to do")[1].split("\n## ")[0]
        return [line for line in part.splitlines() if line.startswith("| ")][1:]

    def test_something_is_tried_of_each_row(self):
        rows = self.table()
        self.there((f"{row:.60}", any(words in row for words in ROWS)) for row in rows)
        self.rows((f"{words}", sum(words in row for row in rows), 1) for words in ROWS)

    def test_what_each_row_says_is_seen(self):
        for command, seen in itertools.chain.from_iterable(ROWS.values()):
            command += "" if "dm_tool" in command else " | dm_tool read"
            with self.subTest(command):
                self.needs_of(command)
                self.assertEqual(self.run_here(command)[1], seen)
