"""What the library's callers have in common, and what the model of these tests knows, which judges them."""
import sys

from tests import corpus
from tests.library import content_cases, contents, small_cases
from tests.library.cases import Symbol, check_codewords_are_known, held_by
from tests.library.model import modules_of
from tests.support import commands, places
from tests.support.case import Case


class Alike(Case):
    """What is the same in several files stands in one."""

    def test_the_callers_are_those_that_tools_callers_writes(self):
        status, said = commands.said([sys.executable, places.path("tools", "callers"), "--check"])
        self.assertEqual(status, 0, said)

    def test_the_check_codewords_of_the_model_are_those_of_the_standards_example(self):
        self.assertTrue(check_codewords_are_known())

    def test_the_model_finds_the_codewords_of_another_encoder_and_lays_them_so(self):
        named = {(mark.rows, mark.columns) for mark in corpus.marks("sizes")}
        self.row("sizes beyond the squares to 104", len({it for it in named if it[0] != it[1] or it[0] > 104}), 27)
        for mark in corpus.marks("sizes"):
            grid, data = Symbol(mark.modules, (mark.rows, mark.columns)), bytes.fromhex(mark.more["data"])
            held = held_by(grid)
            self.row(mark.name, (bytes(held[:len(data)]), modules_of(grid.size, held)), (data, list(grid)))

    def test_the_model_reads_contents_as_they_were_worked_out_by_hand(self):
        for data, items, marks, head, identifier in content_cases.WORKED:
            content = contents.Content(tuple(items), tuple(marks), head)
            self.row(f"{data}", contents.said_by(data), (content, identifier))
        for data, *refusal in content_cases.REFUSED:
            with self.assertRaises(contents.Refusal) as why:
                contents.said_by(data)
            self.row(f"{data}", why.exception.args, tuple(refusal))

    def test_the_model_reads_each_number_that_it_writes(self):
        for number in (*range(20_000), *range(20_000, content_cases.MOST_NUMBER + 1, 97), content_cases.MOST_NUMBER):
            words = contents.designator(number)
            self.assertEqual(contents.number_of(words), (number, len(words)))

    def test_the_least_counts_of_long_messages_are_those_of_a_search(self):
        self.assertEqual(list(small_cases.counts_are_right()), [])
