"""What the largest symbol holds, and one more; and what each size holds, by the table of sizes."""
from tests.recipes.shell import Shell
from tests.support import needs

TOO_LONG = r"\no 14 too-long"


@needs.program
class Capacity(Shell):
    @classmethod
    def setUpClass(cls):
        super().setUpClass()
        table = cls.run_here("dm_tool table")[1]
        cls.codewords = {int(row.split()[0]): int(row.split()[4]) for row in table.splitlines()}

    def written(self, item, count, flag=""):
        """Gives what `write` answers to a line of so many of an item."""
        self.put("line", (item * count + "\n").encode())
        return self.run_here(f"dm_tool write {flag} < line")[1]

    def test_the_largest_symbol_and_one_more(self):
        most = max(self.codewords.values())
        for item, count, flag in (("7", 2 * most, ""), ("A", most, ""), (r"\xFF", most // 2, ""), (r"\F", most, ""),
                                  (r"\xFF", most - 3, "--shorter"), ("A", most, "--shorter")):
            for more, is_whole in ((0, True), (1, False)):
                self.row(f"{count + more} {item} {flag}", self.written(item, count + more, flag) != TOO_LONG, is_whole)

    def test_each_size(self):
        for side, data in self.codewords.items():
            for item, count in (("7", 2 * data), ("A", data), (r"\xFF", data // 2)):
                self.row(f"{count} of {item}", len(self.written(item, count).split("\n")[0]), side)

    def test_sides_and_codewords_of_the_page(self):
        self.assertEqual([self.codewords[side] for side in (10, 26, 52, 104)], [3, 44, 204, 816])
