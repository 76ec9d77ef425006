"""Text by the recipes of docs/INTERCHANGE.md: all bytes spelled and back, no text; pictures, and what is none."""
from tests.recipes.shell import Shell
from tests.support import needs

NO_PICTURES = ["grid < none", "grid < cut.pnm", "grid < light.pnm", "grid < g.png", "grid < nosuch",
               "pngtopnm nosuch | grid", "echo text | grid"]
NO_GRIDS = ["dm_tool write < none | picture", "dm_tool read < none | picture", "echo '\\no 3 shape' | picture",
            "cat g <(echo) h | picture", "picture < none", "picture < g.pnm", "head -n 9 g | picture"]


@needs.program
class Texts(Shell):
    def test_all_bytes_are_spelled_and_come_back(self):
        self.put("bytes", bytes(range(256)) * 3 + b"\n\n\\\\F \\no\n")
        self.row("spelled", self.run_here("spell < bytes | unspell | cmp - bytes"), (0, "", False))
        written = "spell < bytes | dm_tool write --shorter | dm_tool read | unspell | cmp - bytes"
        self.row("written and read", self.run_here(written), (0, "", False))

    def test_lines_that_are_no_text(self):
        for line in (r"\F", r"a\Fb", r"\x0A", r"\no 3 shape", r"a\x0Ab"):
            self.row(line, self.run_here(f"printf 'A\\n%s\\nB\\n' '{line}' | unspell"), (1, "A", True))
        self.row("no line", self.run_here("unspell < /dev/null"), (0, "", False))


@needs.program
class Pictures(Shell):
    def setUp(self):
        self.needs_of("grid picture pnmtopng")
        self.run_here("picture < g > g.pnm; pnmtopng g.pnm > g.png; head -c 200 g.pnm > cut.pnm; : > none;"
                      " printf 'P1 3 3\\n000000000' > light.pnm")

    def test_what_is_no_picture_of_a_grid(self):
        for command in NO_PICTURES:
            self.row(command, self.run_here(command), (1, "", True))

    def test_what_is_no_grid(self):
        for command in NO_GRIDS:
            self.row(command, self.run_here(command), (1, "", True))

    def test_a_picture_of_a_grid(self):
        self.assertEqual(self.run_here("pamscale -nomix -reduce 8 g.pnm | grid | cmp - g")[0], 0)
