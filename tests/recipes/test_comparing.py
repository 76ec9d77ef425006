"""Compares grids by dm_same, among them hostile files, and programs that stand for dm_tool and fail."""
import os

from tests.recipes.shell import Shell
from tests.support import needs, places

# What dm_same is called with, and its status: of files that hold the grids named, and hostile ones.
SAME = [("g g", 0), ("g h", 1), ("h g", 1), ("g gs", 0), ("high shorter", 0), ("damaged g", 0), ("g damaged", 0),
        ("nothing nothing", 0), ("nothing g", 1), ("long long", 0), ("long longer", 1), ("long longs", 0),
        ("star star", 0), ("star star2", 1), ("none none", 2), ("none g", 2), ("g none", 2), ("blank blank", 2),
        ("bad bad", 2), ("bad g", 2), ("g bad", 2), ("crlf crlf", 2), ("left left", 2), ("two two", 2), ("two g", 2),
        ("g two", 2), ("mixed mixed", 2), ("mixed2 g", 2), ("g mixed2", 2), (". .", 2), (". g", 2), ("g .", 2),
        ("nosuch nosuch", 2), ("g nosuch", 2), ("loop g", 2), ("/dev/null /dev/null", 2), ("link g", 0), ("'a b' g", 0),
        ("'' ''", 2), ("- g < g", 0), ("g - < h", 1), ("- - < g", 2), ("- g < none", 2), ("- g <&-", 2),
        ("<(cat g) <(cat g)", 0), ("<(cat g) <(cat h)", 1), ("g", 2), ("", 2), ("g g g", 2), ("--no g g", 2),
        ("-- g g", 0), ("-- -x -x", 0), ("-x -x", 2), ("./-x g", 0), ("--border 10 g nobottom", 0), ("g nobottom", 2),
        ("--border=10 nobottom g", 0), ("--border 9 g nobottom", 2), ("--border x g g", 2),
        ("--border 65535 g nobottom", 0), ("--border 65536 g g", 2), ("--border 99999 g g", 2),
        ("--border 100000 g g", 2), ("--border", 2), ("--border= g g", 2), ("g g > /dev/full", 0), ("g h >&-", 1)]
SAME_FILES = r"""
cp g 'a b'; cp g -- -x; ln -sf g link; ln -sf loop loop
: > none; printf '\n\n\n' > blank; printf '10\n01\n' > bad; sed 's/$/\r/' g > crlf
echo 123456 | dm_tool write --shorter > gs
printf '\\x80\\x81\\x82\n' | dm_tool write > high
printf '\\x80\\x81\\x82\n' | dm_tool write --shorter > shorter
sed '5s/./1/5; 5s/./0/6; 3s/.$/1/' g > damaged; sed '$s/1/0/g' g > nobottom
echo | dm_tool write > nothing; printf '*\n' | dm_tool write > star; printf '!\n' | dm_tool write > star2
(cat g; echo; cat g) > two; (cat g; echo; cat bad) > mixed; (cat bad; echo; cat g) > mixed2
awk 'BEGIN { for (n = 0; n < 813; n++) printf "\\x80"; print "" }' | dm_tool write --shorter > long
awk 'BEGIN { for (n = 0; n < 812; n++) printf "\\x80"; print "\\x81" }' | dm_tool write --shorter > longer
sed '50s/1/0/3' long > longs
dmtxwrite -e e -d 1 -m 1 <<< AIMAIM 2> /dev/null | pngtopnm 2> /dev/null | grid > left 2> /dev/null
"""
# What stands for dm_tool, and the status that dm_same ends with then.
FAKES = {"echo A": 0, "echo": 0, "exit 0": 2, "exit 1": 2, "echo A; exit 1": 2, "echo A; exit 3": 2,
         "echo A; exit 127": 2, "kill -s KILL $$": 2, "echo A; kill -s TERM $$": 2, "echo A; echo B": 2,
         "echo; echo": 2, "printf A": 2, "printf '%s\\n' '\\no 3 shape'": 2,
         "printf '%s\\n' A '\\no 3 shape'; exit 1": 2}


@needs.program
class Comparing(Shell):
    @classmethod
    def setUpClass(cls):
        super().setUpClass()
        cls.run_here(SAME_FILES)

    def test_files_and_words(self):
        for words, status in SAME:
            self.row(f"dm_same {words}", self.run_here(f"dm_same {words}"), (status, "", status == 2))

    def test_a_number_that_is_none(self):
        for number in ("65536", "99999", "100000", "x"):
            said = "dm_same: --border takes a number of 0 to 65535"
            self.row(number, self.run_here(f"dm_same --border {number} g g 2>&1"), (2, said, False))

    def test_help(self):
        self.assertEqual(self.run_here("dm_same --help | head -n 1"), (0, "usage: dm_same [--border N] A B", False))

    def test_programs_that_stand_for_dm_tool_and_fail(self):
        fake = os.path.join(self.folder(), "dm_tool")
        for body, status in FAKES.items():
            places.wrote(f"#!/bin/sh\n{body}\n", fake)
            os.chmod(fake, 0o755)
            self.row(body, self.run_here(f'PATH="{os.path.dirname(fake)}:$PATH"; dm_same g g')[0], status)

    def test_no_dm_tool(self):
        self.assertEqual(self.run_here('same=$(command -v dm_same); PATH=/usr/bin:/bin; "$same" g g')[0], 2)
