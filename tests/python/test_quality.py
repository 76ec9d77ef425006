"""How good the print of a symbol is, through Python and the command; tests/sampler compares its numbers."""
import json
import os

from tests.python.common import PackageCase, ecc

import ecc200
from ecc200.quality import in_lines, rounded

LINES = """    print, of this picture, uncalibrated: no verifier's report
    contrast 1.00: A
    modulation 1.00: A; of 8 codewords readable at .5, .4, .3, .2: 8, 8, 8, 8
    error correction unused in each block 1.00: A
    axial nonuniformity 0.000: A
    grid nonuniformity 0.00: A
    print growth +0.00 across, +0.00 down
    damage of the border at the top, right, bottom, left 0.00, 0.00, 0.00, 0.00
    damage of the quiet zone there 0.00, 0.00, 0.00, 0.00
    weakest place: nothing is weak"""


class Quality(PackageCase):
    def marked(self):
        """A picture of a symbol, if all that this needs is there."""
        self.needs_search("the quality of print")
        path = os.path.join(self.room, "mark.png")
        ecc200.encode(b"123456").save(path)
        return path

    def test_found(self):
        """By Python: only where it is asked for, of each symbol, and of what isn't read too."""
        path = self.marked()
        self.row("not asked for", [it.quality for it in ecc200.find(path)], [None])
        [mark] = ecc200.find(path, quality=True)
        quality = mark.quality
        counts = quality.readable, len(quality.modulations), quality.unused, quality.border, quality.quiet
        self.row("its numbers", counts, ((8, 8, 8, 8), 8, (1.0,), ecc200.Sides(0, 0, 0, 0), (0, 0, 0, 0)))
        names = ("contrast", "modulation", "unused", "axial", "grid")
        self.row("its grades", quality.grades, dict.fromkeys(names, "A"))
        wanted = LINES.strip().replace("\n    ", "\n")
        self.holds("in lines", "\n".join(in_lines(quality)).startswith(wanted), str(in_lines(quality)))
        hurt = [bytearray(row) for row in ecc200.encode(b"123456").rows]
        for row in range(2, 8):
            hurt[row][2:8] = bytes(1 - module for module in hurt[row][2:8])
        answers = ecc200.find(ecc200.Symbol([bytes(row) for row in hurt]).png(), unread=True, quality=True)
        lost = [it.quality for it in answers if isinstance(it.answer, ecc200.Refused)]
        self.row("unread", [(it.unused, it.grades["unused"], it.border.left) for it in lost], [((0.0,), "F", 0)])

    def test_command(self):
        path = self.marked()
        status, output, errors = ecc("read --quality", path)
        self.holds("below the message", (status, errors) == (0, "") and output.startswith(f"123456\n{LINES}"), output)
        told = json.loads(ecc("read --quality --json", path)[1])
        self.row("as JSON", told["quality"], rounded(ecc200.find(path, quality=True)[0].quality))
        self.row("JSON without it", "quality" in json.loads(ecc("read --json", path)[1]), False)
        grid = str(ecc200.encode(b"123456"))
        self.says("of a grid", ecc("read --quality", given=grid), 0, "123456\n", ["symbol 1: it is a grid"])
        for other in ("--csv", "--raw"):
            self.says(f"with {other}", ecc("read --quality", other, path), 2, "", [f"it doesn't go with {other}"])
