"""What takes time: a start, pictures without a symbol, many pictures of symbols."""
import functools
import math
import os
import random
from unittest import mock

from tests.python.common import PYTHON, WORDS, PackageCase, ecc, environment, run
from tests.support import work

import ecc200
from ecc200 import advice, drawing

# What a start doesn't need, each a few hundredths to a tenth of a second.
HEAVY = {"xml.sax", "urllib.parse", "urllib.request", "http.client", "email", "html", "json", "shutil", "tempfile",
         "datetime", "numpy", "PIL", "argcomplete", "ecc200.reporting", "ecc200.explaining", "unittest", "inspect"}

STARTED = """import sys
from ecc200.command import main
status = main(sys.argv[1:])
print(" ".join(sys.modules), file=sys.stderr)
sys.exit(status)
"""


def runs_of(line):
    """The lengths of the runs of one value."""
    ends = [at for at in range(1, len(line)) if line[at] != line[at - 1]] + [len(line)]
    return [end - begin for begin, end in zip([0, *ends], ends)]


def plainly(rows):
    """How many pixels across and down stand for each module: what all runs have in common."""
    return tuple(functools.reduce(math.gcd, (run for line in lines for run in runs_of(line)))
                 for lines in (rows, list(zip(*rows))))


class Quick(PackageCase):
    def test_starts(self):
        """A start imports no more than it needs."""
        for words, needed in ((["write", "123456"], set()), (["read"], {"ecc200.reporting", "ecc200.explaining"})):
            status, _, errors = run([PYTHON, "-c", STARTED, *words], env=environment())
            imported = set(errors.split())
            self.holds(f"modules of {words}", not status and {"ecc200.core", "argparse", *needed} <= imported, errors)
            self.row(f"modules that {words} doesn't need", sorted((HEAVY - needed) & imported), [])

    def test_reduced(self):
        """Pixels are made modules as one by one, at once for each row."""
        some = random.Random(5)
        for number in range(200):
            rows, columns = some.randint(1, 12), some.randint(1, 12)
            down, across = some.randint(1, 5), some.randint(1, 5)
            small = [bytes(some.choice((0, 0, 1)) for _ in range(columns)) for _ in range(rows)]
            large = [bytes(module for module in row for _ in range(across)) for row in small for _ in range(down)]
            wanted = plainly(large)
            got, how = advice.reduced(large)
            self.row(f"picture {number}", got, [row[::wanted[0]] for row in large[::wanted[1]]])
            self.row(f"picture {number} in words", how, "" if wanted == (1, 1) else
                     f"has {wanted[0]} by {wanted[1]} characters or pixels for each module")
        for rows, left, right in [(ecc200.write(b"A"), 0, 0), (ecc200.write(b"A"), 3, 1), (ecc200.write(b"B"), 0, 2)]:
            wide = [bytes(left) + row + bytes(right) for row in rows]
            wide = [bytes(len(wide[0]))] * left + wide + [bytes(len(wide[0]))] * right
            got = advice.righted(wide)
            self.row(f"a margin of {left} and {right}", got and (got.how, got.rows),
                     ("has a light margin", rows) if left + right else None)

    def test_within_time(self):
        """A picture of 12 million pixels that has no symbol takes its time, and what opening it takes."""
        pillow = self.needed("PIL.Image", "Pillow", "the time of a large picture")
        path = os.path.join(self.room, "noise.bmp")
        pillow.Image.effect_noise((4000, 3000), 90).save(path)
        for name, more in (("", {}), (" without the sampler", {"ECC200_SAMPLE_LIBRARY": "/none"})):
            if not name and not self.has_sampler("the time of a search"):
                continue
            with work.measured() as took:
                status, output, errors = run([*WORDS, "read", "--time", "100", path], env={**environment(), **more})
            self.holds(f"12 million pixels{name}", took.pieces < 40 and status in (1, 3) and not output,
                       f"{took}, {status}, {errors}")

    def test_pngs(self):
        """Lines of a picture that are alike are made once, and files of many messages are those of each by itself."""
        symbol = ecc200.encode(b"123456", module=1.0)
        with mock.patch.object(drawing, "_packed", wraps=drawing._packed) as packed:
            symbol.png()
            symbol.page()
        self.row("lines that are made", packed.call_count, len(symbol.rows) + 2)
        ecc("write -o lot.png", given="\n".join(map(str, range(30))), folder=self.room)
        for number in (1, 17, 30):
            ecc("write", str(number - 1), "-o", "one.png", folder=self.room)
            one, lot = (open(os.path.join(self.room, it), "rb").read() for it in ("one.png", f"lot-{number:02}.png"))
            self.row(f"file {number}", lot, one)
