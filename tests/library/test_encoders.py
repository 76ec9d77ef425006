"""Numbers of ECI assignments beside other encoders and readers, left out where they aren't installed: of a thousand and
five, of all lengths, zint's are read by the library, and the library's by zxing-cpp."""
import os
import random
import re

from tests.library.content_cases import EDGES, MOST_NUMBER
from tests.library.library import module
from tests.sampler.pictures import pgm, pixels_of
from tests.support import commands, needs, places
from tests.support.case import Case

COUNT, AT_ONCE = 1005, 100
MESSAGE = b"A"
NOT_OF_ZINT = {0, 1, 2, 14, 19}  # 0 stands for none, and the others are refused


def numbers():
    """So many numbers: those beside which designators change, and others at random, of each length as many."""
    chance, found = random.Random(241), set(EDGES)
    while len(found) < COUNT:
        found.add(chance.randint(0, chance.choice([126, 16382, MOST_NUMBER])))
    return sorted(found)


def by_zint(number):
    """The rows of the symbol that zint prints."""
    done = commands.run(["zint", "-b", "71", "--binary", f"--eci={number}", "-d", MESSAGE.decode(), "--dump"])
    rows = [f"{int(line, 16):0{4 * len(line)}b}" for line in done.output.decode().replace(" ", "").split()]
    columns = max((row.rindex("1") + 1 for row in rows[-1:]), default=0)  # the last row is dark from end to end
    return [row[:columns] for row in rows]


@needs.library
class Designators(Case):
    @needs.programs("zint")
    def test_those_of_zint_are_read(self):
        ecc200 = module()
        for number in (number for number in numbers() if number not in NOT_OF_ZINT):
            try:
                got = ecc200.read(by_zint(number))
                said = got.data, got.marks, got.symbology
            except (ecc200.Refused, ValueError) as why:
                said = str(why)
            self.row(f"zint's {number}", said, (MESSAGE, ((0, number),), "]d4"))

    @needs.programs("ZXingReader")
    def test_those_that_are_written_are_read_by_zxing_cpp(self):
        """It prints ]d4, the number behind \\, and the bytes."""
        some, folder = numbers(), self.folder()
        for start in range(0, COUNT, AT_ONCE):
            part = some[start:start + AT_ONCE]
            paths = [os.path.join(folder, f"{number}.pgm") for number in part]
            for number, path in zip(part, paths):
                places.wrote(pgm(pixels_of(module().write(MESSAGE, marks=[(0, number)]), 3, 4, 0, 255)), path)
            told = commands.run(["ZXingReader", "-format", "DataMatrix", *paths]).output.decode(errors="replace")
            said = {os.path.basename(name): bytes.fromhex(found) for name, found in
                    re.findall(r"File: +(.*)\n(?:.*\n)*?BytesECI: +([0-9A-F ]*)", told)}
            for number, path in zip(part, paths):
                self.row(f"{number} by zxing", said.get(os.path.basename(path)), f"]d4\\{number:06}".encode() + MESSAGE)
