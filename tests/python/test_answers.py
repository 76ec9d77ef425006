"""What the command ecc200 answers: of pages, of each codeword, at a terminal, and to a shell that completes a line."""
import io
import json
import os
import re
import subprocess
import tempfile

from tests.python.common import (PACKAGE, PYTHON, SAMPLER, TOP, WORDS, PackageCase, at_terminal, ecc, environment,
                                 marks, run)
from tests.python.test_surface import edifact, hurt, text

import ecc200
from ecc200 import explaining


class Answers(PackageCase):
    def test_pages(self):
        """Pages behind the first are read, also without the sampler, and a turned photograph is read either way."""
        pillow = self.needed("PIL.Image", "Pillow", "pages of pictures")
        for name, module in (("small", 25.4 / 300), ("large", 0.5)):
            drawn = [ecc200.encode(message, module=module).png() for message in (b"first", b"third")]
            first, third = (pillow.Image.open(io.BytesIO(data)).convert("L") for data in drawn)
            path = os.path.join(self.room, f"{name}.tiff")
            first.save(path, save_all=True, append_images=[third])
            without = {**environment(), "ECC200_SAMPLE_LIBRARY": os.path.join(self.room, "none.so")}
            got = run([*WORDS, "read", path], env=without)
            self.says(f"{name} pages without the sampler", got, output="first\nthird\n")
            if os.path.isfile(SAMPLER):
                self.says(f"{name} pages", ecc("read", path), output="first\nthird\n")
        if os.path.isfile(SAMPLER):
            told = [json.loads(line) for line in ecc("read --json", path)[1].splitlines()]
            self.row("pages in JSON", [(one["symbol"], one["page"]) for one in told], [(1, 1), (2, 2)])
        turned, exif = first.transpose(pillow.Image.ROTATE_90), pillow.Image.Exif()
        exif[274] = 6  # shown turned by a quarter, clockwise
        path = os.path.join(self.room, "turned.png")
        turned.save(path, exif=exif)
        self.says("a turned picture without the sampler", run([*WORDS, "read", path], env=without), output="first\n")

    def test_margins(self):
        """A symbol that leaves fewer corrections than are asked for isn't read, however it is found."""
        self.needed("PIL.Image", "Pillow", "margins of corrections")
        path = os.path.join(self.room, "margin.png")
        ecc200.Symbol(hurt(1)).save(path)
        for name in ("none.so", SAMPLER):
            env = {**environment(), "ECC200_SAMPLE_LIBRARY": os.path.join(self.room, name)}
            self.says(f"a margin, {name}", run([*WORDS, "read", "--margin", "1", path], env=env), output="123456\n")
            self.says(f"one that isn't, {name}", run([*WORDS, "read", "--margin", "2", path], env=env), 1, "",
                      ["leave fewer than 2 corrections"])

    def test_unlike(self):
        """Each page is read in its own way, and one that can't be keeps none before it from being read."""
        pillow = self.needs_search("pages that are unlike")
        symbols = ecc200.encode(b"large"), ecc200.encode(b"small", module=25.4 / 300), ecc200.Symbol(hurt(5))
        drawn = [pillow.Image.open(io.BytesIO(symbol.png())).convert("L") for symbol in symbols]
        path = os.path.join(self.room, "unlike.tiff")
        for name, pages, got in (("large and small", drawn[:2], (0, "large\nsmall\n", None)),
                                 ("small and large", drawn[1::-1], (0, "small\nlarge\n", None)),
                                 ("one is damaged", drawn[::2], (1, "large\n", ["unlike.tiff, symbol 2: ", "block 1"])),
                                 ("one has none", [drawn[0], pillow.Image.new("L", (90, 90), 255)],
                                  (0, "large\n", None))):
            pages[0].save(path, save_all=True, append_images=pages[1:])
            self.says(f"pages, {name}", ecc("read", path), *got)
        os.truncate(path, os.path.getsize(path) - 50)
        self.says("pages before one that is cut off", ecc("read", path), 2, "large\n", ["unlike.tiff: page 2"])

    def test_explained(self):
        """Meanings: joined they are what the library reads, on all marks of others and on messages of all bytes."""
        grids = [[bytes(map(int, line)) for line in lines] for lines in marks()]
        grids += [ecc200.write(bytes(range(begin, begin + 32)), profile=profile) for begin in range(0, 256, 32)
                  for profile in (0, 1)] + [ecc200.write([256, 65, 256])]
        for number, rows in enumerate(grids):
            told = explaining.explain(rows)
            size = next(size for size in ecc200.sizes() if (size.rows, size.columns) == (len(rows), len(rows[0])))
            self.row(f"codewords {number}", bytes(word.value for word in told.codewords), ecc200.inspect(rows).mended)
            has_meanings = all(word.meaning for word in told.codewords[:size.data_codewords])
            self.holds(f"meanings {number}", told.refused is not None or told.reading is not None and has_meanings)
        status, output, _ = ecc("explain", given=text(ecc200.write(b"12A\xe9")))
        for part in ("1    142  ASCII       the digits 12", "2     66  ASCII       the character A", "Upper Shift",
                     "the byte 233", "a check codeword of block 1", "It says 12A\u00e9"):
            self.holds(f"explain: {part}", status == 0 and part in output, output)
        status, output, _ = ecc("explain", given=text(hurt(1)))
        self.holds("explain a correction", "corrected; the symbol has" in output and "It says 123456" in output, output)
        status, output, errors = ecc("explain", given=text(hurt(5)))
        self.holds("explain beyond correction", status == 1 and "beyond correction" in output
                   and "block 1 of its 1" in errors, output + errors)
        words = json.loads(ecc("explain --json", given=text(ecc200.write(b"12")))[1])["codewords"]
        first = {"place": 1, "value": 142, "held": 142, "encodation": "ASCII", "meaning": "the digits 12"}
        self.row("explain --json", (words[0], len(words)), (first, 8))
        status, output, _ = ecc("explain --usual", given=edifact())
        self.holds("explain --usual", status == 1 and "what can't be read begins here" in output, output)

    def test_at_a_terminal(self):
        """Long work tells on a terminal how far it is, and only there."""
        given = text(ecc200.write(b"123456")).encode()
        status, said, output, _ = at_terminal("stderr", ["check"], given * 999, begun_with=given)
        self.holds("progress", re.search(rb"[\d,]+ symbols read, [\d,]+ a second", said) is not None
                   and status == 0, repr(said[-200:]))
        self.row("its answers", output.count(b"\n"), 1_000)
        first = subprocess.Popen([*WORDS, "read"], stdin=subprocess.PIPE, stdout=subprocess.PIPE,
                                 stderr=subprocess.PIPE, env=environment())
        first.stdin.write(text(ecc200.write(b"123456")).encode())
        first.stdin.flush()
        self.row("an answer comes at once", first.stdout.readline(), b"123456\n")
        first.stdout.close()
        first.stdin.write(text(ecc200.write(b"123456")).encode() * 2)
        first.stdin.close()
        errors = first.stderr.read()
        first.wait(timeout=60)
        self.holds("an output that is closed", b"Traceback" not in errors and b"Exception" not in errors, repr(errors))

    def test_completion(self):
        words = [PYTHON, os.path.join(TOP, "tools", "completions"), "--check"]
        self.row("what is packaged for shells", run(words, env=environment()), (0, "", ""))
        self.needed("argcomplete", "python3-argcomplete", "completion by the shell")
        for line, wanted in (("co", ["compare"]), ("j", ["join"]), ("s", ["sizes"]), ("write --shape r", ["rectangle"]),
                             ("write --form s", ["shorter", "smallest"]),
                             ("write --size 8x1", ["8x120", "8x144", "8x18"])):
            line = f"ecc200 {line}"
            told = {**environment(), "_ARGCOMPLETE": "1", "COMP_LINE": line, "COMP_POINT": str(len(line)),
                    "_ARGCOMPLETE_IFS": "\n"}
            with tempfile.NamedTemporaryFile() as file:
                told["_ARGCOMPLETE_STDOUT_FILENAME"] = file.name
                done = subprocess.run([PYTHON, os.path.join(PACKAGE, "bin", "ecc200")], env=told,
                                      stdout=subprocess.PIPE, stderr=subprocess.PIPE, timeout=60)
                self.row(f"completion of {line}", (done.returncode, sorted(file.read().decode().split())), (0, wanted))
