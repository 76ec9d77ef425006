"""The sampler's options, errors and statuses."""
import json
import os
import random
import re
import subprocess

from tests.sampler.pictures import grid_of, pgm, pixels_of, record, run
from tests.sampler.sizes import symbols
from tests.support import places


def beside(pictures):
    """Pictures side by side, all of one height."""
    return [[level for picture in pictures for level in picture[row]] for row in range(len(pictures[0]))]


def beyond_repair(message):
    """A grid with so much damage that it isn't read; its border is whole."""
    grid = grid_of(message)
    return [[module ^ (0 < row < len(grid) - 1 and 0 < column < len(grid) - 1 and (row * 7 + column * 5) % 3 == 0)
             for column, module in enumerate(line)] for row, line in enumerate(grid)]


def spoilt_jpegs(folder):
    """A JPEG that goes over the picture two hundred times, and one that claims to be higher than any that is read."""
    path = os.path.join(folder, "progressive.jpg")
    if not os.path.isfile(path):
        return []
    text = places.read(path)
    frame = text.index(b"\xff\xc2")
    means = re.search(rb"\xff\xda.{8,10}?\x00\x00\x10(?:[^\xff]|\xff\x00)*", text,
                      re.DOTALL)  # the scan with the last bits of means
    return [(text[:means.end()] + means[0] * 200 + text[means.end():], "JPEG: more than 100 scans"),
            (text[:frame + 5] + (40000).to_bytes(2, "big") + text[frame + 7:],
             "a picture with more than 32767 pixels on a side")]


class Options:
    def test_options(self):
        grid = grid_of("123456")
        path = os.path.join(self.room, "one.pgm")
        two = os.path.join(self.room, "two.pgm")
        other = grid_of("SECOND")
        pair = [a + b for a, b in zip(pixels_of(grid) + [[230] * 64] * 8, pixels_of(other))]
        for name, rows in ((path, pixels_of(grid)), (two, pair)):
            places.wrote(pgm(rows), name)
        self.row("--all", sorted(run([self.sampler, "--all", two]).stdout.decode().split("\n\n")[:-1]),
                 sorted([record(grid)[:-2], record(other)[:-2]]))
        self.row("without --all", run([self.sampler, two]).stdout.decode() in (record(grid), record(other)), True)
        said = run([self.sampler, "--corners", path])
        self.row("--corners", (said.stdout.decode(), said.stderr.decode()),
                 (record(grid), f"{path}: 12.0,12.0 52.0,12.0 52.0,52.0 12.0,52.0\n"))
        told = json.loads(run([self.sampler, "--json", path]).stdout)
        self.row("--json", {name: told[name] for name in told if name != "corners"},
                 {"file": path, "rows": 10, "columns": 10, "inverted": False, "mirrored": False, "message": "123456",
                  "identifier": "]d1", "corrected": [0], "erased": [0], "left": [5], "border_faults": 0,
                  "border_limit": 2, "complete": True, "grid": ["".join(map(str, row)) for row in grid]})
        self.row("corners in --json", [[round(c) for c in corner] for corner in told["corners"]],
                 [[12, 12], [52, 12], [52, 52], [12, 52]])
        text = "\\F01\\x80\"\\\\"
        self.says("--json spells messages as dm_tool does", pixels_of(grid_of(text)), text)
        self.row("least", [run([self.sampler, f"--min-modules={it}", path]).returncode for it in (10, 11)], [0, 1])
        spoilt = [row[:] for row in grid]
        spoilt[4][4] ^= 1
        damaged = pgm(pixels_of(spoilt))
        self.row("--margin", [run([self.sampler, f"--margin={margin}"], damaged).returncode for margin in (0, 1, 2, 3)],
                 [0, 0, 1, 1])
        for y, x in ((2, 2), (4, 6), (6, 3), (7, 7), (3, 5), (5, 1)):
            spoilt[y][x] ^= 1
        lost = pgm(pixels_of(spoilt))
        self.row("beyond the limit", (run([self.sampler], lost).returncode, run([self.sampler], lost).stdout), (1, b""))
        self.row("--unread", run([self.sampler, "--unread"], lost).stdout.decode(), record(spoilt))
        self.row("json", "block" in json.loads(run([self.sampler, "--unread", "--json"], lost).stdout)["refused"], True)

    def test_unread(self):
        """What is found and not read is listed, once each, with the reason, also beside what is read."""
        good, lost = grid_of("GOOD 1"), beyond_repair("LOST 1")
        rows = beside([pixels_of(grid) for grid in (lost, good, lost)])
        said = self.told(rows, "--all", "--unread", "--time=30000")
        self.row("what is read, and what isn't", sorted((one.get("message", ""), "block" in one.get("refused", ""))
                                                        for one in said), [("", True), ("", True), ("GOOD 1", False)])
        wide = len(rows[0]) // 3
        self.row("where they are", sorted(round(one["corners"][0][0]) for one in said), [12, 12 + wide, 12 + 2 * wide])
        self.row("their grids", [one["grid"] for one in said if "refused" in one],
                 [["".join(map(str, row)) for row in lost]] * 2)
        done = run([self.sampler, "--all", "--unread", "--time=30000"], pgm(rows))
        self.row("as records, what is read", done.stdout.decode(), record(good))
        said = self.first(pixels_of(good), "--unread", "--margin=9")
        self.row("what leaves too little", (said["refused"], "message" in said), ("too few corrections unused", False))

    def test_early(self):
        """A search that ends early says so, once, and one that doesn't, doesn't."""
        picture = pgm(pixels_of(grid_of("123456")))
        ended = b"dm_sample: -: the search ended early, after 0 milliseconds: there may be a symbol\n"
        for words, status, said in ((["--all", "--time=30000"], 0, b""), (["--time=30000"], 0, b""),
                                    (["--time=0"], 4, ended)):
            done = run([self.sampler, *words], picture)
            self.row(" ".join(words), (done.returncode, done.stderr), (status, said))

    def test_unread_without_a_symbol(self):
        """Where nothing has a symbol's border, nothing is found, --unread or not."""
        chance = random.Random(3)
        pictures = {"a dark square": [[1] * 14] * 14, "an elbow": [[1] + [0] * 13] * 13 + [[1] * 14],
                    "a frame": [[1] * 20] + [[1] + [0] * 18 + [1]] * 18 + [[1] * 20]}
        pictures = {name: pixels_of(modules, 6, 4) for name, modules in pictures.items()}
        pictures["noise"] = [[chance.randrange(256) for _ in range(200)] for _ in range(200)]
        for name, rows in pictures.items():
            for words in ([], ["--unread"]):
                done = run([self.sampler, *words, "--time=30000"], pgm(rows))
                self.row(f"{name} {words}", (done.returncode, done.stdout), (1, b""))

    def test_wide(self):
        """What is in EDIFACT is read too."""
        path = os.path.join(self.room, "edifact.png")
        if not self.has("dmtxwrite", "a symbol in EDIFACT"):
            return
        run(["dmtxwrite", "-e", "e", "-o", path], b"AB.CD/12 34")
        self.says("a symbol in EDIFACT", b"", "AB.CD/12 34", path)

    def test_usage(self):
        for words in (["--what"], ["--time"], ["--time=x"], ["--time=-1"], ["--time="], ["--margin=1x"],
                      ["--min-modules", "9" * 20], ["-q"]):
            done = run([self.sampler, *words])
            self.row(" ".join(words),
                     (done.returncode, done.stdout, done.stderr.startswith(b"dm_sample: usage: dm_sample ")),
                     (2, b"", True))
        done = run([self.sampler, "--help"])
        self.row("--help", (done.returncode, done.stdout.startswith(b"usage: dm_sample "), done.stderr), (0, True, b""))
        done = run([self.sampler, "--version"])
        self.row("--version", (done.returncode, done.stdout.split()[0], done.stdout.count(b"\n")), (0, b"dm_sample", 1))

    def test_errors(self):
        """Each bad file is named with what is wrong, and the next goes on."""
        good = os.path.join(self.room, "good.pgm")
        grid = grid_of("GOOD")
        places.wrote(pgm(pixels_of(grid)), good)
        cases = {b"": "an empty file", b"hello": "neither PNG, JPEG nor PNM", b"P7\n": "neither", b"P5": "neither",
                 b"P5 ": "a faulty header", b"P5 x 2 255\n": "a faulty header", b"P5 2 2 0\n....": "a faulty header",
                 b"P5 2 2 70000\n....": "a faulty header", b"P5 2 2 255\n...": "cut short",
                 b"P2 2 2 255\n1 2 3": "cut short", b"P2 2 2 255\n1 2 3 x": "a faulty sample",
                 b"P2 2 2 9\n1 2 3 10": "a faulty sample", b"P1 2 2\n012 1": "a faulty sample",
                 b"P1 2 2\n0112": "a faulty sample", b"P1 2 2\n011 ": "cut short", b"P5 0 5 255\n": "without pixels",
                 b"P4 40000 1\n" + bytes(5000): "more than 32767", b"\x89PNG\r\n\x1a\n": "PNG: ",
                 b"\x89PNG\r\n\x1a\n" + b"junk" * 9: "PNG: ", b"\xff\xd8\xff": "JPEG: ",
                 b"\xff\xd8\xff\xe0" + b"junk" * 9: "JPEG: "}
        for text, wanted in cases.items():
            bad = os.path.join(self.room, "bad")
            places.wrote(text, bad)
            done = run([self.sampler, bad, good])
            said = done.stderr.decode()
            is_named = said.startswith(f"dm_sample: {bad}: ") and wanted in said
            self.row(f"{text[:20]}", (done.returncode, done.stdout.decode(), is_named), (3, record(grid), True))
        for bad, wanted in ((os.path.join(self.room, "not there"), "No such file"), (self.room, "Is a directory")):
            done = run([self.sampler, bad, good])
            self.row(wanted, (done.returncode, done.stdout.decode(), wanted in done.stderr.decode()),
                     (3, record(grid), True))
        for text, wanted in spoilt_jpegs(self.room):
            done = run([self.sampler], text)
            self.row(wanted, (done.returncode, done.stdout, done.stderr.decode()),
                     (3, b"", f"dm_sample: -: {wanted}\n"))
        light = pgm([[255] * 40] * 40)
        self.row("nothing in it", (run([self.sampler], light).returncode, run([self.sampler], light).stdout), (1, b""))
        self.row("nothing in one of two", run([self.sampler, good, "-"], light).returncode, 1)
        with open("/dev/full", "wb") as full:
            done = subprocess.run([self.sampler, good], stdout=full, stderr=subprocess.PIPE)
        self.row("a full device", (done.returncode, done.stderr), (3, b"dm_sample: write failed\n"))
        taking, giving = os.pipe()
        os.close(taking)
        done = subprocess.run([self.sampler, good], stdout=giving, stderr=subprocess.PIPE)
        os.close(giving)
        self.row("a closed pipe", (done.returncode, done.stderr), (3, b"dm_sample: write failed\n"))

    def test_names(self):
        """No name of a file controls a terminal, ends a line, or turns letters around, on either stream."""
        picture = {"read": pgm(pixels_of(grid_of("123456"))), "refused": b"P5 ", "empty": pgm([[230] * 40] * 40),
                   "held back": pgm(pixels_of(next(grid for rows, columns, _, grid in symbols() if rows < columns)))}
        for name, shown, told in ((b"a\x1b[1mb", "a\\x1B[1mb", "a\x1b[1mb"), (b"a\nb\tc", "a\\x0Ab\\x09c", "a\nb\tc"),
                                  (b"\xc2\x9b1m\x7f", "\\xC2\\x9B1m\\x7F", "\x9b1m\x7f"),
                                  (b"\x9b1m", "\\x9B1m", "\ufffd1m"),
                                  ("é\u202ex".encode(), "é\\xE2\\x80\\xAEx", "é\u202ex")):
            for kind, words, said in (("read", ["--corners"], "{}: 12.0,12.0 52.0,12.0 52.0,52.0 12.0,52.0"),
                                      ("refused", [], "dm_sample: {}: PNM: a faulty header"),
                                      ("empty", ["--time=0"], "dm_sample: {}: the search ended early, after 0 "
                                       "milliseconds: there may be a symbol"),
                                      ("held back", [], "dm_sample: {}: the symbol of 8 by 18 modules at 12.0,12.0 is "
                                       "no square: --json has it")):
                places.wrote(picture[kind], self.room, os.fsdecode(name))
                done = run([self.sampler, *words, name], cwd=self.room)
                self.row(f"{kind} {name}", done.stderr.decode(errors="replace"), said.format(shown) + "\n")
            places.wrote(picture["read"], self.room, os.fsdecode(name))
            line = run([self.sampler, "--json", name], cwd=self.room).stdout.decode(errors="replace")
            self.row(f"{name}", (json.loads(line)["file"], line[:-1].isprintable(), line.count("\n")), (told, True, 1))
            os.remove(os.path.join(os.fsencode(self.room), name))

    def test_memory(self):
        """Whichever allocation fails, it is said, or the symbol is found all the same."""
        made = os.path.join(self.room, "memory.so")
        self.compiles("memory.c", made, compiler=("cc", "-shared", "-fPIC"))
        grid = grid_of("MEMORY")
        told = 0
        for number in range(1, 60):
            done = run([self.sampler], pgm(pixels_of(grid)),
                       env={**os.environ, "LD_PRELOAD": made, "FAIL_AT": str(number)})
            said = done.stderr.decode()
            is_told = done.returncode == 3 and not done.stdout and re.match("dm_sample: -: .*memory", said) is not None
            told += is_told
            self.row(f"allocation {number} fails",
                     is_told or (done.returncode, done.stdout.decode(), said) == (0, record(grid), ""), True)
        self.row("allocations that fail are told", told > 12, True)

    def part(self, name):
        """Runs a C file of this folder over parts of the sampler. It prints what is wrong."""
        done = self.careful_run(f"{name}.c")
        self.row(name, (done.returncode, done.stdout, done.stderr.decode()[:600]), (0, b"", ""))

    def test_parts(self):
        """Points far outside of a picture, the usual work, and straight pieces that are joined."""
        self.part("parts")

    def test_judged(self):
        """Readings that say the same, and others; margins; and known damage that is read in two ways."""
        self.part("judged")

    def test_tracks(self):
        """Alternating borders of which a part doesn't show."""
        self.part("tracks")
