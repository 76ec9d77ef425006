"""Truncated and hostile files, large pictures and small ones, and the shared library from C and C++."""
import os
import random

from tests.sampler.common import paths_for
from tests.sampler.pictures import grid_of, pgm, pixels_of, run
from tests.support import places, work

EXPORTS = ["ecc200_sample_abi", "ecc200_sample_find", "ecc200_sample_measure", "ecc200_sample_other_code",
           "ecc200_sample_picture", "ecc200_sample_usual", "ecc200_sample_usual_search"]


def comb(wide, high):
    """One outline that bends thousands of times."""
    row, light = b"\xe6" * wide, b"\xe6" * wide * 8
    teeth, back = (row[:8] + middle + row[-8:]
                   for middle in (b"\x14\x14\xe6\xe6" * (wide // 4 - 4) + row[:wide % 4], b"\x14" * (wide - 16)))
    return f"P5 {wide} {high + 19} 255\n".encode() + light + teeth * high + back * 3 + light


class Limits:
    def test_hostile(self):
        """Files cut short or with random bytes, and small pictures of noise: a status, and nothing from sanitisers."""
        chance, spoilt, noise = random.Random(5), {}, {}
        seeds = sorted(name for name in os.listdir(self.room) if name.endswith((".png", ".jpg", ".pgm")))
        for round_of in range(2 * len(seeds)):
            text = bytearray(places.read(self.room, seeds[round_of % len(seeds)]))
            if round_of % 3 == 0:
                del text[chance.randrange(len(text)):]
            for _ in range(chance.randint(1, 6)):
                if text:
                    text[chance.randrange(min(len(text),
                                              400 if chance.random() < 0.5 else len(text)))] = chance.randrange(256)
            spoilt[f"a spoilt {seeds[round_of % len(seeds)]}, round {round_of}"] = bytes(text)
        for wide, high in ((1, 1), (1, 300), (300, 1), (2, 2), (7, 9), (23, 24), (48, 49), (90, 70)):
            rows = [[chance.choice((0, 255)) for _ in range(wide)] for _ in range(high)]
            noise[f"noise of {wide} by {high}"] = pgm(rows)
        self.tame(spoilt)
        self.tame(noise, "--unread")

    def test_nothing(self):
        """In small pictures of any form with nothing to be read the sanitisers find nothing, and nothing is read."""
        done = self.careful_run("nothing.c", "0", "64", "1")
        self.row("64 pictures", (done.returncode, done.stdout, done.stderr.decode()[:1500]),
                 (0, b"32 beyond repair, 28 without a symbol, 4 of any form\n", ""))

    def tame(self, files, *words):
        """That a process over these files ends with a status, and quietly: else those fail that do so alone, or all."""
        folder, tame = self.folder(), (True, True)
        paths = [places.wrote(text, folder, str(at)) for at, text in enumerate(files.values())]
        together = self.tameness(*words, *paths)
        apart = [] if together == tame else [self.tameness(*words, path) for path in paths]
        for name, each in zip(files, apart if set(apart) - {tame} else [together] * len(files)):
            self.row(name, each, tame)

    def tameness(self, *words):
        """Whether the sampler with the sanitisers ends with a status, and these say nothing, or what is said."""
        done = run([self.careful, "--time=300", "--all", *words])
        said = done.stderr.decode(errors="replace")
        return done.returncode in (0, 1, 3, 4), "Sanitizer" not in said and "runtime error" not in said or said[:1500]

    def test_large(self):
        """Fifty megapixels with a symbol in them, and light or noisy all over."""
        wide, high = 8192, 6200
        grid = grid_of("FIFTY MEGAPIXELS")
        light = bytearray(b"\xe6" * (wide * high))
        header = f"P5 {wide} {high} 255\n".encode()
        self.row("50 MP of nothing", run([self.sampler, "--time=3000"], header + light).returncode in (1, 4), True)
        for y, row in enumerate(pixels_of(grid, 12)):
            light[(3000 + y) * wide + 4000:(3000 + y) * wide + 4000 + len(row)] = bytes(row)
        self.reads("a symbol in 50 megapixels", header + light, grid, "--time=20000")
        for most in (60000, 150000):  # kilobytes: too few to read the picture, and to search it
            done = run(["sh", "-c", f'ulimit -v {most} && exec "$@"', "sh", self.sampler, "--time=20000"],
                       header + light)
            self.row(f"50 megapixels in {most} KB", (done.returncode, done.stderr), (3, b"dm_sample: -: no memory\n"))
        noise = random.Random(1).randbytes(wide * high)
        for name, milliseconds, picture, most in (("50 megapixels of noise", 2000, header + noise, 60),
                                                  ("a comb of many teeth", 300, comb(32767, 20), 10)):
            with work.measured() as took:
                self.row(name, run([self.sampler, f"--time={milliseconds}"], picture).returncode in (1, 4), True)
            self.row(f"the work of {name}", took.pieces < most or str(took), True)

    def test_library(self):
        picture = pgm(pixels_of(grid_of("FROM C")))
        for name, words in (("calls by C", ["cc", "-std=c11"]), ("calls by C++", ["c++", "-std=c++17", "-x", "c++"])):
            if not self.has(words[0], name):
                continue
            made = os.path.join(self.room, name)
            self.compiles("calls.c", made, "-x", "none", os.path.join(self.plain, "libecc200_sample.so"), places.SHARED,
                          compiler=words)
            done = run([made, "x"], picture, env=paths_for(self.room, self.plain, places.BUILT))
            self.row(name, (done.returncode, done.stdout), (0, b"14 14 FROM C 12.0"))
        names = run(["nm", "-D", "--defined-only", f"{self.plain}/libecc200_sample.so"]).stdout.decode().split()[2::3]
        self.row("what the library exports", sorted(names), EXPORTS)
