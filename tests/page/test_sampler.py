"""The sampler in WebAssembly, in Node.js: it finds what the same sources find natively; it bears pictures of any size
and without a symbol, within its time; and a stack that runs over traps."""
import json
import os
import pathlib
import subprocess
from unittest import mock

from tests.page.photographs import made
from tests.page.stage import DEBIANS, on
from tests.support import commands, needs, package, places
from tests.support.case import Case

FINDER = ["node", places.path("tests", "page", "finder.mjs")]
LIBRARY, SAMPLER = (places.path("web", "out", name) for name in ("lowered.wasm", "sampler.wasm"))
NATIVE = os.environ.get("ECC200_SAMPLE_LIBRARY") or places.path("sampler", "out", "libecc200_sample.so")
SHARE = 67  # of each kind every so many
NEAR = 0.001  # pixels, by which corners may differ: libraries of C compute sines and roots a little differently
LATE = 400  # milliseconds of a processor by which a search may end after its time, with what the engine does beside it
KINDS = ["noise", "grey", "stripes", "squares", "weave"]
MEBIBYTE = 1 << 20


def found(questions, sampler=SAMPLER):
    """What the sampler in WebAssembly answers to questions."""
    done = subprocess.run([*FINDER, LIBRARY, sampler], input="\n".join(map(json.dumps, questions)).encode(),
                          stdout=subprocess.PIPE, timeout=600, check=True)
    return [json.loads(line) for line in done.stdout.splitlines()]


def differing(here, there):
    """In what a symbol differs from the one that was found natively, if it does."""
    text = lambda rows: "".join(str(module) for row in rows for module in row)
    modules, none = text(there.rows), "0" * len(here["modules"])
    wanted = {"rows": len(there.rows), "columns": len(there.rows[0]), "limit": there.border_limit,
              "isInverted": there.inverted, "isMirrored": there.mirrored, "modules": modules,
              "items": list(there.answer.items), "doubtful": text(there.doubtful or ()) or none}
    got = {**here, "doubtful": here["doubtful"] or none}
    far = [abs(one - other) for (x, y), corner in zip(there.corners, here["corners"]) for one,
           other in ((x, corner["x"]), (y, corner["y"]))]
    return [name for name in wanted if got[name] != wanted[name]] + ["corners"] * (max(far) > NEAR)


def natively(file):
    """What the library ecc200_sample finds in a picture."""
    _, size, _, pixels = file.read_bytes().split(b"\n", 3)
    width, height = map(int, size.split())
    with mock.patch.dict(os.environ, ECC200_SAMPLE_LIBRARY=NATIVE):
        return package.imported().find(memoryview(pixels).cast("B", (height, width)), 64)


@needs.page
@needs.library
@needs.program
class Sampler(Case):
    def test_the_same_as_natively(self):
        """Of a part of the photographs' set, the same symbols in the same order: modules, doubtful ones, what they say,
        border limits and corners."""
        on.program, on.folder = places.PROGRAM, pathlib.Path(self.folder())
        sets = [made("usual", SHARE), made("hard", SHARE, "--hard")]
        if not all(pictures for _, pictures in sets):
            self.skipTest("no photographs can be made (python3-opencv or python3-numpy isn't installed)")
        self.assertIsNone(needs.made("sampler"))
        pictures = self.in_grey([folder / picture["file"] for folder, some in sets for picture in some])
        there = [natively(file) for file in pictures]
        for file, some, others in zip(pictures, found([{"file": str(file), "most": 64} for file in pictures]), there):
            self.row(file.name, ([differing(*each) for each in zip(some["symbols"], others)], len(some["symbols"]),
                                 some["isComplete"]), ([[]] * len(others), len(others), others.complete))
        self.assertGreaterEqual(sum(map(len, there)), len(pictures) * 3 // 4, "symbols that are compared")

    def in_grey(self, files):
        """Pictures as PGM."""
        words = "import cv2, sys\nfor it in sys.argv[1:]: cv2.imwrite(f'{it}.pgm', cv2.imread(it, 0))"
        subprocess.run([DEBIANS, "-c", words, *files], check=True, timeout=600)
        return [pathlib.Path(f"{file}.pgm") for file in files]

    def test_pictures_of_any_size(self):
        sizes = [(0, 0), (0, 5), (32768, 1), (1, 32768), (1, 1), (2, 2), (1, 32767), (32767, 1), (7, 9)]
        outside = "RangeError: a picture has 1 to 32767 pixels on each side"
        answers = found([{"width": width, "height": height, "kind": "noise"} for width, height in sizes])
        for size, answer in zip(sizes, answers):
            is_outside = not all(1 <= side <= 32767 for side in size)
            self.row(f"{size}", answer.get("thrown", answer.get("symbols")), outside if is_outside else [])

    def test_nothing_where_nothing_is(self):
        """Pictures without a symbol: nothing is read, and the time is kept."""
        questions = [{"width": 40 + 53 * k % 460, "height": 40 + 97 * k % 460, "kind": KINDS[k % 5], "seed": 1 + k,
                      "milliseconds": 250, "mostUnread": 4} for k in range(60)]
        answers = found(questions)
        self.row("what is read", [answer.get("symbols") for answer in answers], [[]] * len(questions))
        self.assertLess(max(answer["time"] for answer in answers), 250 + LATE, "milliseconds")

    def test_memory_of_large_pictures(self):
        """A picture of 16 million pixels, as the page gives at most, and one that no memory holds."""
        large, *beyond = found([{"width": 4000, "height": 4000, "kind": "grey", "milliseconds": 2000, "most": most}
                                for most in (16, 60_000, 90_000)])
        self.row("what is found", large.get("symbols"), [])
        self.assertLess(large["bytes"], 200 * MEBIBYTE)
        self.row("room for symbols that there isn't", [answer.get("thrown") for answer in beyond],
                 ["RangeError: there is no memory for this picture"] * 2)

    def test_a_stack_that_runs_over_traps(self):
        """With a stack that is too small nothing else is written over: the call ends with an error of WebAssembly."""
        small = os.path.join(self.folder(), "small.wasm")
        env = commands.environment(STACK="65536", CFLAGS="-O0")
        made = commands.run([places.path("web", "build_sampler"), small], env=env)
        self.row("it is built", made.status, 0)
        (answer,) = found([{"width": 400, "height": 300, "kind": "squares"}], small)
        self.row("what is thrown", answer.get("thrown"), "RuntimeError: memory access out of bounds")
