"""The page's library, lowered to 32-bit memory, in Node.js: each of the calls that tests/library/hostile.c makes,
against what the library for C answers; and symbols of each size, written, damaged and read."""
import os
import random
import re
import shutil
import subprocess
import sys

from tests.library.library import compiled
from tests.page import judge
from tests.page.stage import spelled
from tests.support import commands, needs, places
from tests.support.case import Case

ROUNDS = 20_000
CALLS_OF_A_ROUND = 6  # at least: three readings, an inspection, a normal symbol, places
CALLS_BEFORE = 6
DRIVER = places.path("tests", "page", "module.mjs")
MODULE = places.path("web", "out", "lowered.wasm")
WIDE = "1"
BEYOND, TOO_LONG = 6, 14  # codes of faults


def damaged(named, symbol, modules):
    """A symbol of a size with codewords that are wrong and doubtful: of each row its name, what is done, the question,
    and what is to be answered."""
    name, size = named
    blocks, checks, limit = size["blocks"], size["check"] // size["blocks"], size["limit"]
    words = [range(b, size["data"] + size["check"], blocks) for b in range(blocks)]
    chance = random.Random(name)

    def row(what, wrong, doubtful, wanted):
        """So many wrong codewords in each block, and beside these so many that are wrong and doubtful."""
        text, doubts = list(symbol["text"]), ["0"] * len(symbol["text"])
        for b, (some, others) in enumerate(zip(wrong, doubtful)):
            for k, word in enumerate(chance.sample(words[b], some + others)):
                module = chance.choice(modules[word])
                text[module] = "10"[int(text[module])]
                doubts[module] = "01"[k >= some]
        grid = judge.in_lines({**symbol, "text": "".join(text)})
        return name, what, judge.asked_to_read(grid, "".join(doubts) if any(doubtful) else ""), wanted

    def read(wrong, doubtful):
        left = checks - 2 * wrong - doubtful
        return {"corrected": [wrong] * blocks, "erased": [doubtful] * blocks, "left": [left] * blocks}

    def refused(block):
        return {"fault": {"code": BEYOND, "value": 0, "place": block}}
    none, last = [0] * blocks, blocks - 1
    one_more = lambda count: [count] * last + [count + 1]
    return [row("as it is written", none, none, read(0, 0)),
            row("as much as can be", [limit] * blocks, none, read(limit, 0)),
            row("one more", one_more(limit), none, refused(last)),
            row("as many doubtful as can be", none, [checks] * blocks, read(0, checks)),
            row("one more doubtful", none, one_more(checks), refused(last)),
            row("one wrong and as many doubtful as can be", [1] * blocks, [checks - 2] * blocks, read(1, checks - 2)),
            row("one wrong and one more doubtful", [1] * blocks, [checks - 1] * blocks, refused(0))]


@needs.library
@needs.page
@needs.programs("cc")
class Module(Case):
    @classmethod
    def setUpClass(cls):
        cls.recorder, problem = compiled(places.path("tests", "page", "recorded.c"), cls.folder_of_class())
        if problem:
            raise AssertionError(problem)

    def test_hostile_rounds(self):
        recorder = self.process([self.recorder, str(ROUNDS), WIDE], stdout=subprocess.PIPE, stderr=subprocess.DEVNULL)
        status, said = commands.said(["node", DRIVER, MODULE], stdin=recorder.stdout)
        recorder.stdout.close()  # a driver that has ended before it takes no more
        self.row("the calls", (status, re.sub(r"^\d+ calls\n$", "", said)), (0, ""))
        self.row("the recorder", recorder.wait(timeout=60), 0)
        self.assertGreaterEqual(int(re.match(r"\d*", said)[0] or 0), ROUNDS * CALLS_OF_A_ROUND)

    def test_each_size(self):
        """Symbols of each size, filled to the last codeword: as they are written, and with wrong and doubtful codewords
        in each block, as many as can be and one more."""
        sizes = judge.table()
        self.assertEqual(len(sizes), 48)
        lines = {name: "7" * (2 * size["data"]) for name, size in sizes.items()}
        symbols = judge.judged([judge.asked_to_write(line, name) for name, line in lines.items()])
        longer = judge.judged([judge.asked_to_write(line + "7", name) for name, line in lines.items()])
        self.row("a digit more fits none", [each["fault"]["code"] for each in longer], [TOO_LONG] * 48)
        places = judge.judged([{"isMap": True, **judge.how_in(name)} for name in sizes])
        rows = [row for each in zip(sizes.items(), symbols, places) for row in damaged(*each)]
        for (name, what, _, wanted), answer in zip(rows, judge.judged([question for _, _, question, _ in rows])):
            answer = {**answer, "items": spelled(answer.get("items", []))}
            wanted = {"items": lines[name], "border": 0, **wanted} if "fault" not in wanted else wanted
            self.row(f"{name}, {what}", {key: answer.get(key) for key in wanted}, wanted)

    def test_a_lack_of_wasm_opt_is_told(self):
        folder = self.folder()
        for name, program in (("dirname", None), ("mkdir", None), ("python3", sys.executable)):
            os.symlink(program or shutil.which(name), os.path.join(folder, name))
        done = commands.run([places.path("web", "build")], env=commands.environment(PATH=folder))
        told = done.errors.decode().splitlines()
        self.assertEqual((done.status, len(told), "binaryen" in told[0]), (127, 1, True))

    def test_what_differs_is_told(self):
        calls = commands.run([self.recorder, "0", WIDE]).output
        wrong = calls[:-1] + bytes([calls[-1] ^ 1])
        for name, given, status, told in (
                ("what the library answers", calls, 0, f"{CALLS_BEFORE} calls"),
                ("another last byte", wrong, 1, f"call {CALLS_BEFORE}, ecc200_sizes: another output"),
                ("a call that is cut", calls[:-1], 1, "the last call is cut")):
            done = commands.said(["node", DRIVER, MODULE], given=given)
            self.row(name, (done[0], told in done[1]), (status, True))
