"""Searches of pictures: what ends one early, what the sampler read, and what is found and not read is said."""
import copy
import json
import math
import os
import pickle
import re

from tests.python.common import PackageCase, ecc, run, saved
from tests.python.test_surface import hurt, text
from tests.sampler.damage import spotted
from tests.sampler.pictures import pixels_of
from tests.support import places

import ecc200
from ecc200 import core

LONG = 600_000  # milliseconds, which no search here takes


def sheet(folder, count, *more):
    messages = [f"SN-{number:05}" for number in range(count)]
    name = f"sheet-{count}.png"
    ecc("write --sheet -o", name, *more, given="\n".join(messages), folder=folder)
    return name, messages


def gap(folder, *more):
    """How many modules stand between two symbols on a sheet."""
    ecc("write --sheet -o two.svg", *more, "A", "B", folder=folder)
    lefts = [float(left) for left in re.findall(r"translate\(([0-9.]+) ", places.text_of(folder, "two.svg"))]
    return (lefts[1] - lefts[0]) / 0.5 - len(ecc200.write(b"A"))


def of_rows(folder, name, rows):
    from PIL import Image
    Image.frombytes("L", (len(rows[0]), len(rows)), b"".join(map(bytes, rows))).save(os.path.join(folder, name))
    return name


def frayed(message, count):
    """A symbol with so many wrong modules in its top border."""
    rows = [bytearray(row) for row in ecc200.write(message)]
    for column in range(3, 3 + count):
        rows[0][column] ^= 1
    return rows


def blotted(message, size):
    """The luminances of a symbol with a dark blot on it, of twelve by twelve modules but for the corners."""
    return [[0 if math.hypot(x - 37 * 6, y - 12 * 6) < 6 * 6 else level for x, level in enumerate(row)]
            for y, row in enumerate(pixels_of(ecc200.write(message, size=size), 6, 4, 0, 255))]


def beside_one_another(folder, name, symbols):
    parts = [pixels_of(rows, 8, 6, 0, 255) for rows in symbols]
    return of_rows(folder, name, [[level for part in parts for level in part[y]] for y in range(len(parts[0]))])


class Searches(PackageCase):
    def test_early(self):
        """A search that ends early says so, by a status of its own, a line and JSON; and no other does."""
        here = self.made("early", "searches that end early")
        name, messages = sheet(here, 12)
        rows = [("all", ("--all", ), 0, 12, None), ("more than there are", ("--most", "13"), 0, 12, None),
                ("the first", (), 3, 1, ["there are more symbols than the one that is read", "--all"]),
                ("one", ("--most", "1"), 0, 1, None),
                ("some", ("--most", "5"), 3, 5, [f"ecc200: {name}: the search ended with 5 symbols", "--most"]),
                ("as many as there are", ("--most", "12"), 3, 12, ["the search ended with 12 symbols"])]
        for case, words, status, count, parts in rows:
            got = self.ecc("read --time", str(LONG), *words, name)
            self.says(case, (got[0], "", got[2]), status, "", parts)
            read = got[1].split()
            self.holds(f"{case}, read", len(set(read)) == len(read) == count and set(read) <= set(messages), read)
            self.holds(f"{case}, lines of errors", got[2].count("\n") == (status > 0), got[2])
            told = self.ecc("read --json --time", str(LONG), *words, name)[1].splitlines()
            told = [json.loads(line) for line in told]
            self.row(f"{case}, complete in JSON", {line["complete"] for line in told}, {status == 0})
            self.row(f"{case}, its line", ["ended" in line for line in told], [False] * count + [True] * (status > 0))
        for command in ("check", "explain", "normal"):
            got = self.ecc(command, "--most", "2", "--time", str(LONG), name)
            self.holds(f"{command}, some", got[0] == 3 and "the search ended with 2 symbols" in got[2], str(got))
        got = self.ecc("normal --most 2 --time", str(LONG), name, "-o", "normal.svg")
        self.row("files of a search that ended early", (got[0], sorted(it for it in os.listdir(here) if "normal" in
                                                                       it)), (3, ["normal-1.svg", "normal-2.svg"]))

    def test_out_of_time(self):
        """The end of the time is said, whether something was found or not, and on which page."""
        Image = self.needs_search("searches whose time is over").Image
        here = self.made("time")
        noise = Image.effect_noise((3000, 3000), 90)
        noise.save(os.path.join(here, "noise.png"), compress_level=1)
        got = self.ecc("read --time 1 noise.png")
        self.says("nothing in time", got, 3, "", ["no Data Matrix symbol was found", "after its 1 ms", "--time"])
        self.row("in one line", got[2].count("\n"), 1)
        told = json.loads(self.ecc("read --json --time 1 noise.png")[1])
        self.row("in JSON", (told["complete"], "refused" in told), (False, True))
        for _ in range(2):
            got = self.ecc("read noise.png")
            self.says("the usual work", got, 3, "", ["noise.png", "ended after its usual work", "--time"])
        self.row("the usual work in Python", (got := ecc200.decode(noise), got.ended), ([], core.End.WORK))
        Image.new("L", (60, 60), 255).save(os.path.join(here, "white.png"))
        self.says("nothing in all of a picture", self.ecc("read white.png"), 1, "", ["no Data Matrix symbol"])
        self.row("it is complete in JSON", json.loads(self.ecc("read --json white.png")[1]).get("complete", True), True)
        ecc200.encode(b"one", quiet=4).save(os.path.join(here, "one.png"))
        with Image.open(os.path.join(here, "one.png")) as one:
            one.convert("L").save(os.path.join(here, "pages.tif"), save_all=True, append_images=[noise.copy()])
        got = self.ecc("read --time 200 pages.tif")
        self.says("a page out of time", got, 3, "one\n", ["pages.tif: page 2: the search ended after its 200 ms"])
        with Image.open(os.path.join(here, "one.png")) as one:
            noise.paste(one.convert("L").resize((600, 600), Image.NEAREST), (100, 100))
        noise.save(os.path.join(here, "beside.png"), compress_level=1)
        status, _, errors = self.ecc("compare --time 300 beside.png one.png")
        self.holds("compare may have missed one", status >= 2 and ("the search ended after its 300 ms" in errors
                                                                  or "no Data Matrix" in errors), errors)

    def test_by_python(self):
        """The lists of decode and find say why the search ended."""
        self.row("a grid", (ecc200.decode(ecc200.write(b"A")).complete, ecc200.decode([b"\1"]).complete), (True, True))
        here = self.made("python", "searches by Python that end early")
        path, messages = sheet(here, 70)
        path = os.path.join(here, path)
        for call in (ecc200.decode, ecc200.find):
            for name, more, count, ended in [("all", {"most": 100}, 70, core.End.WHOLE),
                                             ("usual", {}, 64, core.End.ROOM), ("some", {"most": 3}, 3, core.End.ROOM)]:
                got = call(path, milliseconds=LONG, **more)
                self.row(f"{call.__name__}, {name}", (len(got), got.ended, got.complete),
                         (count, ended, ended == core.End.WHOLE))
                for kind, other in (("a copy", copy.copy(got)), ("pickled", pickle.loads(pickle.dumps(got)))):
                    self.row(f"{call.__name__}, {name}, {kind}", (other == got, other.ended), (True, ended))
            self.row(f"{call.__name__}, no time", call(path, milliseconds=1, most=100).ended, core.End.TIME)
        from PIL import Image
        with Image.open(path) as first:
            grey = first.convert("L")
        array = memoryview(grey.tobytes()).cast("B", (grey.height, grey.width))
        for call in (ecc200.decode, ecc200.find):
            got = call(array, most=3, milliseconds=LONG)
            self.row(f"{call.__name__}, some of an array", (len(got), got.ended), (3, core.End.ROOM))
        pages = [grey.crop((0, 0, 1200, 400)), Image.new("L", (90, 90), 255)]
        for name, order in (("first", pages), ("last", pages[::-1])):
            order[0].save(os.path.join(here, "pages.tif"), save_all=True, append_images=order[1:])
            for call in (ecc200.decode, ecc200.find):
                got = call(os.path.join(here, "pages.tif"), most=2, milliseconds=LONG)
                self.row(f"{call.__name__}, more on the {name} page", (len(got), got.ended), (2, core.End.ROOM))
        texts = [found.text for found in ecc200.decode(path, most=100, milliseconds=LONG)]
        self.row("what is read", sorted(texts), messages)
        self.holds("they are lists", isinstance(ecc200.decode(path, most=1), list))

    def test_sheets(self):
        """Of sheets as they are drawn by default each label is found, and all in reading order."""
        here = self.made("sheets")
        gaps = [gap(here, *words) for words in ((), ("--quiet-zone", "1"), ("--quiet-zone", "2"))]
        self.row("modules between symbols", gaps, [8, 2, 4])
        self.needs_search("sheets of labels")
        for count in (10, 50, 100, 200, 400):
            name, messages = sheet(here, count)
            status, read, errors = self.ecc("read --all --time", str(LONG), name)
            self.row(f"{count} labels", (status, len(read.split()), errors), (0, count, ""))
            self.row(f"what {count} labels say", read.split(), messages)

    def test_handed_on(self):
        """What the sampler read is said, with the border limit and the doubtful modules by which it was read."""
        here, large, spelled = self.made("read", "readings of pictures"), b"M" * 62, b"Mitsubadoor-0123456789-ABCDEFGH"
        for name, rows, message in (("border.png", pixels_of(frayed(large, 16), 6, 3, 30, 200), large),
                                    ("glare.png", spotted(ecc200.write(large)), large),
                                    ("blot.png", blotted(spelled, (16, 48)), spelled)):
            of_rows(here, name, rows)
            found, = ecc200.find(os.path.join(here, name), most=1, milliseconds=20_000)
            self.row(f"found, {name}", found.answer.data, message)
            usual = found.answer.border_faults <= ecc200.usual_limit(*found.answer.size) and not found.doubtful
            self.row(f"not as a grid by itself, {name}", usual, False)
            again = ecc200.read(found.rows, found.border_limit, doubtful=found.doubtful)
            self.row(f"read says the same, {name}", again._replace(corners=found.answer.corners), found.answer)
            self.row(f"decode, {name}", [it.data for it in ecc200.decode(os.path.join(here, name), most=1)], [message])
            words = ("--time", "20000", name)
            self.says(f"read, {name}", self.ecc("read", *words), output=message.decode() + "\n")
            told = json.loads(self.ecc("read --json", *words)[1])
            doubtful = found.doubtful and ["".join(map(str, row)) for row in found.doubtful]
            got = told["border_limit"], told["border_faults"], told["corrected"], told["erased"], told.get("doubtful")
            answer = found.answer
            self.row(f"in JSON, {name}", got, (found.border_limit, answer.border_faults, list(answer.corrected),
                                               list(answer.erased), doubtful))
            self.says(f"normal, {name}", self.ecc("normal", *words), output=text(ecc200.write(message)))
            checked, counts = self.ecc("check", *words), f"erased: {answer.erased[0]}, check codewords left: "
            self.holds(f"check, {name}", checked[0] == 0 and
                       (f"{counts}{answer.left[0]}\n" in checked[1]) == bool(found.doubtful), f"{checked}")
            explained = self.ecc("explain", *words)
            self.holds(f"explain, {name}", explained[0] == 0 and f"It says {message.decode()}" in explained[1]
                       and "not read" not in explained[1], explained)
            self.row(f"compare, {name}", self.ecc("compare --most 1", *words, name)[0], 0)
        self.holds("doubtful modules", (len(found.doubtful), len(found.doubtful[0])) == (16, 48)
                   and 90 < sum(map(sum, found.doubtful)) < 250, f"{found.doubtful}")
        self.raises("without them it isn't read", ecc200.Refused, "BLOCK", lambda: ecc200.read(found.rows))
        side = len(ecc200.write(large))
        blot = saved(here, "blot.txt", text([bytes(column == 5 for column in range(side))] * side))
        self.says("with doubtful modules of the caller's", self.ecc("read --time 20000 --doubtful", blot, "border.png"),
                  output=large.decode() + "\n")
        got = self.ecc("read --border 2 --time 20000 border.png")
        self.says("another limit is asked for", got, 1, "", ["modules of its border have the wrong colour"])

    def test_unread(self):
        """What is found and not read is listed with the reason and the place, if that is asked for."""
        damaged = [bytes(row) for row in hurt(4)]
        refused = ecc200.decode(damaged, unread=True)
        self.row("decode of a grid that isn't read", (ecc200.decode(damaged), [each.code for each in refused]),
                 ([], [ecc200.Code.BLOCK]))
        grids = text(ecc200.write(b"A")) + text(damaged)
        self.row("two", [isinstance(it, ecc200.Reading) for it in ecc200.decode(grids, unread=True)], [True, False])
        here = self.made("unread", "symbols that are found and not read")
        name = beside_one_another(here, "three.png", [ecc200.write(b"123456"), damaged, ecc200.write(b"A")])
        path, words = os.path.join(here, name), ("--time", "20000", name)
        self.row("as without it", sorted(self.ecc("read --all", *words)[1].split()), ["123456", "A"])
        status, read, errors = self.ecc("read --all --unread", *words)
        self.row("what is read", (status, sorted(read.split())), (1, ["123456", "A"]))
        middle = 8 * (22 + 11)
        self.holds("the reason and the place", errors.count("\n") == 1 and f"symbol 3, at {middle}, {8 * 11}: block 1"
                   in errors, errors)
        told = [json.loads(line) for line in self.ecc("read --all --unread --json", *words)[1].splitlines()]
        self.row("in JSON", ["refused" in line for line in told], [False, False, True])
        self.row("its reason there", (told[2]["code"], told[2]["block"], told[2]["complete"]), ("BLOCK", 1, True))
        for call in (ecc200.find, ecc200.decode):
            counts = [len(call(path, milliseconds=20_000, **more)) for more in ({}, {"unread": True})]
            self.row(f"{call.__name__} without it, and with it", counts, [2, 3])
        found = ecc200.find(path, milliseconds=20_000, unread=True)
        self.row("the rows of what isn't read", (found[2].answer.code, found[2].rows), (ecc200.Code.BLOCK, damaged))
        several = beside_one_another(here, "several.png", [damaged, ecc200.write(b"123456"), damaged, damaged])
        got = self.ecc("read --all --unread --time 20000", several)
        self.row("several that aren't read", (got[:2], got[2].count("block 1")), ((1, "123456\n"), 3))
        self.says("without --unread", self.ecc("read --all --time 20000", several), output="123456\n")
        alone = beside_one_another(here, "alone.png", [damaged])
        self.row("decode says why nothing is read",
                 [each.code for each in ecc200.decode(os.path.join(here, alone), unread=True)], [ecc200.Code.BLOCK])
        self.row("and is empty where that isn't asked", ecc200.decode(os.path.join(here, alone)), [])

    def test_other_codes(self):
        """Where no symbol is read, another code that is there is named, and what its parts look like isn't told."""
        Image = self.needs_search("pictures of other codes").Image
        if not self.has("zint", "pictures of other codes"):
            return
        here = self.made("others")
        lost = os.path.join(here, beside_one_another(here, "lost.png", [hurt(4)]))
        said = ["what looks most like a symbol isn't read", "Other codes, as QR codes, aren't read"]
        self.says("a symbol that isn't read", self.ecc("read lost.png"), 1, "", said)
        self.row("none beside it", ecc200.decode(lost).other, None)
        for number, name in ((58, "a QR code"), (92, "an Aztec code"), (55, "a PDF417 code"), (20, "a bar code")):
            run(["zint", "-o", "code.png", "-b", str(number), "--scale", "2", "-d", "ANOTHER CODE"], cwd=here)
            got = self.ecc("read code.png")
            self.holds(name, got[0] in (1, 3) and not got[1] and "no Data Matrix symbol was found in its" in got[2]
                       and f", but {name}, which isn't one. Take it from nearer" in got[2], str(got))
            path = os.path.join(here, "code.png")
            self.row(f"{name}, by Python", [call(path).other for call in (ecc200.decode, ecc200.find)], [name, name])
            with Image.open(lost) as one, Image.open(path) as other:
                both = Image.new("L", (one.width + other.width + 40, max(one.height, other.height) + 20), 255)
                both.paste(one, (0, 10))
                both.paste(other.convert("L"), (one.width + 20, 10))
            both.save(os.path.join(here, "both.png"))
            self.says(f"{name} beside what isn't read", self.ecc("read both.png"), 1, "",
                      [said[0], f"Beside it is {name}, which isn't one"])
        run(["zint", "-o", "large.png", "-b", "58", "--vers", "14", "--scale", "5", "-d", "A LARGE CODE"], cwd=here)
        with Image.open(os.path.join(here, "large.png")) as large, Image.open(lost) as one:
            around = large.convert("L")
            around.paste(one, tuple((whole - part) // 2 for whole, part in zip(around.size, one.size)))
        around.save(os.path.join(here, "around.png"))
        got = self.ecc("read around.png")
        self.holds("what isn't read within another code", "no Data Matrix symbol was found" in got[2]
                   and "but a QR code, which isn't one" in got[2], str(got))

    def test_advice(self):
        """Who has a camera is told first what to do with it, and then of options."""
        here = self.made("advice", "what is advised of pictures")
        of_rows(here, "light.png", pixels_of([bytes(14)] * 14, 5))
        lost = beside_one_another(here, "lost.png", [hurt(4)])
        unsure = beside_one_another(here, "unsure.png", [hurt(1)])
        saved(here, "frayed.txt", text(frayed(b"M" * 62, 16)))
        for words, option in ((f"read {lost}", "--doubtful"), ("read light.png", "--time"),
                              ("read frayed.txt", "--border"), (f"read --margin 2 {unsure}", None)):
            said = self.ecc(words)[2]
            first = said.find("from nearer, in even light and flat")
            self.holds(words, 0 < first < (said.find(option) if option else len(said)), said)

    def test_unsure(self):
        """What leaves too few corrections isn't read, and says what it may be."""
        here = self.made("unsure", "symbols that leave few corrections")
        name = beside_one_another(here, "one.png", [hurt(1)])
        found = ecc200.find(os.path.join(here, name), milliseconds=20_000, margin=2, unread=True)
        self.row("how many", len(found), 1)
        why = found[0].answer
        self.row("it is a refusal", (isinstance(why, ecc200.Unsure), isinstance(why, ecc200.Refused),
                                     isinstance(why, ecc200.Reading)), (True, True, False))
        self.row("what it may say", (why.reading.data, why.code, why.place), (b"123456", ecc200.Code.BLOCK, 0))
        self.row("in words", str(why), "block 1 leaves 3 check codewords, too few to be sure that it says b'123456'")
        other = pickle.loads(pickle.dumps(why))
        self.row("pickled", (str(other), other.reading), (str(why), why.reading))
        self.row("without unread", ecc200.find(os.path.join(here, name), milliseconds=20_000, margin=2), [])
        for words in ((), ("--unread", )):
            self.says(f"by the command {words}", self.ecc("read --margin 2", *words, name), 1, "",
                      ["it may say 123456, but its blocks leave fewer than 2 corrections"])
