"""GS1 element strings: the rules, the table against zint's and python-stdnum's, and what is written and read."""
import random
import re
import string
import subprocess

from tests import corpus
from tests.python.common import PackageCase

import ecc200
from ecc200 import gs1
from ecc200.spelling import spelled

WORKED = "(01)09521234543213(17)251231(10)ABC123"
# Of these zint accepts fewer: it looks into countries, currencies, prefixes and the like, and the table doesn't.
STRICTER = ("394", "401", "43", "253", "255", "700", "701", "702", "704", "723", "80", "811")

NUMBERS = [f"{number:03}" for number in range(1000)]
LETTERS = [first + second for first in string.ascii_uppercase for second in string.ascii_uppercase]


def accepted(text, **more):
    try:
        return gs1.text(gs1.parse(text, **more))
    except gs1.Faulty as why:
        return str(why)


def sample(identifier, shortest, chance):
    """A value that the table allows, as short or as long as it can be."""
    value = ""
    for part in gs1.identifiers()[identifier].parts:
        if part.optional and shortest:
            break
        length = part.least if shortest else part.most
        if part.check == "pair":
            length = max(length, 4)
        if part.check in ("date", "month-day", "full-date"):
            value += "2024"[-4 if part.check == "full-date" else -2:] + "0229"
            continue
        if part.check == "time":
            value += "2359"
            continue
        charset = {"N": "0123456789", "X": gs1._X, "Y": gs1._Y, "Z": gs1._Z}[part.charset]
        letters = "".join(chance.choice(charset) for _ in range(length))
        letters = {"check": lambda: letters[:-1] + gs1.check_digit(letters[:-1]),
                   "pair": lambda: letters[:-2] + gs1.check_pair(letters[:-2]), "minus": lambda: "-",
                   "hour": lambda: "23", "minute": lambda: "59", "second": lambda: "00", "processor": lambda: "999",
                   "country": lambda: "276", "letters": lambda: "DE",
                   "currency": lambda: "978"}.get(part.check, lambda: letters)()
        value += letters
    return value


def by_zint(text):
    """What zint says of an element string: whether it knows the identifiers, and what it complains of."""
    data = re.sub(r"(?<!\\)\((\d+)\)", r"[\1]", text).replace("\\(", "(")
    done = subprocess.run(["zint", "-b", "71", "--gs1", "--square", "-d", data, "--direct", "--filetype=txt"],
                          stdout=subprocess.DEVNULL, stderr=subprocess.PIPE, timeout=60)
    said = done.stderr.decode(errors="replace")
    return "Invalid AI" not in said, said or (f"status {done.returncode}" if done.returncode else "")


class Elements(PackageCase):
    def test_worked(self):
        elements = gs1.parse(WORKED)
        self.row("the elements", elements, [("01", "09521234543213"), ("17", "251231"), ("10", "ABC123")])
        self.row("their message", gs1.message(elements), b"01095212345432131725123110ABC123")
        self.row("their items", gs1.items(elements), [256, *b"01095212345432131725123110ABC123"])
        reading = ecc200.read(ecc200.write(gs1.message(elements), gs1=True))
        self.row("what is read", (reading.gs1, reading.items), (True, tuple(gs1.items(elements))))
        self.row("split from bytes and items",
                 [gs1.split(some) for some in (reading.data, reading.items, gs1.message(elements))], [elements] * 3)
        self.row("as text again", gs1.text(gs1.split(reading.data)), WORKED)
        turned = gs1.parse("(10)ABC123(21)X(01)09521234543213(37)12(17)251231")
        self.row("FNC1 behind variable lengths", gs1.items(turned),
                 [256, *b"10ABC123", 256, *b"21X", 256, *b"0109521234543213", *b"3712", 256, *b"17251231"])
        self.row("FNC1 behind a fixed length that scanners don't know",
                 gs1.message(gs1.parse("(402)12345678901234560(10)A")), b"40212345678901234560\x1d10A")
        self.row("a separator", gs1.split(b"0109521234543213\x1d10A\x1d"), [("01", "09521234543213"), ("10", "A")])
        self.row("brackets in a value", accepted("(10)A\\(01)B"), "(10)A\\(01)B")
        self.row("in square ones", gs1.parse("[01]09521234543213[17]251231[10]ABC123"), elements)
        self.row("their bytes", gs1.message(gs1.parse("(10)A\\(01)B")), b"10A(01)B")
        self.row("encode", ecc200.encode(WORKED, gs1=True).rows, ecc200.write(gs1.message(elements), gs1=True))

    def test_read(self):
        reading = ecc200.read(ecc200.encode(WORKED, gs1=True))
        self.row("its elements", reading.elements, gs1.parse(WORKED))
        self.row("of a picture", [it.elements for it in ecc200.decode(ecc200.encode(WORKED, gs1=True))],
                 [gs1.parse(WORKED)])
        self.row("as it is shown", repr(reading),
                 "<Reading of GS1 data '01095212345432131725123110ABC123', 20 rows and 20 columns>")
        for name, symbol, shown in (
                ("text", ecc200.encode("caf\u00e9"), "<Reading of 'caf\u00e9', 12 rows and 12 columns>"),
                ("binary data", ecc200.encode(b"\0\xff", marks=[(0, 899)], size=(8, 32)),
                 "<Reading of b'\\x00\\xff', 8 rows and 32 columns>"),
                ("a faulty value", ecc200.encode([256, *b"0109521234543214"]),
                 "<Reading of GS1 data '0109521234543214', 16 rows and 16 columns>"),
                ("nothing behind FNC1", ecc200.encode([256]), "<Reading of GS1 data '', 10 rows and 10 columns>"),
                ("an instruction", ecc200.encode([256, *b"10A"], head="programming"),
                 "<Reading of GS1 data '10A', 12 rows and 12 columns>")):
            self.row(name, (ecc200.read(symbol).elements, repr(ecc200.read(symbol))), (None, shown))
        parts = [ecc200.read(ecc200.encode(items, head=(part, 2, 1, 9)))
                 for part, items in ((1, [256, *b"10A"]), (2, [66, 256, *b"21C"]))]
        self.row("of a part", parts[0].elements, None)
        self.row("of parts that are joined", ecc200.join(parts).elements, [("10", "AB"), ("21", "C")])

    def test_faults(self):
        """Each element string of the corpus: its items, spelled, or what is said of its fault; then what is unknown."""
        for text, said in corpus.rows("elements"):
            if said.startswith("\\no "):
                self.holds(text, said.removeprefix("\\no ") in accepted(text), accepted(text))
            else:
                elements = gs1.parse(text)
                self.row(text, spelled(gs1.items(elements)), said)
                self.row(f"{text} as text again", gs1.parse(gs1.text(elements)), elements)
        self.holds("a backslash that isn't in front of a bracket", "not '\\\\' in" in accepted("(10)A\\x28B"))
        self.row("an unknown identifier passes", accepted("(999)ABC(05)1", unknown=True), "(999)ABC(05)1")
        self.holds("an unknown one with a strange value", "not ' '" in accepted("(999)a b", unknown=True))
        self.holds("an unknown one of a known length", "14 characters" in accepted("(04)12", unknown=True)
                   or "16 characters" in accepted("(04)12", unknown=True))
        self.raises("unknown in a message", gs1.Faulty, "(4327)", lambda: gs1.split(b"4327A"))
        self.row("unknown in a message passes", gs1.split(b"4327A\x1d10B", unknown=True), [("4327", "A"), ("10", "B")])
        self.raises("no identifier begins so", gs1.Faulty, "'55'", lambda: gs1.split(b"5512", unknown=True))
        self.raises("an empty message", gs1.Faulty, "no identifier", lambda: gs1.split(b""))
        self.raises("one that ends in an identifier", gs1.Faulty, "has 0", lambda: gs1.split(b"010952123454321310"))
        self.raises("bytes that aren't ASCII", gs1.Faulty, "in place 2", lambda: gs1.split(b"10a\xe9"))

    def test_table(self):
        """Each identifier: values of the least and greatest length pass, others don't, and what is written is read."""
        chance = random.Random(1)
        for identifier, known in gs1.identifiers().items():
            for shortest in (True, False):
                value = sample(identifier, shortest, chance)
                text = gs1.text([gs1.Element(identifier, value)])
                self.row(f"{text!r} passes", accepted(text), text)
                other = gs1.parse(text) + gs1.parse("(21)X") + gs1.parse(text)
                self.row(f"({identifier}) with others", gs1.split(gs1.items(other)), other)
            self.holds(f"({identifier}) longer",
                       "characters, and has" in accepted(gs1.text([gs1.Element(identifier, value + "0")])),
                       gs1.text([(identifier, value + "0")]))
            self.holds(f"({identifier}) empty", "has 0" in accepted(f"({identifier})"))
            self.row(f"({identifier}) is fixed as scanners know it", known.fixed, identifier[:2] in gs1._LENGTHS)
            if known.fixed:
                self.row(f"({identifier})", sum(part.most for part in known.parts), gs1._LENGTHS[identifier[:2]])
        for digits, wanted in (("629104150021", "3"), ("0952123454321", "3"), ("9521234543213"[:12], "3"),
                               ("00000000000000000", "0")):
            self.row(f"the check digit of {digits}", gs1.check_digit(digits), wanted)

    def test_beside_zint(self):
        """Zint has a table of its own: it accepts what this one does, and no length that this one doesn't."""
        if not self.has("zint", "the table beside zint's"):
            return
        chance, known = random.Random(2), set()
        for identifier in gs1.identifiers():
            for shortest in (True, False):
                text = gs1.text([gs1.Element(identifier, sample(identifier, shortest, chance))])
                knows, complaint = by_zint(text)
                if knows:
                    known.add(identifier)
                    if not identifier.startswith(STRICTER):
                        self.row(f"zint accepts {text}", complaint, "")
            if identifier in known:
                longer = gs1.text([gs1.Element(identifier, sample(identifier, False, chance) + "0")])
                self.holds(f"zint refuses {longer}", by_zint(longer)[1] != "")
        self.holds("identifiers that zint knows", len(known) > 450, str(len(known)))
        for number in [*range(100), *range(100, 1000, 7), *range(4300, 4400), *range(7000, 7060), *range(8000, 8030)]:
            identifier = f"{number:02}"
            if identifier not in gs1.identifiers():
                self.holds(f"zint doesn't know ({identifier}) either", not by_zint(f"({identifier})1")[0])

    def test_countries_and_currencies(self):
        """Each code of three digits, and of two letters, as zint takes it."""
        counts = {}
        for check, identifier, behind, codes in (
                ("country", "422", "", NUMBERS), ("letters", "4307", "", LETTERS), ("currency", "3910", "1", NUMBERS)):
            right = [code for code in codes if accepted(f"({identifier}){code}{behind}").startswith("(" + identifier)
                     and "no " not in accepted(f"({identifier}){code}{behind}")]
            counts[check] = len(right)
            wrong = [code for code in codes if code not in right]
            for code in right[::9] if self.has("zint", "codes beside zint's") else ():
                self.row(f"zint knows the {check} {code}", by_zint(f"({identifier}){code}{behind}")[1], "")
            for code in wrong[::40] if self.has("zint", "codes beside zint's") else ():
                self.holds(f"zint knows no {check} {code}", by_zint(f"({identifier}){code}{behind}")[1] != "")
        self.row("how many there are", counts, {"country": 249, "letters": 249, "currency": 180})

    def test_beside_stdnum(self):
        """The table from which this one was made."""
        try:
            from stdnum import numdb
        except ImportError:
            self.leave_out("the table beside python-stdnum's (python3-stdnum isn't installed)")
            return
        data = numdb.get("gs1_ai")
        for identifier, known in gs1.identifiers().items():
            info = data.info(identifier)[0][1]
            if info:
                most = sum(int(re.findall(r"\d+", part)[-1]) for part in info["format"].split("+"))
                self.row(f"the greatest length of ({identifier})", sum(part.most for part in known.parts), most)
                self.row(f"whether FNC1 ends ({identifier})", known.fixed, "fnc1" not in info)
