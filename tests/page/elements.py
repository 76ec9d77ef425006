"""GS1 element strings: what is taken, said and shown green, by hand and beside the rules of the Python library, which
stand over the same table."""
import random
import re

from tests import corpus
from tests.page.stage import after_each, expect, grid, line_of, press, push, shown, text_of, value_of, write, written
from tests.support import package


NOTHING = "Nothing is read"


def misjoined():
    """What would be read otherwise than it is written, or begins no element, is said, and isn't taken; it can be
    respelled as plain text."""
    for text, why in (("(01)0950600013435(21)0ABC", "(01) GTIN takes 14 digits, and has 13."),
                      ("(17)2712311(10)A", "(17) USE BY OR EXPIRY takes 6 digits, and has 7."),
                      ("(17)2712311", "(17) USE BY OR EXPIRY takes 6 digits, and has 7."),
                      ("(10)A\\F21B", "(10) BATCH/LOT has a separator in its value: FNC1 is put in where one is due.")):
        write(text)
        expect(f"{text} isn't taken", (shown()["state"], text_of("message-hint").startswith(why)), (NOTHING, True))
    for text, why, plain in (
        ("(01) 095 06000134352(10)AB ", "(01) GTIN has a space in its value, and GS1 has none.",
         "(01)09506000134352(10)AB"),
        ("(05)123", "Column 1 begins (05), which is no identifier of GS1’s table.", "\\x2805)123"),
        ("[05]123", "Column 1 begins (05), which is no identifier of GS1’s table.", "\\x5B05]123"),
        ("(5)a", "Column 1 begins (5), which is no identifier of GS1’s table.", "\\x285)a"),
        *((text, f"Column {column} opens a bracket that holds no identifier, such as (01).", plain)
          for text, column, plain in (
              ("(O1)09506000134352", 1, "\\x28O1)09506000134352"), ("(", 1, "\\x28"), ("(01", 1, "\\x2801"),
              ("(10)AB(17", 7, "(10)AB\\x2817"), ("(10)A(B)", 6, "(10)A\\x28B)"))),
    ):
        write(text)
        expect(f"{text} is said", (shown()["state"], text_of("message-hint").startswith(why)), (NOTHING, True))
        press("#message-hint button")
        expect(f"{text} respelled", (value_of("message"), grid(), shown()["state"].split(",")[0]),
               (plain, written(line_of(plain) if plain.startswith("(") else plain), "Read"))
    for text, line in (("(10)A\\(B)", "\\F10A(B)"), ("(10)A\\x28B)", "\\F10A(B)"), ("\\x28a)5", "(a)5"),
                       ("a(01)", "a(01)"), ("[01]09506000134352[10]A(B)", "\\F010950600013435210A(B)"),
                       ("[a]5", "[a]5")):
        write(text)
        expect(f"{text} is taken", (grid(), shown()["state"].split(",")[0]), (written(line), "Read"))


# ---- Beside the Python library


CHARACTERS = {"N": "0123456789", "X": "!\"%&')*+,-./0159:;<=>?AZ_az", "Y": "#-/0159AZ", "Z": "-059=AZ_az"}


class Strings:
    """Makes element strings at random, right ones and ones with a fault."""

    def __init__(self, seed, gs1):
        self.chance, self.gs1, self.table = random.Random(seed), gs1, gs1.identifiers()

    def piece(self, part):
        chance, least = self.chance, part.least + (2 if part.check == "pair" else 0)
        days = f"{chance.randint(1, 12):02}{chance.randint(1, 28):02}"
        made = {"date": f"{chance.randrange(100):02}{days}",
                "month-day": f"{chance.randrange(100):02}{days[:2]}{chance.choice(['00', days[2:]])}",
                "full-date": f"20{chance.randrange(100):02}{days}", "time": chance.choice(["9999", "2359", "0800"]),
                "hour": "23", "minute": "59", "second": "00", "minus": "-", "letters": "DE", "processor": "999",
                "country": chance.choice(["276", "840"]), "currency": chance.choice(["978", "392"])}
        text = made.get(part.check) or "".join(chance.choice(CHARACTERS[part.charset])
                                               for _ in range(chance.randint(least, part.most)))
        if part.check == "check":
            return text[:-1] + self.gs1.check_digit(text[:-1])
        return text[:-2] + self.gs1.check_pair(text[:-2]) if part.check == "pair" else text

    def value(self, identifier):
        pieces = []
        for part in self.table[identifier].parts:
            if part.optional and self.chance.random() < 0.4:
                break
            pieces.append(self.piece(part))
        return "".join(pieces)

    def right(self):
        identifiers = self.chance.choices(list(self.table), k=self.chance.randint(1, 3))
        return self.gs1.text(self.gs1.Element(identifier, self.value(identifier)) for identifier in identifiers)

    def faulty(self):
        text, chance = self.right(), self.chance
        at = chance.randrange(1, len(text))
        return chance.choice([text[:at] + text[at + 1 :], text[:at] + chance.choice("09A(") + text[at:],
                              text[:at] + chance.choice("059A") + text[at + 1 :], text[:-1], text + "0",
                              f"({chance.choice(['05', '18', '999', '7'])}){text[4:]}"])


# What isn't plain text to the page, which in square brackets also takes a bracket that is escaped.
LIKE_ELEMENTS = re.compile(r"\(|\[\d+\][^\\]*$")
TAKEN = """
    const isGreen = at("verdict").className.includes("good"), state = at("state").textContent.replace(/^Made/, "Read");
    return [isGreen, state, isGreen ? mitsubadoor.gridText(mitsubadoor.mark).trim() : null];"""


def as_the_library_says():
    gs1 = package.imported().gs1
    maker = Strings(3, gs1)
    known = [text for text, _ in corpus.rows("elements") if LIKE_ELEMENTS.match(text)]
    texts = [*known, *(maker.right() for _ in range(150)), *(maker.faulty() for _ in range(250))]
    push("profile-0")
    accepted = 0
    for text, (is_green, state, symbol) in zip(texts, after_each("message", texts, TAKEN)):
        try:
            line = "".join("\\F" if item == 256 else chr(item) for item in gs1.items(gs1.parse(text)))
            accepted += 1
            expect(f"{text} is right", (is_green, state, symbol), (True, "Read, as GS1 data", written(line)))
        except gs1.Faulty as why:
            expect(f"{text} is wrong ({why})", is_green, False)
    expect("some are right and some wrong", 150 <= accepted < 350, True)


PARTS = [misjoined, as_the_library_says]
