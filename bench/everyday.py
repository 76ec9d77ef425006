"""Messages as labels, tickets and parts carry them, made from a fixed seed: the same on every machine."""
import random
import string

WORDS = ("axle bearing bolt bracket cable clamp clip cover disc filter flange fuse gasket gear hinge housing lever nut "
         "pin plate pump ring rod rotor screw seal shaft sleeve spring switch tube valve washer wheel").split()
NAMES = "Abel Bauer Clark Dupont Eriksen Fischer García Hansen Ito Jansen Lindström Müller Nowak Özil".split()
STREETS = "Bahnhofstraße,High Street,Rue de l'Église,Via Roma,Calle Mayor,Stationsweg,Østergade".split(",")
TOWNS = "Köln,London,Orléans,Torino,Cádiz,Utrecht,Århus,Graz,Zürich".split(",")


def some(chance, letters, least, most=None):
    return "".join(chance.choice(letters) for _ in range(chance.randint(least, most or least)))


def digits(chance, least, most=None):
    return some(chance, string.digits, least, most)


def capitals(chance, least, most=None):
    return some(chance, string.ascii_uppercase, least, most)


CAPITALS_AND_DIGITS = string.ascii_uppercase + string.digits


def word(chance):
    return chance.choice(WORDS)


def words(chance, least, most):
    return " ".join(word(chance) for _ in range(chance.randint(least, most)))


def gs1(chance):
    """GS1 element strings: a number, a date, a batch, a serial number, with GS between them where it is needed."""
    batch = some(chance, CAPITALS_AND_DIGITS, 4, 12)
    return f"01{digits(chance, 14)}17{digits(chance, 6)}10{batch}\x1d21{digits(chance, 6, 14)}"


def person(chance):
    name = chance.choice(NAMES)
    return f"BEGIN:VCARD\nVERSION:3.0\nN:{name};{capitals(chance, 1)}.\nTEL:+{digits(chance, 9, 12)}\nEND:VCARD"


def address(chance):
    street = f"{chance.choice(STREETS)} {chance.randint(1, 240)}"
    return f"{chance.choice(NAMES)}\n{street}\n{digits(chance, 5)} {chance.choice(TOWNS)}"


def shipment(chance):
    """A label of ISO/IEC 15434 with data identifiers of ISO/IEC 15418."""
    fields = [f"P{capitals(chance, 2)}{digits(chance, 6)}", f"Q{digits(chance, 1, 5)}", f"1T{digits(chance, 8)}",
              f"S{some(chance, CAPITALS_AND_DIGITS, 6, 12)}"]
    return f"[)>\x1e06\x1d{chr(29).join(fields[:chance.randint(1, 4)])}\x1e\x04"


def link(chance):
    path = some(chance, string.ascii_letters + string.digits, 4, 11)
    return f"https://www.{word(chance)}{word(chance)}.com/{path}"


def part_number(chance):
    return f"{capitals(chance, 2, 4)}-{digits(chance, 3, 6)}-{capitals(chance, 1)}{digits(chance, 2)}"


def moment(chance):
    day, time = chance.randint(1, 28), f"{chance.randint(0, 23):02d}:{chance.randint(0, 59):02d}"
    return f"2026-{chance.randint(1, 12):02d}-{day:02d}T{time}:00Z;{digits(chance, 5)}"


def ticket(chance):
    seat = f"{capitals(chance, 1)}{digits(chance, 2)}"
    return f"{capitals(chance, 3)}>{capitals(chance, 3)} {digits(chance, 4)} {seat} *{digits(chance, 13)}*"


def record(chance):
    return f'{{"id":{digits(chance, 4, 9)},"part":"{word(chance)}","n":{chance.randint(1, 99)}}}'


def measures(chance):
    return ";".join(f"{digits(chance, 1, 3)}.{digits(chance, 2)}" for _ in range(chance.randint(2, 12)))


def price(chance):
    return f"{word(chance).capitalize()} {digits(chance, 1, 3)},{digits(chance, 2)} £ {digits(chance, 13)}"


KINDS = {
    "serial number": lambda chance: some(chance, CAPITALS_AND_DIGITS, 8, 16),
    "digits": lambda chance: digits(chance, 4, 40),
    "part number": part_number,
    "text": lambda chance: f"{words(chance, 2, 12).capitalize()}.",
    "capitals": lambda chance: words(chance, 1, 8).upper(),
    "link": link,
    "mail": lambda chance: f"{word(chance)}.{word(chance)}@{word(chance)}.org",
    "GS1": gs1,
    "shipment": shipment,
    "address": address,
    "person": person,
    "date and time": moment,
    "hexadecimal": lambda chance: some(chance, "0123456789abcdef", 8, 40),
    "ticket": ticket,
    "JSON": record,
    "measures": measures,
    "price": price,
    "UUID": lambda chance: "-".join(some(chance, "0123456789ABCDEF", count) for count in (8, 4, 4, 4, 12)),
    "bytes": lambda chance: "".join(chr(chance.randrange(1, 256)) for _ in range(chance.randint(4, 40))),
    "long text": lambda chance: words(chance, 20, 60),
}


def messages(count):
    """So many of them, of each kind about as many, as bytes of ISO/IEC 8859-1, each with its kind."""
    chance = random.Random(500)
    made = []
    while len(made) < count:
        made += [(name, kind(chance).encode("iso-8859-1")) for name, kind in KINDS.items()]
    return made[:count]
