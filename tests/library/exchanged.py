"""Makes wrong callers from library/ecc200.h: headers with a number one more or one less, or with two names side by side
exchanged, of numbers, words or members of a struct. Each is written into the callers by tools/callers."""
import itertools
import re

from tests.bugs import Bug
from tests.support import header, places

HEADER = "ecc200.h"


def exchanged(text, before, pair, after):
    """Exchanges two names wherever they stand between these."""
    other = dict([pair, pair[::-1]])
    return re.sub(rf"(?<={before})({'|'.join(pair)})(?={after})", lambda found: other[found[0]], text)


def with_members_exchanged(text, struct, pair):
    """Exchanges two members of a struct, in it and where their places are asserted."""
    declared = re.search(rf"^typedef struct ecc200_{struct} \{{.*?^\}}", text, re.M | re.S)
    text = text.replace(declared[0], exchanged(declared[0], " ", pair, r"[;\[]"))
    return exchanged(text, rf"\(ecc200_{struct}, ", pair, r"\)")


def wrong_headers(text, interface):
    for step in (-1, 1):
        yield f"ABI is {interface.abi + step}", re.sub(r"(?<=define ECC200_ABI )\d+", str(interface.abi + step), text)
        for name, value in interface.constants.items():
            yield f"{name} is {value + step}", re.sub(rf"(?<=ECC200_{name} = )\d+", str(value + step), text)
    for names in (interface.extents, {**interface.profiles, **interface.forms}, interface.shapes, interface.codes,
                  interface.head_kinds, interface.kinds):
        for pair in itertools.pairwise(names):
            yield f"{pair[0]} and {pair[1]} are exchanged", exchanged(text, "ECC200_", pair, " = ")
    for pair in itertools.pairwise(interface.words):
        yield f"the words of {pair[0]} and {pair[1]} are exchanged", exchanged(text, "case ECC200_", pair, ":")
    for name, struct in interface.structs.items():
        for one, other in itertools.pairwise(struct.members):
            if (one.type, one.many) == (other.type, other.many):
                pair = one.name, other.name
                yield f"{one.name} and {other.name} of {name} are exchanged", with_members_exchanged(text, name, pair)


def wrong_callers():
    tool, text = header.callers(), places.text_of("library", HEADER)
    for name, wrong in wrong_headers(text, header.interface()):
        yield Bug(name, HEADER, [(text, wrong)])
        for path, regions in zip(tool.FILES, (tool.python, tool.rust)):
            own = places.text_of(path)
            spoilt = tool.written(own, regions(tool.interface_of(wrong)), path)
            if spoilt != own:
                yield Bug(name, path.removeprefix("library/"), [(own, spoilt)])
