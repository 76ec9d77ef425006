"""Requests about the smallest symbol, each with its size, whether the usual extent reads it, and what it says: by the
search of contents.py, which knows no costs, or, for long ones of one kind, by a count that it confirms."""
import itertools
import os

from tests.library.cases import SMALLEST, USUAL, WIDE, heading, marking, no, numbers, saying, symbol, write
from tests.library.contents import Content, can_say, content_of, content_words, smallest
from tests.library.model import ANY, EXTENDED, FNC1, ONE, RECTANGLE, SIZES, SQUARE

# A digit, a capital, a small letter, a byte above 127, one of X12 alone, FNC1, and such as several have.
KINDS = (49, 65, 97, 200, 13, FNC1, 95, 32, 64)
MACRO, TRAILER = b"[)>\x1e05\x1d", b"\x1e\x04"


def asked(said, extent, shape, named=(0, 0)):
    """What is asked about the smallest symbol."""
    said = content_of(said)
    return (f"smallest {extent} {shape} {named[0]} {named[1]} {heading(said.head)} {marking(said.marks)} "
            f"{numbers(said.items)}")


def answer(said, size, is_usual):
    """Its size, whether the usual extent reads it, and what it says."""
    return no(14) if size is None else f"rows {size.rows} columns {size.columns} usual {int(is_usual)} {saying(said)}"


def searched(said, extent, shape, named=(0, 0)):
    """The answer by a search; and where ASCII encodation is enough in this size, the symbol itself."""
    said = content_of(said)
    size = smallest(said, extent, shape, named)
    yield asked(said, extent, shape, named), answer(said, size, size and can_say(said, size.data, USUAL))
    if size is None:
        yield write(said, SMALLEST, shape, named, extent), no(14)
    elif len(content_words(said)) <= size.data:
        yield write(said, SMALLEST, shape, named, extent), symbol(said, 0, shape, named)


def short(step=1):
    """All messages of up to four items over the nine kinds, or each one of so many."""
    every = itertools.chain.from_iterable(itertools.product(KINDS, repeat=count) for count in range(5))
    for items in itertools.islice(every, 0, None, step):
        for extent, shape in itertools.product((USUAL, WIDE), (SQUARE, ANY)):
            yield from searched(items, extent, shape)


def with_marks(step=1):
    """Messages of up to three items with a mark at each place, or a head, or each one of so many; and macros."""
    every = itertools.chain.from_iterable(itertools.product(KINDS, repeat=count) for count in range(4))
    for items in itertools.islice(every, 0, None, step):
        for place in range(len(items) + 1):
            for extent, shape in ((USUAL, ANY), (WIDE, ANY), (WIDE, SQUARE)):
                yield from searched(Content(items, ((26, place),)), extent, shape)
            yield from searched(Content((*MACRO, *items, *TRAILER), ((16383, 7 + place),)), WIDE, EXTENDED)
        for head, extent in itertools.product(("programming", (2, 5, 1, 2)), (USUAL, WIDE)):
            yield from searched(Content(items, (), head), extent, RECTANGLE)
        yield from searched(Content((*MACRO, *items, *TRAILER), (), "programming"), WIDE, ANY)
        yield from searched((*MACRO, *items, *TRAILER), WIDE, ANY)
    for place, items in itertools.product(range(0, 13, 2), (b"ABCDEFGHIJKL", b"123456789012", b"-./-./-./-./",
                                                            b"\xff\xfe\xfd" * 4)):
        yield from searched(Content(tuple(items), ((26, place),)), WIDE, ANY)
        yield from searched(Content(tuple(items), ((3, 0), (26, place), (26, 12))), WIDE, SQUARE)


# Of each encodation, characters for which no other is shorter, and how many codewords they take in each extent.
LONG = {
    "digits": (b"0123456789", lambda n: (n + 1) // 2),
    "C40": (b"ABCDEFGHIJKLM", lambda n: min(n, 1 + 2 * (n // 3) + n % 3)),
    "Text": (b"abcdefghijklm", lambda n: min(n, 1 + 2 * (n // 3) + n % 3)),
    "X12": (b"A>B*\rC", lambda n: min(n, 1 + 2 * (n // 3) + n % 3)),
    "EDIFACT": (b"-./!\"#&'", lambda n: min(n, 1 + 3 * (n // 4) + n % 4)),
    "Base 256": (b"\x80\xff\xe4\xf6", lambda n: min(2 * n, 2 + n)),
}


def message(name, count):
    """So many of the characters of an encodation."""
    letters = LONG[name][0]
    return bytes(letters[k % len(letters)] for k in range(count))


def least(name, count, extent):
    """How many codewords they take at least. The usual extent has ASCII in place of EDIFACT."""
    return count if name == "EDIFACT" and extent == USUAL else LONG[name][1](count)


def counts_are_right():
    """Whether the search says the same of short ones: what doesn't is yielded."""
    for name, extent, count in itertools.product(LONG, (USUAL, WIDE), range(1, 27)):
        told, content = least(name, count, extent), content_of(message(name, count))
        if [can_say(content, told + more, extent) for more in (-1, 0, 1, 2)] != [False, True, True, True]:
            yield f"{count} of {name} in extent {extent}"


def long():
    """For each size and encodation the longest messages that end in its last places, and the first one that doesn't
    fit; in the size itself, and in the smallest of all and of the squares."""
    for size, name, extent in itertools.product(SIZES, LONG, (USUAL, WIDE)):
        longest = {least(name, count, extent): count for count in range(1, 2 * size.data + 4)}
        for end in range(size.data - 3, size.data + 2):
            count = longest.get(end)
            if count is None:
                continue
            items, usual = message(name, count), least(name, count, USUAL)
            fits = size if end <= size.data else None
            yield asked(items, extent, ONE, size.named), answer(items, fits, usual <= size.data)
            shape = (ANY, SQUARE)[end % 2]
            best = next((it for it in SIZES if it.is_of(shape, None) and end <= it.data), None)
            yield asked(items, extent, shape), answer(items, best, best and usual <= best.data)


# Each so many of the short ones; all where EVERY_MESSAGE is set, which takes minutes:
# EVERY_MESSAGE=1 python3 -m tests library.test_systems.Here.test_c
SAMPLED, SAMPLED_WITH_MARKS = (1, 1) if os.environ.get("EVERY_MESSAGE") else (23, 41)


def sample():
    yield from short(SAMPLED)
    yield from with_marks(SAMPLED_WITH_MARKS)


ALL = (sample, long)
