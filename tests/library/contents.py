"""What the tests know by themselves of what data codewords say: a head or none, items and marks, in each extent; in
which codewords that is written; and whether some codewords say it in a symbol of so many. Written from ISO/IEC 16022
and the rules of docs/DECISIONS.md, and not from the library."""
import functools
from collections import namedtuple

from tests import corpus
from tests.library.model import (FNC1, LATCH_BASE_256, PAD, SIZES, SQUARE, UPPER_SHIFT, ascii_words, base_256_words,
                                 codewords, modules_of, padded)

WIDE, USUAL = 0, 1
APPEND, PROGRAMMING, EDIFACT, ECI, UNLATCH = 233, 234, 240, 241, 254
C40, X12, TEXT = 230, 238, 239
SETS = (C40, X12, TEXT)
MACROS = {236: b"[)>\x1e05\x1d", 237: b"[)>\x1e06\x1d"}
TRAILER = b"\x1e\x04"
# The parts of an alphabet of C40 or Text behind each shift; X12 has no shifts.
SHIFT_1 = list(range(32))
SHIFT_2 = [*range(33, 48), *range(58, 65), *range(91, 96), FNC1]
UPPER = 30  # behind Shift 2
EDIFACT_UNLATCH = 31
MOST_NUMBER = 999_999


class Content(namedtuple("Content", "items marks head", defaults=((), None))):
    """What a symbol says: items; marks, each its number and how many items stand before it; and a head, which is None,
    "programming", or a part, how many there are, and the two numbers of their file."""

    def tokens(self):
        """Items and marks in their order; a mark is a tuple."""
        made, marks = [], list(self.marks)
        for place, item in enumerate([*self.items, None]):
            while marks and marks[0][1] == place:
                made.append((marks.pop(0)[0],))
            made.append(item)
        return made[:-1]


class Refusal(Exception):
    """Codewords that say nothing: a code, a value and a place."""


def basic(latch, value):
    """The byte of a value of a set that isn't a shift."""
    if latch == X12 and value < 3:
        return (13, 42, 62)[value]
    if value == 3:
        return 32
    return value + 44 if value < 14 else value - 14 + (97 if latch == TEXT else 65)


def shift_3(latch):
    return [96, *(range(65, 91) if latch == TEXT else range(97, 123)), *range(123, 128)]


@functools.cache
def spellings(latch):
    """For each item that a set can say its values."""
    found = {}
    for value in range(3 if latch != X12 else 0, 40):
        found[basic(latch, value)] = (value,)
    if latch != X12:
        for shift, items in enumerate((SHIFT_1, SHIFT_2, shift_3(latch))):
            for value, item in enumerate(items):
                found.setdefault(item, (shift, value))
        found.update({item + 128: (1, UPPER, *values) for item, values in list(found.items()) if item < 128})
    return found


class Reader:
    def __init__(self, words, extent):
        self.words, self.extent, self.at = list(words), extent, 0
        self.items, self.marks, self.head, self.single = [], [], None, set()
        self.designators = []

    @property
    def left(self):
        return len(self.words) - self.at

    def refuse(self, code, place, value=0):
        """`place` counts from 0."""
        raise Refusal(code, value, place + 1)

    def content(self):
        """The content, and the digit of the symbology identifier."""
        trailer = self.open() if self.extent == WIDE else b""
        while self.left and self.words[self.at] != PAD:
            self.part()
        self.items += trailer
        behind = {None: 0, "programming": 1}.get(self.head, 4)
        number = 2 if behind in self.single else 3 if behind + 1 in self.single else 1
        return Content(tuple(self.items), tuple(self.marks), self.head), number + 3 * bool(self.marks)

    def open(self):
        """A head, or a macro, behind empty runs or none, whose trailer it gives."""
        if self.words[:1] == [APPEND]:
            self.head, self.at = head_of(self.words[1:4]), 4
            if self.head is None:
                self.refuse(21, 0)
        elif self.words[:1] == [PROGRAMMING]:
            self.head, self.at = "programming", 1
        else:
            start = 0
            while start + 1 < len(self.words) and self.words[start] in SETS and self.words[start + 1] == UNLATCH:
                start += 2
            header = MACROS.get(self.words[start]) if start < len(self.words) else None
            if header:
                self.items += header
                self.at = start + 1
                return TRAILER
        return b""

    def part(self):
        """A unit of ASCII encodation, or a latch and what it begins."""
        place, word = self.at, self.words[self.at]
        self.at += 1
        if 1 <= word <= 128:
            self.items.append(word - 1)
        elif 130 <= word <= 229:
            self.items += f"{word - 130:02d}".encode()
        elif word == 232:
            self.items.append(FNC1)
            self.single.add(place)
        elif word == UPPER_SHIFT:
            self.upper_shift(place)
        elif word in SETS:
            self.run(word, place)
        elif word == LATCH_BASE_256:
            self.segment(place)
        elif word == EDIFACT and self.extent == WIDE:
            self.groups()
        elif word == ECI and self.extent == WIDE:
            number, count = number_of(self.words[self.at:])
            if number is None:
                self.refuse(20, place)
            self.marks.append((number, len(self.items)))
            self.designators.append((number, place))
            self.at += count
        else:
            self.refuse(*((7, place) if word == 0 or word > ECI else (8, place, word)))

    def upper_shift(self, place):
        if not self.left:
            self.refuse(13, place)
        if not 1 <= self.words[self.at] <= 128:
            self.refuse(9, place)
        self.items.append(self.words[self.at] + 127)
        self.at += 1

    def run(self, latch, place):
        """Pairs up to an unlatch, or until less than a pair is left, or up to a bad pair."""
        values, bad = [], None
        while self.left > 1 and self.words[self.at] != UNLATCH:
            number = 256 * self.words[self.at] + self.words[self.at + 1]
            if not 1 <= number <= 64000:
                bad = self.at
                break
            values += [(number - 1) // 1600, (number - 1) // 40 % 40, (number - 1) % 40]
            self.at += 2
        waiting = self.spell(latch, values, lambda at: place + 1 + 2 * (at // 3))
        if bad is not None:
            self.refuse(10, bad)
        if waiting is not None and self.extent == USUAL:
            self.refuse(13, waiting)
        if self.left and self.words[self.at] == UNLATCH:
            self.at += 1

    def spell(self, latch, values, place_of):
        """The items of values; gives the place of an Upper Shift that waits at their end."""
        shift, raised, raised_at = None, 0, None
        for at, value in enumerate(values):
            if latch == X12 or shift is None and value > 2:
                item = basic(latch, value)
            elif shift is None:
                shift = value
                continue
            else:
                behind, shift = (SHIFT_1, SHIFT_2, shift_3(latch))[shift], None
                is_second = behind is SHIFT_2
                if is_second and value == UPPER and raised:
                    self.refuse(9, raised_at)
                if is_second and value == UPPER:
                    raised, raised_at = 128, place_of(at)
                    continue
                if value >= len(behind):
                    self.refuse(11, place_of(at))
                item = behind[value]
                if item == FNC1 and raised:
                    self.refuse(9, raised_at)
            self.items.append(item if item == FNC1 else item + raised)
            raised = 0
        return raised_at if raised else None

    def segment(self, place):
        """Base 256."""
        plain = lambda at: (self.words[at] - 149 * (at + 1) % 255 - 1) % 256
        if not self.left:
            self.refuse(12, place)
        length, self.at = plain(self.at), self.at + 1
        if length == 0:
            length = self.left
        elif length > 249:
            if not self.left or plain(self.at) > 249:
                self.refuse(12, place)
            length, self.at = 250 * (length - 249) + plain(self.at), self.at + 1
        if length > self.left:
            self.refuse(12, place)
        self.items += [plain(at) for at in range(self.at, self.at + length)]
        self.at += length

    def groups(self):
        """EDIFACT: groups of three codewords, up to an unlatch, or until no more than two codewords are left."""
        while self.left > 2:
            bits = int.from_bytes(bytes(self.words[self.at:self.at + 3]), "big")
            for count, value in enumerate((bits >> 18, bits >> 12 & 63, bits >> 6 & 63, bits & 63), 1):
                if value == EDIFACT_UNLATCH:
                    self.at += min(count, 3)
                    return
                self.items.append(value if value > 31 else value + 64)
            self.at += 3


def said_by(words, extent=WIDE):
    """What data codewords say, and the digit of their symbology identifier; raises Refusal."""
    return Reader(words, extent).content()


def designators_of(words):
    """The numbers of the marks that data codewords say, each with how many codewords stand before its ECI; or none."""
    reader = Reader(words, WIDE)
    try:
        reader.content()
    except Refusal:
        return []
    return reader.designators


def head_of(words):
    """The part that three codewords behind 233 say, or None."""
    if len(words) < 3:
        return None
    part, parts = words[0] // 16 + 1, 17 - words[0] % 16
    return (part, parts, *words[1:]) if is_head((part, parts, *words[1:])) else None


def is_head(head):
    if head is None or head == "programming":
        return True
    part, parts, *file = head
    return 1 <= part <= parts and 2 <= parts <= 16 and all(1 <= number <= 254 for number in file)


def head_words(head):
    if head is None:
        return []
    return [PROGRAMMING] if head == "programming" else [APPEND, 16 * (head[0] - 1) + 17 - head[1], *head[2:]]


def designator(number):
    """The codewords behind 241."""
    if number < 127:
        return [number + 1]
    if number < 16383:
        return [128 + (number - 127) // 254, (number - 127) % 254 + 1]
    rest = number - 16383
    return [192 + rest // 64516, rest // 254 % 254 + 1, rest % 254 + 1]


def number_of(words):
    """The number whose designator stands in front, and of how many codewords that is; None where there is none."""
    count = 1 if not words or words[0] < 128 else 2 if words[0] < 192 else 3
    first, *others = [*words[:count], 0, 0, 0][:count]
    if not 1 <= first <= 207 or not all(1 <= word <= 254 for word in others):
        return None, 0
    number = first - 1
    if count == 2:
        number = (first - 128) * 254 + 127 + others[0] - 1
    if count == 3:
        number = (first - 192) * 64516 + 16383 + (others[0] - 1) * 254 + others[1] - 1
    return (number, count) if number <= MOST_NUMBER else (None, 0)


def content_of(said):
    """A content; items alone are one without head and marks."""
    return said if isinstance(said, Content) else Content(tuple(said))


def content_said(said):
    """The content that the corpus spells so."""
    items, marks, head = corpus.content_of(said)
    return Content(items, tuple((number, place) for place, number in marks), head)


def is_content(content):
    places = [0, *(place for _, place in content.marks), len(content.items)]
    return is_head(content.head) and places == sorted(places) and all(0 <= it <= MOST_NUMBER for it, _ in content.marks)


@functools.cache
def content_words(content, profile=0):
    """The normal form of a content, without pads."""
    words, before, items = head_words(content.head), 0, list(content.items)
    if words or content.marks:
        for number, place in content.marks:
            words += [*ascii_words(items[before:place]), ECI, *designator(number)]
            before = place
        return words + ascii_words(items[before:])
    words = ascii_words(items)
    if profile == 1 and FNC1 not in items and len(items) < 1556:
        segment = base_256_words(items)
        return segment if len(segment) < len(words) else words
    return words


# ---- The smallest symbol, by a search over all codewords that can say something
class Sayings:
    """Where codewords that say a content may come to, in a symbol of so many: every way, at no cost."""

    def __init__(self, content, count, extent):
        self.tokens, self.count, self.extent = content.tokens(), count, extent
        self.seen = set()

    def from_part(self, at, said):
        """Whether the codewords from a place on, where a part may begin, can say the tokens from one on."""
        todo = [(at, said)]
        while todo:
            at, said = todo.pop()
            if at > self.count or (at, said) in self.seen:
                continue
            self.seen.add((at, said))
            if said == len(self.tokens):
                return True
            todo += self.units(at, said)
            for latch in SETS:
                todo += self.runs(latch, at + 1, said)
            if self.extent == WIDE:
                todo += self.edifact_runs(at + 1, said)
            todo += self.segments(at + 1, said)
        return False

    def units(self, at, said):
        token, more = self.tokens[said], self.tokens[said + 1:said + 2]
        if isinstance(token, tuple):
            yield at + 1 + len(designator(token[0])), said + 1
            return
        yield at + (2 if 128 <= token < FNC1 else 1), said + 1
        if is_digit(token) and more and is_digit(more[0]):
            yield at + 1, said + 2

    def runs(self, latch, at, said):
        """Where a run may end that has some of the next items, with each filling."""
        values, known = 0, spellings(latch)
        while True:
            for filler in (0,) if latch == X12 else (0, 1) if self.extent == USUAL else (0, 1, 2, 3):
                end = at + 2 * ((values + filler) // 3)
                if (values + filler) % 3 == 0 and end <= self.count:
                    yield end + 1, said
                    if self.count - end <= 1:
                        yield end, said
            if said == len(self.tokens) or isinstance(self.tokens[said], tuple) or self.tokens[said] not in known:
                return
            values, said = values + len(known[self.tokens[said]]), said + 1

    def edifact_runs(self, at, said):
        """The same in EDIFACT: whole groups, and then none to three values before an unlatch."""
        while at <= self.count:
            if self.count - at <= 2:
                yield at, said
                return
            for values in range(4):
                if not all(is_edifact(token) for token in self.tokens[said:said + values]):
                    return
                if said + values <= len(self.tokens):
                    yield at + min(values + 1, 3), said + values
            if said + 4 > len(self.tokens) or not is_edifact(self.tokens[said + 3]):
                return
            at, said = at + 3, said + 4

    def segments(self, at, said):
        """Behind Base 256, with the length written out, or 0 where it goes to the end of the symbol."""
        length = 0
        while True:
            if length and length <= 249 or at + 1 + length == self.count:
                yield at + 1 + length, said
            if length >= 250:
                yield at + 2 + length, said
            if said == len(self.tokens) or isinstance(self.tokens[said], tuple) or self.tokens[said] == FNC1:
                return
            length, said = length + 1, said + 1


def is_digit(token):
    return not isinstance(token, tuple) and 48 <= token <= 57


def is_edifact(token):
    return not isinstance(token, tuple) and 32 <= token <= 94


@functools.lru_cache(maxsize=10_000)
def can_say(content, count, extent):
    """Whether some list of so many data codewords says a content in an extent."""
    front = len(head_words(content.head))
    if extent == USUAL and (front or content.marks):
        return False
    if Sayings(content, count, extent).from_part(front, 0):
        return True
    inner = inside_macro(content) if extent == WIDE and not front else None
    return inner is not None and Sayings(inner, count, extent).from_part(1, 0)


def inside_macro(content):
    """What a macro has to say so that a content is said, or None; none before FNC1, which would be a sign there."""
    items = list(content.items)
    for header in MACROS.values():
        inner = items[len(header):-len(TRAILER)]
        places = [place - len(header) for _, place in content.marks]
        if (items == [*header, *inner, *TRAILER] and inner[:1] != [FNC1]
                and all(0 <= place <= len(inner) for place in places)):
            return Content(tuple(inner), tuple((number, place) for (number, _), place in zip(content.marks, places)))
    return None


def smallest(content, extent, choice, named=(0, 0)):
    """The smallest size of a choice in which some codewords say a content in an extent; None if there is none."""
    return next((size for size in SIZES if size.is_of(choice, named) and can_say(content, size.data, extent)), None)


# ---- Symbols
def symbol_of(said, profile=0, shape=SQUARE, named=(0, 0)):
    """The size and modules of the smallest symbol of a shape, or of a named one, with a content; or None."""
    words = content_words(content_of(said), profile)
    for size in SIZES:
        if size.is_of(shape, named) and len(words) <= size.data:
            return size, modules_of(size, codewords(size, padded(words, size.data)))
    return None


def dealt_anew(size, words):
    """The codewords of a symbol in the other dealing of 144 x 144: check codewords from the first block on."""
    first = size.data % size.blocks
    checks = words[size.data:]
    moved = [0] * len(checks)
    for i, word in enumerate(checks):
        moved[i - i % size.blocks + (i % size.blocks + first) % size.blocks] = word
    return [*words[:size.data], *moved]
