"""Answers the requests of cases.py by the functions of the Python module."""
from tests.library.cases import heading, marking, no, numbers
from tests.library.model import DIGITS, ONE, SIZE_OF


def bytes_of(text):
    return bytes.fromhex(text.strip("-"))


def items_of(text):
    return [] if text == "-" else list(map(int, text.split(",")))


def marks_of(text):
    """Marks as `write` takes them, the place first."""
    return [tuple(map(int, mark.split("@")))[::-1] for mark in text.split(",") if mark != "-"]


def head_of(text):
    """A head as `write` takes it, or a TypeError where it takes none that is so."""
    kind, *others = map(int, text.split(":"))
    known = {0: None, 2: "programming"}
    if kind == 1 or any(others) or kind not in known:
        return tuple(others) if kind == 1 else NOT_SAID
    return known[kind]


NOT_SAID = object()


def limit_of(text):
    """A border limit as the module takes it; any number is said by one that is larger than all."""
    kind, number = map(int, text.split(":"))
    return {0: None, 1: "auto", 2: 10 ** 6, 3: number}.get(kind, NOT_SAID)


def said(got):
    head = got.head if isinstance(got.head, str) or got.head is None else (1, *got.head)
    return (f"items {numbers(got.items)} marks {marking((number, place) for place, number in got.marks)} "
            f"head {heading(head)}")


def symbol(rows):
    modules = b"".join(rows).translate(DIGITS).decode("latin-1")
    return f"rows {len(rows)} columns {len(rows[0])} modules {modules}"


def counts_of(rows, columns, got):
    """What an answer of reading and one of inspecting have in common."""
    corrected = ["beyond" if count is None else count for count in got.corrected]
    counts = f"corrected {numbers(corrected)} erased {numbers(got.erased)} left {numbers(got.left)}"
    return f"rows {rows} columns {columns} border {got.border_faults} blocks {len(corrected)} {counts}"


def chosen(shape, rows, columns):
    """A shape or a size, as `write` takes them."""
    return {"size": (int(rows), int(columns))} if int(shape) == ONE else {"shape": int(shape)}


class Answers:
    def __init__(self, ecc200):
        self.ecc200 = ecc200

    def to(self, request):
        """The answer to a request, or None if it can't be put to the module."""
        name, *words = request.split()
        if name in ("read", "inspect", "normal") and not self.is_grid(*words[-4:-1]):
            return None
        if name in ("read", "normal") and limit_of(words[-5]) is NOT_SAID:
            return None
        if name in ("write", "write_bytes") and (not self.is_choice(*words[1:4]) or head_of(words[5]) is NOT_SAID):
            return None
        try:
            return getattr(self, f"to_{name}")(*words)
        except self.ecc200.Refused as why:
            return no(why.code.value, why.value, why.place)

    @staticmethod
    def is_grid(rows, columns, modules):
        """Whether rows say these numbers of rows and columns by themselves."""
        return int(rows) * int(columns) == len(modules.strip("-")) // 2 and (int(rows) > 0 or int(columns) == 0)

    @staticmethod
    def is_choice(shape, rows, columns):
        """Whether a size that is named exists: the module refuses others before the library could."""
        return int(shape) != ONE or (int(rows), int(columns)) in SIZE_OF

    @staticmethod
    def grid(rows, columns, modules, doubt):
        """A grid, and its doubtful modules, flat, if there are some."""
        wide, given = int(columns), bytes_of(modules)
        return ([given[at * wide:(at + 1) * wide] for at in range(int(rows))],
                {} if doubt == "-" else {"doubtful": bytes_of(doubt)})

    def to_read(self, extent, limit, *given):
        grid, doubt = self.grid(*given)
        got = self.ecc200.read(grid, limit_of(limit), int(extent), **doubt)
        number = {f"]d{digit}": digit for digit in range(1, 7)}[got.symbology]
        return f"{counts_of(got.rows, got.columns, got)} {said(got)} identifier {number} dealing {got.dealing}"

    def to_normal(self, extent, profile, limit, *given):
        grid, doubt = self.grid(*given)
        return symbol(self.ecc200.normal(grid, limit_of(limit), int(profile), int(extent), **doubt))

    def to_write(self, form, shape, rows, columns, extent, head, marks, items):
        return symbol(self.ecc200.write(items_of(items), form=int(form), extent=int(extent), head=head_of(head),
                                        marks=marks_of(marks), **chosen(shape, rows, columns)))

    def to_write_bytes(self, form, shape, rows, columns, extent, head, data):
        return symbol(self.ecc200.write(bytes_of(data), form=int(form), extent=int(extent), head=head_of(head),
                                        **chosen(shape, rows, columns)))

    def to_smallest(self, extent, shape, rows, columns, head, marks, items):
        made = self.ecc200.write(items_of(items), form=self.ecc200.Form.SMALLEST, extent=int(extent),
                                 head=head_of(head), marks=marks_of(marks), **chosen(shape, rows, columns))
        got = self.ecc200.read(made, 0, int(extent))
        is_usual = isinstance(self.ecc200.read_many([made], 0, self.ecc200.Extent.USUAL)[0], self.ecc200.Reading)
        return f"rows {got.rows} columns {got.columns} usual {int(is_usual)} {said(got)}"

    def to_inspect(self, *given):
        grid, doubt = self.grid(*given)
        got = self.ecc200.inspect(grid, **doubt)
        marks = marking((number, place) for place, number in got.designators)
        return f"{counts_of(*given[:2], got)} held {numbers(got.held)} mended {numbers(got.mended)} designators {marks}"

    def to_places(self, rows, columns):
        table = self.ecc200.places(int(rows), int(columns))
        each = " ".join(f"{int(at.kind)},{at.codeword},{at.bit}" for row in table for at in row)
        return f"rows {len(table)} columns {len(table[0])} {each}"

    def to_sizes(self):
        return " | ".join(" ".join(map(str, size)) for size in self.ecc200.sizes())

    def to_limit(self, rows, columns):
        return str(self.ecc200.usual_limit(int(rows), int(columns)))

    def to_compatible(self):
        return str(int(self.ecc200._library.ecc200_abi() == self.ecc200.ABI))

    def to_words(self, code):
        """The words before the numbers of an exception; there are none for what isn't a code of a fault."""
        try:
            why = self.ecc200.Refused(int(code), 23, 42)
        except ValueError:
            return "no fault" if code == "0" else "not a code of this library"
        said, told = str(why).rsplit(" (", 1)
        is_told = told == f"{why.code.name}, value 23, place 42)" and (why.value, why.place) == (23, 42)
        return said if is_told else str(why)
