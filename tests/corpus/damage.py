"""Makes the marks `damaged`, by the model of tests/library, which doesn't stand on the library; `python3 -m
tests.corpus.damage` prints them. Each size is damaged as much as can be corrected, and by one codeword or one border
module more, where nothing is known of the damage and where it is."""
from tests.library.cases import border_of, doubt_of, grid_of, hurt, words_of
from tests.library.model import SIZES


def filled(size):
    """A symbol of a size without a pad, and what it says: letters."""
    said = "".join(chr(65 + place % 26) for place in range(size.data))
    return grid_of(size.named, *(ord(letter) + 1 for letter in said)), said


def damaged(grid, counts, border):
    """A symbol with so many codewords of each block changed, and so many border modules turned over."""
    for block, count in enumerate(counts):
        grid = hurt(grid, block, count)
    return grid.changed(border_of(grid.named)[:border])


def erased(grid, counts):
    """The doubtful modules that tell so many codewords of each block."""
    return doubt_of(grid, [word for block, count in enumerate(counts) for word in words_of(grid.size, block, count)])


def cases_of(size):
    """Of each way to damage a size: its name, how many codewords are wrong in each block, and how many of these are
    doubtful, how many border modules are wrong, and how it is refused, if it is."""
    last, usual = size.blocks - 1, (size.rows + size.columns) // 8
    checks, none = size.checks_of_a_block, [0] * size.blocks
    one_more = lambda count: [count] * last + [count + 1]
    known = [checks - 2] * last + [checks]
    wrong = [checks - 1] * last + [checks]
    yield "at-limit", [size.limit] * size.blocks, none, usual, None
    yield "past-limit", one_more(size.limit), none, 0, f"\\no 6 block {last}"
    yield "border", none, none, usual + 1, f"\\no 5 border {usual + 1}"
    yield "doubtful", wrong, known, 0, None
    yield "too-doubtful", one_more(checks), one_more(checks), 0, f"\\no 6 block {last}"


def line_of(size, name, wrong, known, border, refused):
    whole, said = filled(size)
    grid = damaged(whole, wrong, border)
    doubt = erased(whole, known)
    digits = lambda bits: f"{int(''.join(map(str, bits)), 2):0{len(bits) // 4}x}"
    found = border, *(count - told for count, told in zip(wrong, known)), *known
    counts = [] if refused else [f"found={' '.join(map(str, found))}"]
    return "\t".join([f"{size.rows}x{size.columns}-{name}", f"{size.rows}x{size.columns}", digits(grid),
                      digits(doubt) if any(known) else "-", refused or said, "model", *counts])


def lines():
    return [line_of(size, *case) for size in SIZES for case in cases_of(size)]


if __name__ == "__main__":
    print(*lines(), sep="\n")
