"""What the program answers, what it says on standard error, and with which status it ends: what no contract mentions.
The program that `make build` or tests/proofs left is run, and nothing is proved here."""
import itertools

from tests.program.samples import GRID_123456, GRID_A, NO_BOTTOM_ROW, ONE_WRONG, TABLE, TWO, USAGE, ran
from tests.support import commands, needs, places
from tests.support.case import Case

# Rows of these tables: name, words after the program's, standard input, status, standard output.
READ = [
    ("two records", "read", TWO, 0, b"123456\nA\n"), ("no input", "read", b"", 0, b""),
    ("a record without its last LF", "read", GRID_123456[:-1], 0, b"123456\n"),
    ("another record without it", "read", GRID_A[:-1], 0, b"A\n"),
    *((f"empty lines around records, for {words}", words, b"\n\n\n" + TWO + b"\n\n", 0, output) for words, output in (
        ("read", b"123456\nA\n"), ("check", b"ok 10 border 0 corrected 0\n" * 2),
        ("normal", GRID_123456 + b"\n" + GRID_A + b"\n"))),
]
BORDERS = [
    *((f"a wrong bottom row by {words}", words, NO_BOTTOM_ROW, 1, b"\\no 5 border 10\n")
      for words in ("read", "read --border 2", "check", "check --border 2")),
    *((f"the same row by {words}", words, NO_BOTTOM_ROW, 0, b"123456\n") for words in (
        "read --border 10", "read --border 256", "read --border 65535", "read --border=0000000000065535")),
    *((f"the same row by {words}", words, NO_BOTTOM_ROW, 0, b"ok 10 border 10 corrected 0\n")
      for words in ("check --border 10", "check --border=10")),
    ("one module more than the limit", "check --border 10", b"0" + NO_BOTTOM_ROW[1:], 1, b"\\no 5 border 11\n"),
    ("a check by the usual limit", "check", ONE_WRONG, 0, b"ok 10 border 1 corrected 0\n"),
    ("the largest limit", "check --border 65535", TWO, 0, b"ok 10 border 0 corrected 0\n" * 2),
    ("one wrong module by the usual limit", "read", ONE_WRONG, 0, b"123456\n"),
    ("a limit and the end of options", "read --border 1 --", ONE_WRONG, 0, b"123456\n"),
]
NORMAL = [
    ("normal grids", "normal", TWO, 0, GRID_123456 + b"\n" + GRID_A + b"\n"),
    *((f"a wrong bottom row by {words}", words, NO_BOTTOM_ROW, 1, b"\\no 5 border 10\n\n")
      for words in ("normal", "normal --border 2")),
    ("a normal grid of one that is accepted", "normal --border 10", NO_BOTTOM_ROW, 0, GRID_123456 + b"\n"),
    ("normal grids, shortest in ASCII", "normal --border 1 --shorter", TWO, 0, GRID_123456 + b"\n" + GRID_A + b"\n"),
    ("a normal grid of one wrong module by the usual limit", "normal", ONE_WRONG, 0, GRID_123456 + b"\n"),
    ("a normal grid of one wrong module and the limit 0", "normal --border 0", ONE_WRONG, 1, b"\\no 5 border 1\n\n"),
    ("all options and the end of options", "normal --border 1 --shorter --", ONE_WRONG, 0, GRID_123456 + b"\n"),
]
WRITTEN = [
    ("a line", "write", b"123456\n", 0, GRID_123456 + b"\n"), ("a line without LF", "write", b"A", 0, GRID_A + b"\n"),
    ("a refused line and another", "write", b"\\q\nA\n", 1, b"\\no 15 escape 1\n\n" + GRID_A + b"\n"),
    *((f"another spelling, {line}", "write", line, 0, GRID_A + b"\n") for line in (b"\\x41\n", b"\\x41")),
    *((f"the line {line}", "write", line, 1, b"\\no 15 escape %d\n\n" % column) for line, column in (
        (b"\\q\n", 1), (b"\\q", 1), (b"ab\\x4\n", 3), (b"ab\\x4", 3), (b"\\x41\\q\n", 5), (b"\\x41\\q", 5),
        (b"A\tB\n", 2), (b"A\tB", 2))),
]
# Records that are no grids, and how they are refused.
NO_GRIDS = [(b"10x", b"1 character"), (b"10\n1", b"3 shape"), (b"1010\n0101\n1010\n0101", b"4 side 4"),
            (b"0" * 105, b"2 large"), (b"0" * 53, b"3 shape"),
            *(((b"0" * side + b"\n") * side, b"4 side %d" % side) for side in (11, 53))]
# Words for which the program has no use, as a text or, if one is empty, has a blank or is no text, one by one.
WRONG_WORDS = [
    "", "scribble", "raed", "Read", "wri", "help", "help read", "--help", "-h", "--version", "read --help", "write -h",
    "write read", "write write", "write x", "read 10", "-- write", "-- read", "--border 1 read", "write --border 1",
    "table --border 1", "read --border", "read --border=", "read --border 65536", "read --border 18446744073709551616",
    "read --border -0", "read --border=-1", "read --border=-", "read --border=+", "read --border=-+1",
    "read --border 0x10", "read --border ten", "read --border 1 --border 2", "read --bord 1", "read -b 1",
    "read --border 1 2", "read --border 1 2 3", "read --border 1" + " read" * 60, "read --shorter", "check --shorter",
    "check --border 2 --shorter", "table --shorter", "--shorter write", "write --shorter --shorter",
    "write --shorter=true", "normal --shorter 2", "write --short", "normal -s", "normal --border 1 --shorter 1",
    "normal --border 1 --shorter 1 2", "normal --border 1 --shorter -- 1", [""], ["read", ""],
    ["read", "--border", ""], ["read", "--border", "1 "], ["read", "--border", "1", ""], [b"\xff"], ["read", b"\xff"]]


def wrong(grid, count):
    """Gives the grid with so many modules of its top row turned over."""
    return bytes(it ^ 1 for it in grid[:count]) + grid[count:]


@needs.program
class Answers(Case):
    def test_each_answer(self):
        for name, words, given, status, output in (*READ, *BORDERS, *NORMAL, *WRITTEN):
            self.row(name, ran(words.split(), given), (status, output, b""))

    def test_records_are_refused_and_the_next_is_read(self):
        of_two = {"read": b"123456\nA\n", "check": b"ok 10 border 0 corrected 0\n" * 2,
                  "normal": GRID_123456 + b"\n" + GRID_A + b"\n"}
        for (record, why), (word, said) in itertools.product(NO_GRIDS, of_two.items()):
            told = b"\\no %s\n" % why + b"\n" * (word == "normal")
            self.row(f"{record[:60]}, {word}", ran([word], record + b"\n"), (1, told, b""))
            self.row(f"{record[:60]}, {word}, and the next", ran([word], record + b"\n\n" + TWO), (1, told + said, b""))

    def test_lines_are_read_back(self):
        grids = ran(["write"], b"\\\\\n\\F\n\\x7e\n\\F01\n0\\F1\n123\n\\xff\n\n123456\nA").output
        lines = b"\\\\\n\\F\n~\n\\F01\n0\\F1\n123\n\\xFF\n\n123456\nA\n"
        self.row("lines that are written", ran(["read"], grids), (0, lines, b""))

    def test_the_table_of_sizes(self):
        self.rows([("the table", ran(["table"], b"1\n"), (0, TABLE, b""))])

    def test_wrong_words_are_answered_by_the_usage(self):
        for words in WRONG_WORDS:
            self.row(str(words), ran(words.split() if isinstance(words, str) else words), (2, b"", USAGE))
        for name in ("dm_tool", ""):
            self.row(f"no word but the name {name!r}", commands.run([name], executable=places.PROGRAM), (2, b"", USAGE))
            self.row(f"the name {name!r}", commands.run([name, "table"], executable=places.PROGRAM), (0, TABLE, b""))


@needs.program
class DamagedBorders(Case):
    def test_limits_at_another_side_than_the_smallest(self):
        _, grid, _ = ran(["write"], b"7" * 60 + b"\n")
        rows = [bytearray(row) for row in grid.split(b"\n")]
        for row in (1, 3, 5):
            rows[row][0] = ord("0")
        three_wrong = b"\n".join(bytes(row) for row in rows)
        self.row("three wrong modules of side 22", (len(rows[0]), ran(["read", "--border", "2"], three_wrong)),
                 (22, (1, b"\\no 5 border 3\n", b"")))
        self.row("the same and the limit 3", ran(["read", "--border", "3"], three_wrong), (0, b"7" * 60 + b"\n", b""))

    def test_limits_in_each_form(self):
        for words, most in (("--border 0", 0), ("--border=-0", 0), ("--border +007", 7), ("--border=+007", 7)):
            at_most, beyond = (ran(["read", *words.split()], wrong(GRID_123456, it)) for it in (most, most + 1))
            self.row(words, at_most, (0, b"123456\n", b""))
            self.row(f"{words}, one more", beyond, (1, b"\\no 5 border %d\n" % (most + 1), b""))

    def test_a_grid_is_normalised_with_a_limit_and_the_flag(self):
        (_, grid, _), (_, shorter, _) = (ran(words.split(), b"\\x80" * 3) for words in ("write --", "write --shorter"))
        self.row("the sides", (grid.index(b"\n"), shorter.index(b"\n")), (14, 12))
        for words, most in (("", 3), ("--border 1", 1), ("--border 2", 2), ("--border=2", 2)):
            words = ["normal", *words.split()]
            for each in ([*words, "--shorter"], [words[0], "--shorter", *words[1:]]):
                self.row(f"{each}", ran(each, wrong(grid, most)), (0, shorter, b""))
                self.row(f"{each}, one more", ran(each, wrong(grid, most + 1)),
                         (1, b"\\no 5 border %d\n\n" % (most + 1), b""))
        self.row("what it says then", ran(["read"], shorter), (0, b"\\x80" * 3 + b"\n", b""))
