"""Texts torn in hostile places, and the recipes of docs/SCALE.md in Python: a symbol on each line, a partition, and a
process that stays. Bytes and status are compared with one run of the program. Nothing is proved here."""
import os
import subprocess
import sys
from unittest import mock

from tests.scale.runs import MESSAGES, PATH, Scale, environment, grids, ran, recipe
from tests.support import commands, places

# What is done to the text before its symbols are put on lines, the last for good.
SYMBOLS = [("symbols of a text", ":"), ("symbols on a full disk", ":"), ("symbols of no text", "rm grids.txt"),
           ("symbols of a folder", "mkdir grids.txt")]
# Lines that hold no symbol, or more than one.
HOSTILE = [("an empty line", b"\n"), ("an empty row", b"10,,01\n"),
           ("both, which make as many records as lines", b"10,,01\n\n"), ("a comma", b",\n"),
           ("a comma at the end", b"10,01,\n")]


def ends_between(text, of_lines):
    """Whether a cut after this text changes nothing."""
    return text == b"" or (text.endswith(b"\n") if of_lines else text == b"\n" or text.endswith(b"\n\n"))


class TornTexts(Scale):
    """Each text is torn in two at each place where that changes nothing, and into all these parts at once."""

    def torn(self, words, whole):
        wanted = ran(words, whole)
        places = [at for at in range(len(whole) + 1) if ends_between(whole[:at], words[0] == "write")]
        for at in places:
            first, second = ran(words, whole[:at]), ran(words, whole[at:])
            got = max(first[0], second[0]), first[1] + second[1]
            if got != wanted:
                self.row(f"{words} after {at} bytes", got, wanted)
        parts = [ran(words, whole[a:b]) for a, b in zip([0] + places, places + [len(whole)])]
        got = max(status for status, _ in parts), b"".join(out for _, out in parts)
        self.row(f"{words} in two at {len(places)} places, and at all of them", got, wanted)

    def test_texts_torn_between_records_or_lines_are_answered_as_the_whole(self):
        for words in (["read"], ["check", "--border", "3"], ["normal"]):
            self.torn(words, grids())
        self.torn(["write"], MESSAGES)

    def test_a_torn_record_is_not_read_as_the_whole(self):
        text = grids()
        at = text.index(b"1010101010\n") + len(b"1010101010\n")
        self.assertNotEqual(ran(["read"], text[:at])[1] + ran(["read"], text[at:])[1], ran(["read"], text)[1])


class SymbolsOnLines(Scale):
    @classmethod
    def setUpClass(cls):
        super().setUpClass()
        cls.text, cls.room = grids(), cls.folder_of_class()
        recipe(cls.recipes["a symbol a line"] + ": > answers.txt", cls.room, {"grids.txt": cls.text})
        cls.symbols = places.read(cls.room, "symbols.txt")

    def partition(self, words, given):
        """Status and output of the program for a partition."""
        env = commands.environment(PATH=PATH)
        return commands.run([sys.executable, "-c", self.recipes["a partition"], *words], given, env=env)[:2]

    def test_one_symbol_stands_on_each_line(self):
        self.assertEqual(self.symbols.count(b"\n"), ran(["read"], self.text)[1].count(b"\n"))

    def test_a_text_that_is_missing_or_a_full_disk(self):
        for name, change in SYMBOLS:
            subprocess.run(["sh", "-c", change], cwd=self.room, check=True)
            target = "/dev/full" if "full" in name else "symbols.txt"
            block = self.recipes["a symbol a line"].replace("symbols.txt", target)
            done = commands.run(["bash", "-c", block], cwd=self.room, env=environment(self.room))
            self.row(name, (done.status, done.errors != b""), (0, False) if name == "symbols of a text" else (3, True))

    def test_a_partition_with_each_of_its_words(self):
        for words in ([], ["check"], ["read", "--border", "10"]):
            wanted = 0, ran(words or ["read"], self.text)[1]
            self.row(f"a partition, {words}", self.partition(words, self.symbols), wanted)

    def test_partitions_of_other_lengths(self):
        lines, wanted = self.symbols.splitlines(keepends=True), ran(["read"], self.text)[1]
        parts = b"".join(self.partition([], b"".join(part))[1] for part in (lines[:7], lines[7:]))
        self.row("two partitions", parts, wanted)
        self.row("a partition without its last LF", self.partition([], self.symbols[:-1]), (0, wanted))
        self.row("an empty partition", self.partition([], b""), (0, b""))

    def test_a_partition_with_a_hostile_line(self):
        for name, hostile in HOSTILE:
            self.row(name, self.partition([], self.symbols + hostile + self.symbols), (3, b""))


class ProcessThatStays(Scale):
    """The Python of the page, asked for each record of a text, with the usual and a small number of bytes."""

    def setUp(self):
        records = [rows.decode("latin-1").split("\n") for rows in grids().strip(b"\n").split(b"\n\n") if rows.isascii()]
        self.records = [rows for rows in ([row for row in rows if row] for rows in records) if rows]
        self.enterContext(mock.patch.dict(os.environ, {"PATH": PATH}))
        space = {}
        exec(self.recipes["a process that stays"], space)
        self.reader = space["Reader"]

    @staticmethod
    def answer(words, rows):
        return ran(words, "\n".join(rows).encode())[1].decode().rstrip("\n")

    def asked(self, reader):
        text = "\n\n".join("\n".join(rows) for rows in self.records).encode()
        self.row("answers", [reader.ask(it) for it in self.records], ran(["read"], text)[1].decode().split("\n")[:-1])
        self.row("status", reader.close() in (0, 1), True)

    def test_each_record_is_answered(self):
        self.reader.MOST = 1 << 30
        self.asked(self.reader())

    def test_each_record_is_answered_by_processes_that_end_soon(self):
        self.reader.MOST = 12000
        self.asked(self.reader())

    def test_rows_that_are_no_record_are_refused(self):
        reader = self.reader("check")
        wanted = self.answer(["check"], self.records[0])
        self.row("before these", reader.ask(self.records[0]), wanted)
        for rows in ([], [""], ["10", "", "01"], ["10\n", "01"]):
            self.row(f"rows {rows}", self.fault_of(reader, rows), ValueError)
        self.row("after these", reader.ask(self.records[0]), wanted)
        self.row("its status", reader.close(), 0)

    @staticmethod
    def fault_of(reader, rows):
        """With which exception a reader refuses to be asked."""
        try:
            return reader.ask(rows)
        except ValueError as fault:
            return type(fault)
