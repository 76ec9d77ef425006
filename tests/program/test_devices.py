"""What the program does where a device fails, input stays open, there is too much of it, or memory is refused."""
import os
import select
import shutil
import subprocess

from tests.program.samples import GRID_A, NO_MEMORY, READ_FAILED, TABLE, TOO_MUCH, TWO, WRITE_FAILED, ran
from tests.support import commands, needs, places
from tests.support.case import Case

# What the program answers to a line or record longer than any, and the options with which it is asked again.
REFUSALS = {"read": b"\\no 2 large\n", "check": b"\\no 2 large\n", "normal": b"\\no 2 large\n\n",
            "write": b"\\no 14 too-long\n\n"}
OPTIONS = {"read": ["--border", "1"], "check": ["--border", "1"], "normal": ["--shorter"], "write": ["--shorter"]}
MOST_INPUT = 1 << 30


@needs.program
class FailingDevices(Case):
    def test_an_input_that_cannot_be_read(self):
        for words in (["read"], ["check"], ["normal"], ["write"]):
            folder = os.open(places.TOP, os.O_RDONLY)
            self.row(f"a folder as the input of {words[0]}", ran(words, stdin=folder), (3, b"", READ_FAILED))
            os.close(folder)

    def test_an_output_that_takes_no_byte(self):
        for words, given in ((["read"], TWO), (["write"], b"A\n"), (["table"], b"")):
            with open("/dev/full", "wb") as full:
                self.row(f"a full output of {words[0]}", ran(words, given, stdout=full), (3, None, WRITE_FAILED))
            reader, writer = os.pipe()
            os.close(reader)
            self.row(f"a closed output of {words[0]}", ran(words, given, stdout=writer), (3, None, WRITE_FAILED))
            os.close(writer)


@needs.program
class OpenInput(Case):
    """An answer comes as soon as its record or line is closed, for processes that keep the input open and wait."""

    def test_each_answer_comes_at_once(self):
        for word, given, wanted in (("read", GRID_A + b"\n", b"A\n"), ("write", b"A\n", GRID_A + b"\n")):
            program = self.process([places.PROGRAM, word], stdin=subprocess.PIPE, stdout=subprocess.PIPE)
            answers = b""
            for turn in range(1, 3):
                program.stdin.write(given)
                program.stdin.flush()
                answers += self.answered(program.stdout, turn * len(wanted) - len(answers))
            self.row(f"answers of {word} while its input is open", answers, 2 * wanted)

    @staticmethod
    def answered(output, count):
        """Gives so many bytes of an output, or what has come after ten seconds without any."""
        answers = b""
        while len(answers) < count and select.select([output], [], [], 10)[0]:
            piece = os.read(output.fileno(), 4096)
            answers += piece
            if not piece:
                break
        return answers


@needs.program
class MostInput(Case):
    """As much input as the program reads, and a byte more, in one line: to write, one of digits, which take longest,
    and one of escaped backslashes; those that are too much, and have no answer, are of a byte that no line has."""

    def test_as_much_as_is_read(self):
        for words in self.all_words():
            filler = b"\\" if words == ["write", "--shorter"] else b"0"
            self.row(" ".join(words), self.ran_over_line(words, MOST_INPUT, filler), (1, REFUSALS[words[0]], b""))

    def test_a_byte_more(self):
        for words in self.all_words():
            filler = b"\xff" if words[0] == "write" else b"0"
            self.row(" ".join(words), self.ran_over_line(words, MOST_INPUT + 1, filler), (3, b"", TOO_MUCH))

    @staticmethod
    def all_words():
        return [words for word, options in OPTIONS.items() for words in ([word], [word, *options])]

    @staticmethod
    def ran_over_line(words, size, filler):
        """What the program makes of a line of this byte so many times, by a pipe. It may end before it has all."""
        piece = filler * (1 << 16)
        streams = {"stdin": subprocess.PIPE, "stdout": subprocess.PIPE, "stderr": subprocess.PIPE}
        with commands.started([places.PROGRAM, *words], **streams) as program:
            try:
                for _ in range(size // len(piece)):
                    program.stdin.write(piece)
                program.stdin.write(piece[: size % len(piece)])
            except BrokenPipeError:
                pass
            output, line = program.communicate()
            return program.returncode, output, line


@needs.program
class RefusedMemory(Case):
    """Each growth of memory is refused in turn: the program reports it, or goes on as with ample memory."""

    @classmethod
    def setUpClass(cls):
        folder = cls.folder_of_class()
        cls.counts, made = os.path.join(folder, "growths"), os.path.join(folder, "refuse_growth.so")
        compiler = shutil.which("cc") or shutil.which("clang") or "/opt/rattle/toolchain/bin/clang"
        source = places.path("tests", "program", "refuse_growth.c")
        subprocess.run([compiler, "-shared", "-fPIC", "-O1", "-o", made, source, "-ldl"], check=True, timeout=60)
        cls.hook = commands.environment(LD_PRELOAD=made, GROWTHS=cls.counts)

    def test_each_growth(self):
        for words, given, output in ((["read", "--border", "3"], TWO, b"123456\nA\n"),
                                     (["write"], b"A\n", GRID_A + b"\n"), (["table"], b"", TABLE)):
            self.refused_in_turn(words, given, output)

    def refused_in_turn(self, words, given, output):
        """Runs the program once with ample memory, and then with each of its growths refused."""
        ample, want = (0, output, b""), (3, b"", NO_MEMORY)
        self.row(f"{words[0]} with ample memory", ran(words, given, env=self.hook), ample)
        asked = int(places.text_of(self.counts))
        ends = [ran(words, given, env={**self.hook, "REFUSED_GROWTH": str(n)}) for n in range(1, asked + 1)]
        others = [end for end in ends if end not in (ample, want)]
        self.row(f"{words[0]} with each of {asked} growths refused", others[:1], [])
        self.row(f"{words[0]} with the first growth refused", ends[0], want)
