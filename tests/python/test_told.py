"""What isn't read or written is said, and nothing read is taken for something else, or controls a terminal."""
import json
import os
import signal
import subprocess

from tests.python.common import PYTHON, WORDS, PackageCase, ecc, environment, forked, run
from tests.python.test_batches import saved, symbols
from tests.python.test_surface import hurt, text

import ecc200
from ecc200 import gs1

ELEMENTS = "(01)09521234543213(10)ABC"
HOSTILE = b"a\x1b]0;x\x07\n\xc2\x9bb\xe2\x80\xae\xe9\x9b.txt"
NAMED = b"a\\x1B]0;x\\x07\\x0A\\xC2\\x9Bb\\xE2\\x80\\xAE\xe9\\x9B.txt"


def raw(*words, folder=None, **more):
    """Status, output and errors of the command, which are bytes, with more in its environment."""
    done = more and subprocess.run([*WORDS, *words], input=b"", capture_output=True, env={**environment(), **more},
                                   cwd=folder, timeout=60)
    return (done.returncode, done.stdout, done.stderr) if more else forked(words, folder=folder)


STOPPED = """import os, signal, sys
signal.signal(signal.SIGINT, signal.SIG_DFL if sys.argv[1] == "default" else signal.default_int_handler)
import ecc200.files
usual = open
def opened(name, how):
    file = usual(name, how)
    os.kill(os.getpid(), getattr(signal, sys.argv[2]))
    return file
ecc200.files.open = opened
ecc200.files.replace("label.png", b"whole")
"""


class Told(PackageCase):
    def test_escapes(self):
        """Nothing that is scanned or named controls the terminal or begins a line."""
        here = os.fsencode(self.made("escapes"))
        saved(here, HOSTILE, symbols(b"A").encode())
        latin = {"LC_ALL": "C", "PYTHONUTF8": "0", "PYTHONCOERCECLOCALE": "0"}
        for more in ({}, latin):
            self.row(f"on output, {more}", raw("read", "-H", HOSTILE, folder=here, **more), (0, NAMED + b":A\n", b""))
            self.row(f"on errors, {more}", raw("read", HOSTILE + b"x", folder=here, **more),
                     (2, b"", b"ecc200: " + NAMED + b"x: No such file or directory\n"))
        name = "caf\u00e9 \u65e5.txt".encode()
        saved(here, name, symbols(b"A").encode())
        self.row("letters stay, whatever the locale", [raw("read", "-H", name, folder=here, **more)[1]
                                                       for more in ({}, latin)], [name + b":A\n"] * 2)
        for words in (("read", b"--q\x1bc"), (b"q\x1bc",), ("write", "-o", b"q\x1bc.x", "A"),
                      ("write", "A", "--form", b"\x1bc"), ("compare", HOSTILE, b"q\x1bc"), ("explain", "-H", HOSTILE),
                      ("check", "-H", HOSTILE), ("normal", b"q\x1bc"), ("join", HOSTILE), ("compare", HOSTILE, HOSTILE),
                      ("read", "--csv", HOSTILE, b"q\x1bc"), ("read", "--charset", b"\x1b")):
            got = raw(*words, folder=here)
            self.holds(f"{words}", b"\x1b" not in got[1] + got[2] and b"\xc2\x9b" not in got[1] + got[2], str(got))
        for items in (b"31\x1bc", b"9\x1b]0;", b"31\xc2\x9bc", b"01\n", b"8100\x1b", b"\x1bc"):
            for words in ((), ("--unknown", ), ("--json", ), ("--escapes", ), ("--charset", "latin-1")):
                for command in ("read", "compare")[:1 + (not words)]:
                    grid = saved(os.fsdecode(here), "gs1.txt", text(ecc200.write(items, gs1=True)))
                    got = raw(command, *words, *[grid] * (1 + (command == "compare")))
                    self.holds(f"{command} {words}, {items!r}", b"\x1b" not in got[1] + got[2] and b"\x9b" not in got[1]
                               + got[2] and got[2].count(b"\n") <= 1, str(got))

    def test_meant(self):
        """An error is said first, with what was meant, and the usage stands behind it."""
        for words, part in [(("raed", ), "there is no command raed: is read meant?"),
            (("quiet", ), "there is no command quiet; there are read,"), ((), "a command is wanted; there are read,"),
            (("--versoin", ), "no option --versoin: is --version meant?"),
            (("read", "--jsn"), "there is no option --jsn: is --json meant?"), (("read", "-json"), "is --json meant?"),
            (("write", "--forn=ascii", "A"), "there is no option --forn: is --form meant?"),
            (("write", "-5x"), "there is no option -5x; -- stands in front of a message"),
            (("write", "--form", "smalest", "A"), "--form: there is no smalest: is smallest meant?"),
            (("write", "--shape", "x", "A"), "--shape: there is no x; there are square, rectangle,"),
            (("compare", "a", "b", "c"), "c is one word too many"), (("sizes", "--qqq"), "there is no option --qqq\n"),
        ]:
            status, output, errors = ecc(*words)
            first, *rest = errors.split("\n", 1)
            self.holds(f"the words {words}", (status, output) == (2, "") and errors.startswith("ecc200: ")
                       and part.rstrip() in first and rest[0].startswith("usage: ecc200"), errors)
            self.holds(f"usage of {words}", len(words) < 2 or f"usage: ecc200 {words[0]} " in errors, errors)
        self.says("a message that begins with -", ecc("write -- -5x"), output=symbols(b"-5x"))

    def test_alike(self):
        """Text that reads like GS1 data, and isn't, is told apart, and asked about where it is written."""
        marked, plain = ecc("write --gs1", ELEMENTS), ecc("write", ELEMENTS)
        self.says("write --gs1", marked, output=None)
        self.says("write asks", plain, 0, None, ["ecc200: message 1 reads like GS1 data", "is --gs1 meant?"])
        self.says("GS1 data", ecc("read", given=marked[1]), output=ELEMENTS + "\n")
        self.says("what looks like it", ecc("read", given=plain[1]), 0, "\\x28" + ELEMENTS[1:] + "\n",
                  ["symbol 1: it reads like GS1 data, and isn't", "write --gs1"])
        self.row("the line spells what was written", ecc("write --escapes", "\\x28" + ELEMENTS[1:])[1], plain[1])
        for name, grid, part in (("GS1 data", marked[1], "(at most 7), GS1 data\n"), ("what looks like it", plain[1],
                                                                                    "reads like GS1 data and isn't")):
            got = ecc("check", given=grid)
            self.holds(f"check, {name}", got[0] == 0 and part in got[1] and not got[2], str(got))
        self.row("JSON", [json.loads(line)["gs1"] for line in ecc("read --json", given=marked[1] + plain[1])[1]
                          .splitlines()], [True, False])
        lines = f"{ELEMENTS}\nA\n[01]09521234543214\n(17)999999\n"
        self.says("lines", ecc("write", given=lines), 0, None, ["ecc200: line 1 and 2 more read like GS1 data"])
        for words in (("--gs1", ELEMENTS), ("--escapes", ELEMENTS), ("A" + ELEMENTS, ), ("(01)0952", ),
                      ("(02) 1234 5678", ), ("(030) 123456", ), ("(a)", ), ("()", ), ("(10)a b", )):
            self.row(f"nothing to ask, {words}", ecc("write", *words)[2].count("--gs1"), 0)
        self.row("by the module", [gs1.resembles(text) for text in (ELEMENTS, "(01)09521234543214", "[10]A(", "",
                                                                    "(10)")], [True, True, True, False, False])

    def test_raw_bytes(self):
        here = self.made("raw")
        for number, data in enumerate((b"C:\\new", b"a\r\nb\n\n", b"\xef\xbb\xbf", b"", b"\xff\0\x80\x1d\\F",
                                       bytes(range(256)), "\u20ac\n".encode())):
            grid = ecc("write --raw", given=data)[1]
            for _ in range(2):
                got = forked(["read", "--raw"], grid.encode())
                self.row(f"bytes {number}", got, (0, data, b""))
                grid = ecc("write --raw", given=got[1])[1]
        self.says("words", ecc("write --raw", "\u20ac\n", "A\n"), output=symbols("\u20ac\n".encode(), b"A\n"))
        self.row("write and read of a backslash", ecc("read --raw", given=ecc("write", "C:\\new")[1])[1], "C:\\new")
        self.says("many", ecc("write --raw", given=b"\xff" * 4000), 1, "", ["standard input: the message is longer"])
        self.says("what isn't read", ecc("read --raw -H", given=text(hurt(5)) + symbols(b"A")), 1, "A", ["symbol 1"])
        for part, message in enumerate(("a\n", "b"), 1):
            saved(here, f"{part}.txt", text(ecc200.write(message.encode(), head=(part, 2, 1, 1))))
        self.says("a part", self.ecc("read --raw 1.txt"), 0, "a\n", ["it is part 1 of 2"])
        self.says("joined", self.ecc("join --raw 2.txt 1.txt"), output="a\nb")
        for command in ("read", "write"):
            words = " ".join(ecc(command, "--help")[1].split())
            self.holds(f"{command} --help names both", "--raw" in words and "--escapes" in words, words)

    def test_others(self):
        """Of a sheet the first symbol is read, and that there are more is said."""
        self.made("others", "sheets of which one symbol is read")
        for count in (1, 6):
            self.ecc("write --sheet 100x60 -o", f"{count}.png", given="".join(f"SN-{it}\n" for it in range(count)))
        for command in ("read", "check", "explain", "normal"):
            got = self.ecc(command, "6.png")
            self.holds(f"{command}, one of many", got[0] == 3 and "ecc200: 6.png: there are more symbols than the one "
                       "that is read: --all" in got[2] and got[2].count("\n") == 1, str(got))
            self.holds(f"{command}, one alone", self.ecc(command, "1.png")[0::2] == (0, ""))
        self.says("read", self.ecc("read 6.png"), 3, "SN-0\n", ["more symbols"])
        told = [json.loads(line) for line in self.ecc("read --json 6.png")[1].splitlines()]
        self.row("in JSON", ([line["complete"] for line in told], "ended" in told[-1]), ([False, False], True))
        self.row("--most 1 asks for no other", self.ecc("read --most 1 6.png")[0::2], (0, ""))
        self.row("--all", (self.ecc("read --all 6.png")[1].count("\n")), 6)

    def test_folders(self):
        """A folder with nothing to be read is named, with what it has."""
        here = self.made("folders")
        for name in ("empty", "drawn", "mixed", "empty/inner"):
            os.mkdir(os.path.join(here, name))
        for number in range(2):
            saved(here, f"drawn/{number}.pdf", b"%PDF-1.4\n")
        saved(here, "drawn/notes.txt", "none\n")
        saved(here, "mixed/label.txt", symbols(b"A"))
        saved(here, "mixed/label.pdf", b"%PDF-1.4\n")
        none = "there are no pictures and no grids in it"
        for jobs in ("1", "2"):
            self.says("an empty one", self.ecc("read -r --jobs", jobs, "empty"), 2, "", [f"ecc200: empty: {none}\n"])
            self.says("one with PDFs", self.ecc("check -r --jobs", jobs, "drawn", "mixed"), 2, None,
                      [f"ecc200: drawn: {none}; 3 files of other kinds are passed over, 2 of them PDF or SVG",
                       "pdftoppm"])
        self.says("where it runs", ecc("read -r", folder=os.path.join(here, "empty")), 2, "", [f"ecc200: .: {none}\n"])
        self.says("one with a grid", self.ecc("read -r mixed"), output="mixed/label.txt:A\n")
        told = [json.loads(line) for line in self.ecc("read -r --json empty")[1].splitlines()]
        self.row("in JSON", told, [{"file": "empty", "error": none}])

    def test_lines(self):
        """Of each grid of a text there is a line, also of one that isn't read, as dm_tool has it."""
        here = self.made("lines")
        given = symbols(b"A") + text(hurt(5)) + "10x\n\n10\n1\n\n" + symbols(b"\\no") + text([bytes(10)] * 10)
        for words in ((), ("--hex", ), ("--escapes", )):
            got = ecc("read", *words, given=given)
            self.row(f"read {words}", (got[0], [line == "\\no" for line in got[1].splitlines()], got[2].count("\n")),
                     (1, [False, True, True, True, False, True], 4))
        got = ecc("check", given=given)[1].splitlines()
        self.row("check", [line == "\\no" for line in got], [False, True, True, True, False, True])
        saved(here, "a.txt", given)
        saved(here, "b.txt", symbols(b"B"))
        got = self.ecc("read a.txt b.txt")
        self.row("with names", got[1].splitlines()[1::5], ["a.txt:\\no", "b.txt:B"][:1] + ["b.txt:B"])
        self.row("normal, and read", ecc("read", given=ecc("normal", given=given)[1])[1], ecc("read", given=given)[1])
        self.says("none of it in a file", self.ecc("normal -o none.txt", given=text(hurt(5))), 1, "", ["symbol 1"])
        self.holds("there is none", not os.path.exists(os.path.join(here, "none.txt")))

    def test_stale(self):
        """No file from before stands where a message is refused."""
        here = self.made("stale")
        for name in ("b-2.png", "b-4.png", "one.svg", "all.txt", "sheet.pdf", "keep.txt"):
            saved(here, name, "from before")
        got = self.ecc("write --hex -o b.png", given="41\nx\n42\n")
        self.says("line 2 of it", got, 1, "", ["line 2: ", "ecc200: b-2.png stood there from before, and is removed\n"])
        for words in (("-o", "one.svg"), ("-o", "all.txt"), ("--sheet", "-o", "sheet.pdf")):
            self.says(f"all of them, {words}", self.ecc("write --hex", *words, "x"), 1, "", ["stood there"])
        self.ecc("write --hex -o keep.txt x 41")
        self.row("what is left", sorted(os.listdir(here)), ["b-1.png", "b-3.png", "b-4.png", "keep.txt"])
        self.row("no line, and nothing is removed", (self.ecc("write -o keep.txt", given="")[0],
                                                     os.path.exists(os.path.join(here, "keep.txt"))), (0, True))
        self.says("a device", ecc("write --hex -o /dev/null --format png x"), 1, "", ["message 1"])

    def test_stopped(self):
        """What ends the command while it writes a file leaves this one whole, and no other."""
        for name, number in (("SIGINT", signal.SIGINT), ("SIGTERM", signal.SIGTERM)):
            for how in ("default", "python"):
                here = self.made(f"{name}-{how}")
                status, _, errors = run([PYTHON, "-c", STOPPED, how, name], env=environment(), cwd=here)
                self.holds(f"{name}, {how}, ends it", status == -number or "KeyboardInterrupt" in errors, f"{status}")
                self.row(f"{name}, {how}", {it: open(os.path.join(here, it), "rb").read() for it in os.listdir(here)},
                         {"label.png": b"whole"})
