"""The command ecc200 over many messages and files, in any locale and at the ends of its input and output."""
import contextlib
import io
import json
import os
import signal
import subprocess
import threading
from unittest import mock

from tests.python.common import PACKAGE, PYTHON, WORDS, PackageCase, ecc, environment, run, saved
from tests.python.test_surface import hurt, smallest, text

import ecc200

FACE = os.path.join(PACKAGE, "bin", "ecc200")


def symbols(*messages):
    return "".join(map(smallest, messages))


def shell(line, folder=None, **more):
    """Status, output and errors of a shell's line in which $E is the command."""
    return run(["/bin/bash", "-c", line], env={**environment(), "E": f"{PYTHON} {FACE}", **more}, cwd=folder)


class Batches(PackageCase):
    def test_numbered(self):
        here = self.made("numbered")
        lines = "(01)09521234543213(10)A\n(01)09521234543214(10)B\n(01)09521234543213(10)C\n"
        self.says("a line is refused", self.ecc("write --gs1 -o lot.svg", given=lines), 1, "",
                  ["line 2: (01) GTIN: its check digit"])
        self.row("files by line", sorted(os.listdir(here)), ["lot-1.svg", "lot-3.svg"])
        self.says("a message is refused", self.ecc("write --hex x 41 -o one.txt"), 1, "", ["message 1: "])
        self.row("one grid", open(os.path.join(here, "one.txt")).read(), symbols(b"A"))
        self.says("many lines", self.ecc("write -o many.svg", given="\n".join(map(str, range(10)))), output="")
        self.row("numbers of one length", sorted(name for name in os.listdir(here) if name.startswith("many"))[::9],
                 ["many-01.svg", "many-10.svg"])
        two = symbols(b"A") + text([bytes(10)] * 10) + symbols(b"C")
        self.says("normal, a symbol is refused", self.ecc("normal -o again.svg", given=two), 1, "", ["symbol 2"])
        self.row("files by symbol", sorted(name for name in os.listdir(here) if name.startswith("again")),
                 ["again-1.svg", "again-3.svg"])

    def test_bad_lines(self):
        """A bad line is named, and the others are written."""
        got = ecc("write", given=b"\xef\xbb\xbfA\r\nB\rC\r\n\xff\xe9\nD\r\n" + b"7" * 4000 + b"\nE")
        self.says("lines as Excel writes them", got, 1, symbols(b"A", b"D", b"E"),
                  ["line 2: it has a CR inside", "line 3: it isn't UTF-8", "byte FF", "line 5: the message is longer"])
        self.row("each is named once", got[2].count("\n"), 3)
        self.says("a charset that lacks a letter", ecc("write --charset iso-8859-1", given="\u00e9\n\u20ac\nA\n"),
                  1, symbols(b"\xe9", b"A"), ["line 2: the charset iso-8859-1 has no '\u20ac'"])
        self.says("UTF-16", ecc("write", given="A\n".encode("utf-16")), 2, "", ["UTF-16", "iconv"])
        self.says("--gs1, CR LF", ecc("write --gs1", given="\ufeff(10)A\r\n"), output=smallest(b"10A", gs1=True))
        for end in ("\n", "\r\n", "\r"):
            self.says(f"a pasted line end, {end!r}", ecc("write", "A" + end, "B\nC"), output=symbols(b"A", b"B\nC"))
        self.says("a mark in an argument", ecc("write", "\ufeffA"), output=symbols(b"A"))
        self.says("an argument that isn't UTF-8", ecc("write", b"A\xff", "B"), 1, symbols(b"B"),
                  ["message 1: it isn't UTF-8: its character 2", "--bytes"])

    def test_several(self):
        """Files are told apart by name, and one that can't be read keeps none from being read."""
        here = self.made("several")
        os.mkdir(os.path.join(here, "folder"))
        saved(here, "label.txt", symbols(b"123456", b"A"))
        saved(here, "other.txt", symbols(b"B"))
        saved(here, "broken.png", b"\x89PNG\r\n\x1a\nrubbish")
        saved(here, "empty.png", b"")
        saved(here, "lines.txt", b"\n\r\n")
        self.says("lines that are empty", self.ecc("read lines.txt"), 2, "", ["ecc200: lines.txt: its lines are empty"])
        names = ["nope.png", "folder", "broken.png", "empty.png", "label.txt", "other.txt"]
        got = self.ecc("read", *names)
        self.says("read", got, 2, "label.txt:123456\nlabel.txt:A\nother.txt:B\n",
                  ["ecc200: nope.png: No such file", "ecc200: folder: it is a folder; -r", "ecc200: broken.png: ",
                   "ecc200: empty.png: it is empty"])
        self.holds("no object of Python is named", "BytesIO" not in got[2] and got[2].count("\n") == 4, got[2])
        self.row("check", [line[:15] for line in self.ecc("check", *names)[1].splitlines()],
                 ["label.txt:10x10"] * 2 + ["other.txt:10x10"])
        self.says("one file", self.ecc("read other.txt"), output="B\n")
        self.says("one file, -H", self.ecc("read -H other.txt"), output="other.txt:B\n")
        self.says("two files, --no-filename", self.ecc("read --no-filename other.txt other.txt"), output="B\nB\n")
        status, output, _ = self.ecc("read --json", *names)
        told = [json.loads(line) for line in output.splitlines()]
        self.row("--json", (status, [line["file"] for line in told], ["error" in line for line in told]),
                 (2, names[:5] + names[4:], [True] * 4 + [False] * 3))
        lost = saved(here, "lost.txt", text([bytes(10)] * 10))
        self.says("refused", self.ecc("check", lost, "other.txt"), 1, None, ["lost.txt, symbol 1: 27 of the 36"])
        self.row("normal", self.ecc("normal", *names)[:2], (2, symbols(b"123456", b"A", b"B")))
        self.holds("explain", "other.txt, symbol 1:\nplace" in self.ecc("explain", *names)[1].replace("  ", ""))
        strange = os.path.join(os.fsencode(here), b"\xe9.txt")
        os.link(os.path.join(here, "other.txt"), strange)
        raw = subprocess.run([*WORDS, "read", "-H", strange], env=environment(), capture_output=True, timeout=60).stdout
        self.row("a name that isn't UTF-8", raw, strange + b":B\n")
        lost = subprocess.run([*WORDS, "read", strange + b"x"], env=environment(), stderr=subprocess.PIPE, timeout=60)
        self.row("one that isn't there", (lost.returncode, lost.stderr),
                 (2, b"ecc200: " + strange + b"x: No such file or directory\n"))

    def test_walked(self):
        """Folders, with -r."""
        here = self.made("walked")
        os.makedirs(os.path.join(here, "a", "b"))
        saved(here, "a/b/two.txt", symbols(b"2"))
        saved(here, "a/one.txt", symbols(b"1"))
        saved(here, "a/read me.txt", "10 of these\n")
        saved(here, "a/label.pdf", b"%PDF-1.4\n")
        for name, start in (("sound.wav", b"RIFF\x24\0\0\0WAVEfmt "), ("cars.txt", b"BMW and others of that kind\n"),
                            ("first.txt", b"P1 is urgent\n")):
            saved(here, f"a/{name}", start)
        saved(here, "three.txt", symbols(b"3"))
        os.symlink(os.path.join(here, "three.txt"), os.path.join(here, "a", "link.txt"))
        self.says("-r", self.ecc("read -r a three.txt"), output="a/one.txt:1\na/b/two.txt:2\nthree.txt:3\n")
        self.says("-r without a file", self.ecc("read -r"), output="three.txt:3\na/one.txt:1\na/b/two.txt:2\n")
        saved(here, "a/b/broken.png", b"\x89PNG\r\n\x1a\nrubbish")
        self.says("-r, a broken picture", self.ecc("check -r --no-filename a"), 2, None, ["ecc200: a/b/broken.png: "])
        self.row("it keeps none from being read", self.ecc("read -r a")[1], "a/one.txt:1\na/b/two.txt:2\n")

    def test_side_by_side(self):
        """Pictures that are searched at a time are answered in order, with what stands between them."""
        Image = self.needs_search("--jobs").Image
        here = self.made("jobs")
        os.makedirs(os.path.join(here, "scans"))
        for number in range(12):
            self.ecc("write", f"SN-{number:02}", "-o", f"scans/{number:02}.png")
        Image.effect_noise((300, 240), 90).save(os.path.join(here, "scans", "00-noise.png"))
        saved(here, "scans/04-grids.txt", symbols(b"grid 1", b"grid 2"))
        saved(here, "scans/08-broken.png", b"\x89PNG\r\n\x1a\nrubbish")
        alone = self.ecc("read -r scans")
        self.holds("what is read one by one", alone[0] == 2 and alone[1].count("\n") == 14, str(alone))
        for jobs in (2, 5, 64):
            self.row(f"{jobs} at a time", self.ecc("read -r --jobs", str(jobs), "scans"), alone)
        named = sorted(os.path.join("scans", name) for name in os.listdir(os.path.join(here, "scans")))
        self.row("named files, and one that isn't there", self.ecc("check --jobs 3 none.png", *named),
                 self.ecc("check none.png", *named))
        self.row("as JSON", self.ecc("read -r --json --jobs 3 scans"), self.ecc("read -r --json scans"))
        picture = open(os.path.join(here, "scans", "03.png"), "rb").read()
        self.says("standard input", self.ecc("read --jobs 2", given=picture), output="SN-03\n")
        self.says("a pipe that is named", shell("$E read --jobs 2 <(cat scans/03.png)", here), output="SN-03\n")
        from ecc200 import command, sources
        three = threading.Barrier(3)

        def met(name, *_):
            three.wait(60)  # fails where fewer than three are searched at a time
            return [sources.Source(name, 1, ecc200.write(b"A"))]
        with mock.patch.object(sources, "of_picture", met), contextlib.redirect_stdout(io.StringIO()) as said:
            files = [os.path.join(here, "scans", f"{number:02}.png") for number in range(3)]
            self.row("three at a time", (command.main(["read", "--jobs", "3", *files]), said.getvalue()),
                     (0, "".join(f"{file}:A\n" for file in files)))

    def test_no_picture(self):
        """What is given in place of a picture is named as what it is."""
        here = self.made("no_picture")
        for kind in ("svg", "pdf"):
            self.ecc("write A -o", f"label.{kind}")
            self.says(f"an own {kind}", self.ecc("read", f"label.{kind}"), 2, "",
                      [f"label.{kind}: it is a", kind.upper(), "pixels"])
        saved(here, "declared.svg", '<?xml version="1.0"?>\n<!-- label -->\n<svg xmlns="http://www.w3.org/2000/svg"/>')
        self.says("an svg with a declaration", self.ecc("read declared.svg"), 2, "", ["it is an SVG"])
        saved(here, "archive.zip", b"PK\3\4" + bytes(40))
        self.says("something else", self.ecc("read archive.zip"), 2, "", ["neither a picture"])
        pillow = self.needs_search("pictures of other codes")
        if not self.has("zint", "pictures of other codes"):
            return
        run(["zint", "-o", "qr.png", "--scale", "3", "--quietzones", "-b", "58", "-d", "A QR code"], cwd=here)
        got = self.ecc("read qr.png")
        self.says("another code", got, 1, "", ["no Data Matrix symbol was found", "but a QR code, which isn't one"])
        self.holds("no advice that doesn't help", "--border" not in got[2], got[2])
        white = pillow.Image.new("L", (90, 90), 255)
        white.save(os.path.join(here, "pages.tif"), save_all=True, append_images=[white])
        os.truncate(os.path.join(here, "pages.tif"), os.path.getsize(os.path.join(here, "pages.tif")) - 50)
        self.says("a page that is cut off", self.ecc("read pages.tif"), 2, "", ["ecc200: pages.tif: page 2"])
        pillow.Image.new("1", (9600, 9500), 1).save(os.path.join(here, "large.png"))
        got = self.ecc("read --time 1 large.png")
        self.holds("no warnings", got[0] == 3 and "Warning" not in got[2] and got[2].count("\n") == 1, str(got))

    def test_locales(self):
        """JSON is the same in every locale."""
        given = symbols(b"caf\xe9", "\u20ac\U0001f600".encode(), b"a\\b\n\x1d")
        each = {}, {"PYTHONIOENCODING": "latin-1"}, {"PYTHONIOENCODING": "ascii"}, {"LC_ALL": "C", "PYTHONUTF8": "0"}
        answers = [run([*WORDS, "read", "--json"], given.encode(), env={**environment(), **more}) for more in each]
        self.row("the same in each", [answer == answers[0] for answer in answers], [True] * 4)
        self.holds("ASCII", answers[0][1].isascii() and answers[0][0] == 0, answers[0][1])
        self.row("its text", [json.loads(line)["text"] for line in answers[0][1].splitlines()],
                 ["caf\u00e9", "\u20ac\U0001f600", "a\\b\n\x1d"])
        bare = {**environment(), "LC_ALL": "C", "PYTHONUTF8": "0"}
        self.says("a word in a locale without its letters", run([*WORDS, "write", b"caf\xc3\xa9"], env=bare),
                  output=symbols(b"caf\xe9"))
        self.says("no UTF-8", run([*WORDS, "write", b"A\xff"], env=bare), 1, "", ["character 2 is the byte FF"])
        said = run([*WORDS, "read"], symbols("\u00e9\u20ac\U0001f600".encode(), b"\x80").encode(), env=bare)
        self.says("letters that the locale hasn't", said, output="\\u00e9\\u20ac\\U0001f600\n\\x80\n")
        told = json.loads(ecc("read --json --charset ascii", given=symbols(b"\xe9"))[1])
        self.row("no text in that charset", (told["text"], told["hex"]), (None, "e9"))

    def test_round_trips(self):
        """What text is read as it was written, tests of messages say; here how that is told, and what is no text."""
        self.row("by words and by lines", ecc("write", given="7\u00bd\n")[1], ecc("write", "7\u00bd")[1])
        help_of_read = " ".join(ecc("read --help")[1].split())
        self.holds("help says how a backslash is shown", "A backslash is printed as \\\\" in help_of_read, help_of_read)
        for name in ("hex", "undefined"):
            self.says(f"no charset of text, {name}", ecc("write --charset", name, "A"), 2, "", [f"no charset '{name}'"])
        got = ecc("write --charset idna a..b")
        self.holds("names", got[0] == 1 and "label empty" in got[2] and "hexadecimal" not in got[2], str(got))

    def test_blocks_of_json(self):
        told = json.loads(ecc("read --json", given=text(hurt(5)))[1])
        self.row("a block counts from 1 in JSON too", (told["code"], told["block"], "place" in told,
                                                       told["refused"][:7]), ("BLOCK", 1, False, "block 1"))

    def test_streams(self):
        """Standard streams that are closed or full are said, without a traceback."""
        here = self.made("streams")
        saved(here, "label.txt", symbols(b"A"))
        for name, line, status, part in [("no input", "$E read <&-", 2, "standard input is closed"),
                                         ("no input to write", "$E write <&-", 2, "standard input is closed"),
                                         ("no output", "$E read label.txt >&-", 2, "standard output is closed"),
                                         ("a full device", "$E read label.txt >/dev/full", 2, "No space left"),
                                         ("help, a full device", "$E --help >/dev/full", 2, "No space left"),
                                         ("help, no output", "$E --help >&-", 2, "standard output is closed")]:
            got = shell(line, here)
            self.holds(name, got[0] == status and part in got[2] and got[2].count("\n") == 1, str(got))
        for words, status in (("read nope", 2), ("write --format none A", 2), ("read <&-", 2)):
            self.says(f"full errors, {words}", shell(f"$E {words} 2>/dev/full", here), status, "")
        self.says("no input, but a file", shell("$E read label.txt <&-", here), output="A\n")
        self.says("no errors", shell("$E read nope label.txt 2>&-", here), 2, "label.txt:A\n")
        saved(here, "many.txt", symbols(*([b"A"] * 20_000)))
        got = shell("$E read many.txt | head -1; exit ${PIPESTATUS[0]}", here)
        self.says("a closed pipe", got, 128 + signal.SIGPIPE, "A\n")
        as_module = shell(f"{PYTHON} -m ecc200 read many.txt | head -1; exit ${{PIPESTATUS[0]}}", here)
        self.says("a closed pipe, as a module", as_module, 128 + signal.SIGPIPE, "A\n")

    def test_interrupted(self):
        """Ctrl-C ends it as it ends other programs, also while modules are imported, whatever becomes of it where these
        tests run: a shell lets what it starts in the background ignore it."""
        here, how = self.made("interrupted"), {"stderr": subprocess.PIPE, "stdout": subprocess.PIPE}
        how["preexec_fn"] = lambda: signal.signal(signal.SIGINT, signal.SIG_DFL)
        os.mkdir(os.path.join(here, "ecc200"))
        saved(here, "ecc200/__init__.py", "import os, signal\nos.kill(os.getpid(), signal.SIGINT)\n")
        copied = saved(here, "start", open(FACE).read())
        started = subprocess.run([PYTHON, copied], env={**environment(), "PYTHONPATH": ""}, timeout=60, **how)
        self.row("in the start", (started.returncode, started.stderr), (-signal.SIGINT, b""))
        waiting = subprocess.Popen([PYTHON, FACE, "read"], stdin=subprocess.PIPE, env=environment(), **how)
        waiting.stdin.write(symbols(b"A").encode())
        waiting.stdin.flush()
        waiting.stdout.readline()
        waiting.send_signal(signal.SIGINT)
        waiting.stdin.close()
        self.row("while it reads", (waiting.wait(timeout=60), waiting.stderr.read()), (-signal.SIGINT, b""))
