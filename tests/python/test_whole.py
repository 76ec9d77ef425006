"""Nothing is cut or lost in what the command writes: captions, whole files, missing folders, blank lines."""
import os
import re
import stat

from tests.python.common import PYTHON, PackageCase, ecc, environment, run
from tests.python.test_batches import saved, shell, symbols
from tests.support import places

import ecc200
from ecc200 import drawing

DEEP = "gjpqy"


def rendered(folder, kind, page):
    """How many dark pixels another program draws of a page."""
    path = os.path.join(folder, f"page.{kind}")
    places.wrote(drawing.svg(page) if kind == "svg" else drawing.pdf([page]), path)
    words = {"svg": ["rsvg-convert", "-d", "300", "-p", "300", "-o", f"{path}.png", path],
             "pdf": ["pdftoppm", "-r", "300", "-gray", "-png", "-singlefile", path, path]}[kind]
    run(words)
    from PIL import Image
    with Image.open(f"{path}.png") as picture:
        return sum(picture.convert("L").histogram()[:128])


KILLED = """import os, signal, sys
sys.argv[:] = ["ecc200", "write", "new", "-o", sys.argv[1]]
import ecc200.command
os.replace = lambda *names: os.kill(os.getpid(), signal.SIGKILL)
ecc200.command.main()
"""
# A folder in which no file may be made, also for root.
REFUSED = """import sys
import ecc200.files
from ecc200.command import main
def refused(path):
    raise PermissionError(13, "Permission denied")
ecc200.files._beside = refused
sys.exit(main(["write", "-o", *sys.argv[1:]]))
"""


class Whole(PackageCase):
    def test_captions(self):
        """Of letters that go below the line nothing is cut off: a page that is longer has no more of them."""
        self.needed("PIL.Image", "Pillow", "captions as they are drawn")
        for kind, program in (("svg", "rsvg-convert"), ("pdf", "pdftoppm")):
            if not self.has(program, f"captions of {kind} as they are drawn"):
                continue
            for caption in ([DEEP], [f"{DEEP} "] * 8):
                page = drawing.alone(ecc200.write(b"A"), 0.5, 2, caption)
                longer = page._replace(height=page.height + 5)
                self.row(f"{caption} in {kind}", rendered(self.room, kind, page), rendered(self.room, kind, longer))
                self.holds(f"{caption} is drawn in {kind}",
                           rendered(self.room, kind, page) > rendered(self.room, kind, page._replace(lines=())) + 100)

    def test_replaced(self):
        """A file is as it was before until the new one is whole."""
        here = self.made("replaced")
        before = saved(here, "label.png", b"as before")
        for name, wanted in (("label.png", b"as before"), ("none.png", None)):
            path = os.path.join(here, name)
            run([PYTHON, "-c", KILLED, path], env=environment())
            got = open(path, "rb").read() if os.path.exists(path) else None
            self.row(f"{name} of a command that is killed", got, wanted)
        for name in os.listdir(here):
            if name.startswith(".ecc200-"):
                os.remove(os.path.join(here, name))
        got = shell("ulimit -f 0; $E write new -o label.png", here)
        self.says("no room for the file", got, 2, "", ["label.png: File too large"])
        self.row("it is as before, and nothing is left", (open(before, "rb").read(), os.listdir(here)),
                 (b"as before", ["label.png"]))
        os.chmod(before, 0o640)
        os.symlink("label.png", os.path.join(here, "link.png"))
        self.says("by a link", self.ecc("write new -o link.png"), output="")
        self.row("the link and the file's mode stay", (os.path.islink(os.path.join(here, "link.png")),
                                                       stat.S_IMODE(os.stat(before).st_mode)), (True, 0o640))
        self.row("the file is new", open(before, "rb").read(4), b"\x89PNG")
        got = shell("umask 027; $E write new -o other.txt; stat -c %a other.txt", here)
        self.says("the mode of a new file", got, output="640\n")
        self.says("device", shell("$E write 123456 -o /dev/stdout --format txt | cat", here), output=symbols(b"123456"))
        self.says("a device without room", shell("$E write A -o /dev/full --format png", here), 2, "",
                  ["ecc200: /dev/full: No space left"])
        path = os.path.join(here, "saved.svg")
        ecc200.encode(b"A").save(path)
        self.row("by Python", (open(path, "rb").read(), sorted(os.listdir(here))),
                 (ecc200.encode(b"A").svg(), ["label.png", "link.png", "other.txt", "saved.svg"]))
        nowhere = os.path.join(here, "none", "a.svg")
        self.raises("the name given is said", FileNotFoundError, nowhere, lambda: ecc200.encode(b"A").save(nowhere))

    def test_missing_folder(self):
        """An output folder that isn't there is one error, whatever the number of labels."""
        here = self.made("missing")
        lines = "\n".join(map(str, range(200)))
        for name in ("none/label.png", "none/{}.svg", "none/a.pdf", "none/all.txt"):
            got = self.ecc("write -o", name, given=lines)
            self.says(f"-o {name}", got, 2, "", [f"ecc200: {name}: there is no folder none"])
            self.row(f"lines that say so, {name}", got[2].count("\n"), 1)
        os.mkdir(os.path.join(here, "A"))
        got = self.ecc("write -o", "{}/a.svg", "A", "B")
        self.says("folders named by messages", got, 2, "", ["ecc200: B/a.svg: No such file or directory"])
        self.row("the others are written", os.listdir(os.path.join(here, "A")), ["a.svg"])
        got = run([PYTHON, "-c", REFUSED, "label.svg", "1", "2", "3"], env=environment(), cwd=here)
        self.says("a folder that takes no files is said once", got, 2, "", ["ecc200: label-1.svg: Permission denied\n"])
        self.row("lines that say so", got[2].count("\n"), 1)
        path = saved(here, "label.svg", b"before")
        self.says("a file that may be written", run([PYTHON, "-c", REFUSED, path, "1"], env=environment()), output="")
        self.row("is written", open(path, "rb").read(5), b"<svg ")

    def test_blank_lines(self):
        """Blank lines of a batch are named, and are symbols of nothing only where that is asked for."""
        here = self.made("blank")
        got = self.ecc("write -o lot.svg", given="A\n\n \t\r\nB\n")
        self.says("blank lines", got, 1, "", ["line 2: it is blank", "line 3: it is blank", "--blank"])
        self.row("files by line", sorted(os.listdir(here)), ["lot-1.svg", "lot-4.svg"])
        self.says("as grids", ecc("write", given="\nA\n"), 1, symbols(b"A"), ["line 1: it is blank"])
        self.says("--blank", ecc("write --blank", given="A\n\n \n"), output=symbols(b"A", b"", b" "))
        self.says("a message of nothing", ecc("write", ""), output=symbols(b""))
        self.says("--bytes of nothing", ecc("write --bytes /dev/null"), output=symbols(b""))
        self.says("no lines", ecc("write", given=""), output="")
        self.holds("--help says so", re.search("--blank +make symbols of blank lines", ecc("write --help")[1]))
