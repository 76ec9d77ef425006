"""Runs commands of docs/INTERCHANGE.md, after its functions and calls of encoders, in a folder with two grids."""
import functools
import os
import re
import subprocess

from tests.support import commands, needs, package, places
from tests.support.case import Case

PAGE = places.path("docs", "INTERCHANGE.md")
PATHS = (os.path.dirname(places.PROGRAM), places.path("scripts"), places.path("library", "python", "bin"))
PATH = os.pathsep.join([*PATHS, os.environ["PATH"]])
ZXING = "/usr/share/java/core.jar"
# The Debian packages of what a command calls, and the program by which each is known, where that is another.
PACKAGES = {"zint": "zint", "dmtxwrite": "dmtx-utils", "dmtxread": "dmtx-utils", "iec16022": "iec16022",
            "ZXingWriter": "zxing-cpp-tools", "zxing": "libzxing-core-java default-jdk-headless", "pngtopnm": "netpbm",
            "pnmtopng": "netpbm", "grid": "netpbm", "picture": "netpbm"}
TOOLS = {"grid": "pnmcrop", "picture": "pnmpad"}

# Calls that make one grid of a text by each encoder, as far as it is tried here.
CALLS = f"""
zint_grid() {{ zint -b 71 --square --scale 0.5 --direct --filetype=png "$@" 2> /dev/null | pngtopnm | grid; }}
dmtxwrite_grid() {{ dmtxwrite -d 1 -m 1 "$@" | pngtopnm | grid; }}
iec16022_grid() {{ iec16022 -f Text "$@" | tr '* ' 10; }}
ZXingWriter_grid() {{
  ZXingWriter -margin 0 -size 1x1 DataMatrix "$1" "$0.png" && pngtopnm "$0.png" | grid; rm -f "$0.png"
}}
zxing() {{
  echo "$([ -n "$2" ] && echo 0 || echo -1) $(printf %s "$1" | od -An -v -t x1 | tr -d ' \\n')" |
    java -cp '{ZXING}:.' Zxing write | tr , '\\n'
}}
wider() {{ sed "s/./$(printf '&%.0s' $(seq "$1"))/g"; }}
larger() {{ wider "$1" | awk -v times="$1" 'NF {{ for (n = 0; n < times; n++) print }}'; }}
edifact='ABC.DEF-GHI/JKL+MNO*123' envelope=$(printf '[)>\\03605\\035A123\\035B456\\036\\004')
other=$(printf '[)>\\03606\\0359N110\\035TABC\\036\\004')
letters=$(printf %s "$edifact" | tr -c '' A)
digits=12345678901234567890
printf '123456\\n' | dm_tool write | awk NF > g
printf 'ABCDEFGH\\n' | dm_tool write | awk NF > h
"""


@functools.cache
def page():
    return places.text_of("docs", "INTERCHANGE.md")


@functools.cache
def blocks():
    """The recipes of the page in sh."""
    return re.findall(r"```sh\n(.*?)```", page(), re.S)


@functools.cache
def functions():
    """The functions of the page, and the calls."""
    return "".join(block for block in blocks() if re.search(r"^\w+\(\) \{$", block, re.M)) + CALLS


def is_installed(tool):
    return os.path.isfile(ZXING) and needs.has("javac") if tool == "zxing" else needs.has(TOOLS.get(tool, tool))


def lacking(command):
    """Says which packages a command needs that aren't installed; nothing if all are."""
    called = [tool for tool in PACKAGES if re.search(rf"(?<![\w./-]){tool}(_grid)?\b", command)]
    absent = {PACKAGES[tool] for tool in called if not is_installed(tool)}
    return " and ".join(f"{package} isn't installed" for package in sorted(absent))


class Shell(Case):
    """A case with a folder, which all cases of its class share."""

    @classmethod
    def setUpClass(cls):
        cls.room = cls.folder_of_class()

    @classmethod
    def run_here(cls, command):
        """Status, output without LFs at its end, and whether anything was said on standard error."""
        done = commands.run(["bash", "-c", f"{functions()}\n{command}"], cwd=cls.room,
                            env=commands.environment(PATH=PATH, **package.settings()),
                            stdin=subprocess.DEVNULL, timeout=120)
        return done.status, done.output.decode("utf-8", "surrogateescape").rstrip("\n"), done.errors != b""

    def put(self, name, content):
        places.wrote(content, self.room, name)

    def needs_of(self, command):
        """Skips the row or the case where something that a command needs isn't installed."""
        self.skip_for(lacking(command))


class Zxing(Shell):
    """A case that calls ZXing, where it is installed."""

    @classmethod
    def setUpClass(cls):
        super().setUpClass()
        if os.path.isfile(ZXING) and needs.has("javac"):
            source = places.path("tests", "corpus", "Zxing.java")
            subprocess.run(["javac", "-cp", ZXING, "-d", cls.room, source], check=True)
