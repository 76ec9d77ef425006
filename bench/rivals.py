"""The programs that are timed beside ours: each is built from a small source in this folder, if its package is
installed."""
import os
import re
import shutil
import subprocess
import zipfile

HERE = os.path.dirname(os.path.abspath(__file__))

# The note on an encoder that chooses among all encodations.
CHOSE_OTHERS = "; the rest are in EDIFACT or rectangular, and are refused"


def version_of(package):
    """The version of an installed Debian package, as its authors number it, or nothing."""
    if not shutil.which("dpkg-query"):
        return ""
    told = subprocess.run(["dpkg-query", "-W", "-f=${Version}", package], capture_output=True, text=True)
    number = re.match(r"[0-9.]*[0-9]", told.stdout)
    return " " + number.group() if number else ""


def version_in(jar):
    """The version that a Java library states, or nothing."""
    if not zipfile.is_zipfile(jar):
        return ""
    with zipfile.ZipFile(jar) as library:
        number = re.search(r"Bundle-Version: ([0-9.]+)", library.read("META-INF/MANIFEST.MF").decode())
    return " " + number.group(1) if number else ""


def printed_by(words):
    """What a command prints. If it fails, this program ends too."""
    done = subprocess.run(words, stdout=subprocess.PIPE, text=True)
    if done.returncode:
        raise SystemExit(f"{words[0]} failed with status {done.returncode}")
    return done.stdout


class Zxing:
    """ZXing's decoder, in a Java program that hands it bit matrices."""

    def __init__(self, jar, folder):
        self.jar = jar
        self.folder = folder
        self.name = "ZXing" + version_in(jar)

    def missing(self):
        """The packages without which it can't be timed."""
        tools = ["default-jdk-headless"] if not (shutil.which("javac") and shutil.which("java")) else []
        return tools + ([] if os.path.isfile(self.jar) else ["libzxing-core-java"])

    def build(self):
        """Compiles the Java program into the folder."""
        printed_by(["javac", "-cp", self.jar, "-d", self.folder, os.path.join(HERE, "ZxingReads.java")])

    def timed(self, grids, lines, rounds):
        """How many grids it doesn't read as the lines written, and the best round's seconds."""
        path = os.pathsep.join([self.jar, self.folder])
        told = printed_by(["java", "-XX:+UseSerialGC", "-cp", path, "ZxingReads", grids, lines, str(rounds)])
        wrong, nanoseconds = told.split()
        return int(wrong), int(nanoseconds) * 1e-9


class ZxingCpp:
    """zxing-cpp, as a decoder of bit matrices (`reads`) or as an encoder, in a program in C++."""

    def __init__(self, reads, folder):
        self.reads = reads
        self.same = False
        self.rest = CHOSE_OTHERS
        self.name = "zxing-cpp" + version_of("libzxing-dev")
        self.built = os.path.join(folder, "zxing_cpp")
        self.notes = {}

    def missing(self):
        """The packages without which it can't be timed."""
        if not shutil.which("c++"):
            return ["g++", "libzxing-dev"]
        test = ["c++", "-std=c++17", "-fsyntax-only", "-include", "ZXing/BitMatrix.h", "-x", "c++", "-"]
        return ["libzxing-dev"] if subprocess.run(test, input=b"", stderr=subprocess.DEVNULL).returncode else []

    def build(self):
        """Compiles the program into the folder, once for both."""
        if not os.path.exists(self.built):
            printed_by(["c++", "-std=c++17", "-O2", "-o", self.built, os.path.join(HERE, "zxing_cpp.cpp"), "-lZXing"])

    def timed(self, given, other, rounds):
        """As a decoder, given grids and lines: how many grids it doesn't read as the lines written, and the best
        round's seconds. As an encoder, given lines and the file for grids: the best round's seconds."""
        wrong, seconds = printed_by([self.built, "read" if self.reads else "write", given, other, str(rounds)]).split()
        return (int(wrong), float(seconds)) if self.reads else float(seconds)


def decoders(jar, folder):
    """ZXing and zxing-cpp."""
    return [Zxing(jar, folder), ZxingCpp(True, folder)]


class Encoder:
    """An encoder of a C library, in a program that hands it lines. `same` is whether it is told to use ASCII
    encodation, so that its symbols have to be the same as ours; `rest` is the note on the symbols that may differ."""

    def __init__(self, library, way, folder):
        self.library = library
        self.way = way
        self.package = f"lib{library}-dev"
        self.same = library == "dmtx"
        self.rest = ", the same as its own" if self.same else CHOSE_OTHERS
        self.name = " ".join([("lib" if self.same else "") + library + version_of(self.package), *way])
        self.built = os.path.join(folder, library + "_writes")
        self.notes = {}

    def missing(self):
        """The packages without which it can't be timed."""
        if not shutil.which("cc"):
            return ["gcc", self.package]
        test = ["cc", "-fsyntax-only", "-include", self.library + ".h", "-x", "c", "-"]
        return [self.package] if subprocess.run(test, input=b"", stderr=subprocess.DEVNULL).returncode else []

    def build(self):
        """Compiles the C program into the folder."""
        source = os.path.join(HERE, f"{self.library}_writes.c")
        printed_by(["cc", "-O2", "-o", self.built, source, "-l" + self.library])

    def timed(self, lines, grids, rounds):
        """Writes the symbols of a file of lines. The best round's seconds."""
        return float(printed_by([self.built, lines, grids, str(rounds), *self.way]))


def encoders(folder):
    """zint at its usual and its faster choice of encodations, zxing-cpp, and libdmtx in ASCII encodation."""
    zint = [Encoder("zint", way, folder) for way in ([], ["fast"])]
    return [*zint, ZxingCpp(False, folder), Encoder("dmtx", [], folder)]
