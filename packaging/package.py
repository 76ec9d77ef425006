"""What packaging/files.txt and packaging/version say, for the scripts of this folder."""
import os
import re
import subprocess
from typing import Dict, Iterator, List, NamedTuple

TOP = os.path.dirname(os.path.dirname(os.path.abspath(__file__)))


def text(*parts):
    with open(os.path.join(TOP, *parts), encoding="utf-8") as file:
        return file.read()


def version():
    """The one version of all that is built here."""
    return text("packaging", "version").strip()


def abi():
    """The number of the library's interface, as its header has it."""
    return re.search(r"^#define ECC200_ABI (\d+)", text("library", "ecc200.h"), re.M)[1]


def sample_abi():
    """The same of the sampler's library."""
    return re.search(r"^#define ECC200_SAMPLE_ABI (\d+)", text("sampler", "ecc200_sample.h"), re.M)[1]


def last_change():
    """When the tree was last worked on, in seconds, so that the same tree gives the same packages and archives: the
    time of its last commit, or without a repository that of CHANGELOG.md."""
    known = subprocess.run(["git", "-C", TOP, "log", "-1", "--format=%ct"], stdout=subprocess.PIPE,
                           stderr=subprocess.DEVNULL, text=True)
    return int(known.stdout.strip() or os.path.getmtime(os.path.join(TOP, "CHANGELOG.md")))


def numbers():
    """What is filled in by name."""
    return {"VERSION": version(), "ABI": abi(), "SAMPLE_ABI": sample_abi()}


def filled(words, values):
    """A text with each @NAME@ replaced that has a value."""
    return re.sub(r"@(\w+)@", lambda found: values.get(found[1], found[0]), words)


class Part(NamedTuple):
    """A line of files.txt."""
    package: str
    source: str  # a path below the top, or the target of a link
    place: str   # a path below one of the folders
    is_link: bool


def parts() -> Iterator[Part]:
    """The lines of files.txt, each folder as the files in it."""
    lines = "".join(line for line in text("packaging", "files.txt").splitlines(keepends=True)
                    if not line.startswith("#"))
    for line in filled(lines, numbers()).splitlines():
        if not line.strip():
            continue
        package, *words, place = line.split()
        if words[0] == "->":
            yield Part(package, words[1], place, True)
            continue
        source = words[0]
        for file in files_below(source) if source.endswith("/") else [source]:
            ending = os.path.basename(file) if place.endswith("/") else ""
            ending = file[len(source):] if source.endswith("/") else ending
            yield Part(package, file, (place + ending).removesuffix(".in"), False)


def files_below(folder) -> List[str]:
    """The files of a folder, without what runs leave there."""
    found = []
    for at, folders, names in os.walk(os.path.join(TOP, folder)):
        folders[:] = sorted(it for it in folders if it not in ("__pycache__", "out"))
        found += [os.path.relpath(os.path.join(at, name), TOP) for name in sorted(names) if not name.endswith(".pyc")]
    return found


def packages() -> List[str]:
    return list(dict.fromkeys(part.package for part in parts()))


def debian_packages() -> List[str]:
    """Those that Debian has too: there the loader finds libraries by itself, and the page isn't packed."""
    return [it for it in packages() if it != "page" and not it.endswith("beside")]


# A link of Markdown, whose text may have brackets of its own, or a picture.
LINK = re.compile(r"\[((?:[^][]|\[[^]]*\])*)\]\(([^()\s]+)\)|(?<=<img src=\")([^\"]+)(?=\")")


def relinked(source, path, places):
    """A document as it reads at this path: its links lead to where, by `places`, the sources lie that are installed;
    of others they name the path among the sources."""
    def link(found):
        words, target = found[1], found[2] or found[3]
        if target.startswith("#") or ":" in target:
            return found[0]
        name, anchor = re.match(r"([^#]*)(.*)", target).groups()
        name = os.path.normpath(os.path.join(os.path.dirname(source), name))
        if name in places:
            target = os.path.relpath(places[name], os.path.dirname(path)) + anchor
            return f"[{words}]({target})" if found[2] else target
        return f"{words} ({name} of the sources)"

    return LINK.sub(link, text(source))


class Folders:
    """Where the parts go: below a prefix, with folders for libraries and for Python that may lie elsewhere; all
    absolute."""

    def __init__(self, prefix, library="", python=""):
        prefix = os.path.abspath(prefix)
        self.of: Dict[str, str] = {name: os.path.join(prefix, name) for name in ("bin", "include", "share")}
        self.of["lib"] = os.path.join(prefix, library or "lib")
        self.of["python"] = os.path.join(prefix, python or "share/ecc200/python")
        self.prefix = prefix

    def path(self, place):
        first, rest = place.split("/", 1)
        return os.path.join(self.of[first], rest)

    def places(self, some):
        """Where the sources of some parts lie; of those that go to several places, the first."""
        placed: Dict[str, str] = {}
        for part in some:
            if not part.is_link:
                placed.setdefault(part.source, self.path(part.place))
        return placed

    def values(self):
        """What is filled into files that end in .in: folders below the prefix by way of it, as pkg-config moves
        them."""
        def below(folder):
            return re.sub(f"^{re.escape(self.prefix)}(?=/)", "${prefix}", folder) if self.prefix != "/" else folder

        def between(folder, start):
            return os.path.relpath(self.of[folder], self.of[start])

        return {**numbers(), "PREFIX": self.prefix, "LIBDIR": below(self.of["lib"]),
                "INCLUDEDIR": below(self.of["include"]),
                "INCLUDE_FROM_LIB": between("include", "lib"), "LIB_FROM_BIN": between("lib", "bin"),
                "LIB_FROM_PYTHON": os.path.join("..", between("lib", "python")),
                "PYTHON_FROM_BIN": between("python", "bin")}
