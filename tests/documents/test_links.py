"""Compares the other documents with the tree: each link leads to a file and a heading that are there, and so are the
files that they name; names of functions and types in the pages about the tree are words of it; the passages of code in
docs/NOTATION.md stand in the files to which it links; docs/MAP.md has a row for each crate; docs/GATE.md counts the
edits and tests that there are; and pages are as short as they may be. In these, and in all that people write, lines
have at most 120 columns."""
import functools
import glob
import os
import re

from tests.documents.pages import items
from tests.documents.tree import QUOTED, crates, text
from tests.support import places
from tests.support.case import Case


# What stands in code marks and is the path of a file.
PATH = re.compile(r"(?:crates|tests|tools|docs|library|packaging|bench|sampler|web|scripts|demo)/[\w./-]+"
                  r"|[\w/]+\.(?:rt|antt|mjs)")
# How the files end that people write, besides documents and scripts: code, proofs, pages, manual pages, settings.
WRITTEN = (".py", ".c", ".h", ".cpp", ".rs", ".java", ".rt", ".antt", ".mjs", ".mts", ".cjs", ".js", ".css", ".html",
           ".toml", ".in", ".1", ".3", "CMakeLists.txt", ".editorconfig", "command_line")


# How many words a page has at most, and all pages together.
MOST_WORDS, MOST_WORDS_IN_ALL = 2500, 31000


def documents():
    top = [places.path(name) for name in ("README.md", "CONTRIBUTING.md", "CHANGELOG.md", "SECURITY.md")]
    return [*top, *(path for folder in ("docs", "crates/*") for path in sorted(glob.glob(places.path(folder, "*.md"))))]


def anchors(path):
    heads = re.findall(r"^#+ (.*)$", text(path), re.M)
    return {re.sub(r"[^\w\- ]", "", head.lower()).replace(" ", "-") for head in heads}


def checks_of_links():
    for path in documents():
        for target in re.findall(r"\]\(([^)\s]+)\)", text(path)) + re.findall(r'<img src="([^"]+)"', text(path)):
            file, _, anchor = target.partition("#")
            if "://" in target:
                continue
            leads_to = os.path.normpath(os.path.join(os.path.dirname(path), file)) if file else path
            is_there = os.path.exists(leads_to) and (not anchor or anchor in anchors(leads_to))
            yield f"{os.path.basename(path)}, link {target}", is_there


@functools.cache
def file_names():
    """The names of all files of the crates, without their folders."""
    folders = [path for inside in ("src", "specs", "proofs") for path in glob.glob(places.path("crates", "*", inside))]
    return {name for folder in folders for _, _, names in os.walk(folder) for name in names}


def is_file(name):
    """Whether a name is that of a file or a folder, in the tree or within the sources or the specs of some crate."""
    folders = [places.path(folder) for folder in ("", "scripts", "crates", "docs", "library", "web", "packaging")]
    within = [places.path("crates", one, it) for one in crates() for it in ("", "src", "specs", "proofs", "src/c40")]
    return name in file_names() or any(os.path.exists(os.path.join(folder, name)) for folder in folders + within)


def is_written(path):
    """Whether a file is one of those that people write, by its name or its first line: neither data nor a picture."""
    if os.path.basename(path) in ("Makefile", "rules", "files.txt", "gs1_identifiers.txt", "crates.txt"):
        return True
    if path.endswith(WRITTEN):
        return True
    with open(path, "rb") as file:
        return file.read(2) == b"#!"


def written():
    """The files that people write, but for the edits, whose texts are of one line each."""
    for at, folders, names in os.walk(places.TOP):
        folders[:] = sorted(it for it in folders if it not in (".git", "out", "__pycache__"))
        yield from (os.path.join(at, name) for name in sorted(names) if is_written(os.path.join(at, name)))


def checks_of_width():
    """Lines have at most 120 columns, but for tables and blocks of code in documents; README has at most 110 lines."""
    for path in [*documents(), *written()]:
        plain = re.sub(r"^```.*?^```$", "", text(path), flags=re.M | re.S) if path.endswith(".md") else text(path)
        wide = [it for it in plain.splitlines() if len(it) > 120 and not (path.endswith(".md") and it.startswith("|"))]
        yield f"{os.path.relpath(path, places.TOP)}, lines of more than 120 columns: {wide[:1]}", not wide
    yield "README.md, at most 110 lines", len(text(places.path("README.md")).splitlines()) <= 110


def checks_of_lengths():
    counts = {path: len(text(path).split()) for path in [*documents(), places.path("library", "python", "README.md")]}
    for path, count in counts.items():
        yield f"{os.path.relpath(path, places.TOP)}, {count} words", count <= MOST_WORDS
    yield f"all pages, {sum(counts.values())} words", sum(counts.values()) <= MOST_WORDS_IN_ALL
    for choice in items(places.path("docs", "DECISIONS.md")):
        yield f"docs/DECISIONS.md, at most 60 words: {choice:.40}", len(choice.split()) <= 60


def checks_of_files():
    for path in documents():
        for name in set(QUOTED.findall(re.sub(r"```.*?```", "", text(path), flags=re.S))):
            if PATH.fullmatch(name) and "NAME" not in name and "/out" not in name:
                yield f"{os.path.basename(path)}, file {name}", is_file(name)


def checks_of_names():
    """Each name with an underscore, of two parts, or of a type, in the pages about the tree, is a word of the tree."""
    patterns = ("crates/*/src/**/*.rt", "crates/*/specs/**/*.antt", "crates/*/proofs/**/*.antt", "library/*.*",
                "library/python/**/*.py", "web/*.mjs")
    found = [it for pattern in patterns for it in glob.glob(places.path(pattern), recursive=True) if os.path.isfile(it)]
    words = set().union(*(re.findall(r"\w+", text(path)) for path in found))
    pages = [places.path("docs", f"{name}.md") for name in ("DECISIONS", "MAP", "LIBRARY", "NOTATION", "GATE")]
    for page in [*pages, *glob.glob(places.path("crates", "*", "README.md"))]:
        for name in sorted(set(QUOTED.findall(re.sub(r"```.*?```", "", text(page), flags=re.S)))):
            if re.fullmatch(r"\w+(?:::\w+)+|[a-z]\w*_\w+|[A-Z][a-z]\w+", name) and not name.startswith("rattle_"):
                is_there = is_file(name) or all(part in words for part in name.split("::"))
                yield f"{os.path.relpath(page, places.TOP)}, name {name}", is_there
    for picture in re.findall(r"```text\n(.*?)```", text(places.path("docs", "MAP.md")), re.S):
        for name in sorted(set(re.findall(r"\b[a-z]\w*_\w+", picture))):
            yield f"docs/MAP.md, name {name} of a picture", name in words


def checks_of_passages():
    """Each block of code in docs/NOTATION.md stands, line by line, in a file that the sentence before it links to."""
    page = text(places.path("docs", "NOTATION.md"))
    for before, block in re.findall(r"(\]\([^)]*\)[^`]*?(?:`[^`]+`[^`]*?)*?)```text\n(.*?)```", page, re.S):
        file = places.path("docs", re.findall(r"\]\(([^)]*)\)", before)[-1])
        for line in block.splitlines():
            yield f"docs/NOTATION.md, {line.strip()}", line.strip() in [it.strip() for it in text(file).splitlines()]


def checks_of_crates():
    """docs/MAP.md has a row for each crate of crates.txt, of at most 160 characters, and each crate a short page."""
    page = text(places.path("docs", "MAP.md"))
    rows = {found[1]: found[0] for found in re.finditer(r"^\| `(\w+)` \|.*$", page, re.M)}
    yield "docs/MAP.md, a row for each crate", sorted(rows) == sorted(crates())
    for crate, row in rows.items():
        yield f"docs/MAP.md, at most 160 characters of {crate}", len(row) <= 160
        page = places.path("crates", crate, "README.md")
        yield f"crates/{crate}/README.md, at most 60 lines", os.path.exists(page) and len(text(page).splitlines()) <= 60


def checks_of_counts():
    """How many wrong bodies and tests docs/GATE.md counts in each crate, and which scripts it names."""
    page = text(places.path("docs", "GATE.md"))
    rows = re.findall(r"^\| `(\w+)` \| [\d.]* ?\| (\d*)(?: in [\d.]+)? ?\| (\d*)(?: in [\d.]+)? ?\|", page, re.M)
    yield "docs/GATE.md, a row for each crate", sorted(crate for crate, _, _ in rows) == sorted(crates())
    for crate, tests, edits in rows:
        sources_of = glob.glob(places.path("crates", crate, "src", "**", "*.rt"), recursive=True)
        tests_there = sum(len(re.findall(r"#\[test\]", text(path))) for path in sources_of)
        edits_there = len(glob.glob(places.path("crates", crate, "must-fail", "*.edit")))
        for kind, counted, number in (("tests", tests, tests_there), ("edits", edits, edits_there)):
            yield f"docs/GATE.md, {crate}, the number of its {kind}, {number}", int(counted or 0) == number
    for subject in subjects():
        yield f"docs/GATE.md, what tests/{subject} checks and costs", page.count(f"`tests/{subject}`") > 1


def subjects():
    found = glob.glob(places.path("tests", "*", "test_*.py"))
    return sorted({os.path.basename(os.path.dirname(path)) for path in found})


class Documents(Case):
    def test_links_lead_to_files_and_headings(self):
        self.there(checks_of_links())

    def test_lines_have_at_most_120_columns(self):
        self.there(checks_of_width())

    def test_pages_are_short(self):
        self.there(checks_of_lengths())

    def test_files_that_are_named_are_there(self):
        self.there(checks_of_files())

    def test_names_of_functions_and_types_are_words_of_the_tree(self):
        self.there(checks_of_names())

    def test_passages_of_code_stand_in_their_files(self):
        self.there(checks_of_passages())

    def test_the_row_of_each_crate(self):
        self.there(checks_of_crates())

    def test_counts_of_edits_and_tests(self):
        self.there(checks_of_counts())
