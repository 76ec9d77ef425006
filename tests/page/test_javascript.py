"""The module for programs in JavaScript, in Node.js: what it reads and writes, against the program; its types; and
where it looks for the members of structs, against a compiler of C."""
import importlib
import json
import os
import pathlib
import shutil
import sys

from tests.page.javascript import TYPES, uses
from tests.page.stage import count, on
from tests.support import commands, needs, package, places
from tests.support.case import Case

# Lines of TypeScript over the module: whether each is right.
LINES = [
    ("const grid: { rows: number; modules: Uint8Array } = write('text', { form: 'shorter', shape: 'any' });", True),
    ("const { symbols, isComplete } = read(new ImageData(3, 4), { most: 4, milliseconds: 200 });", True),
    ("read({ data: new Uint8Array(4), width: 2, height: 2 }).unread.map(({ fault }) => fault?.code);", True),
    ("const text: string | null = readGrid(write([FNC1, 65])).text;", True),
    ("try { normal(write('a'), { form: 'ascii' }); } catch (why) { if (why instanceof Refused) why.code + 1; }", True),
    ("const one: number = sizes()[0].rows;", True), ("readGrid(write('a')).elements.length;", False),
    ("const grid = write('(10)A', { gs1: true }), [{ identifier, value }] = readGrid(grid).elements ?? [];"
     " const element: string = identifier + value; void element;", True),
    ("const { quality } = read(new ImageData(3, 4), { quality: true }).symbols[0];"
     " const grade: 'A' | 'B' | 'C' | 'D' | 'F' | undefined = quality?.grades.contrast; void grade;", True),
    ("read(new ImageData(3, 4), { quality: 1 });", False), ("write('(10)A', { gs1: 1 });", False),
    ("const marks = [{ place: 0, number: 26 }];"
     " const grid = write({ items: [65], marks, head: 'programming' }, { form: 'smallest' });"
     " const { charset, head, symbology } = readGrid(grid, { limit: 'auto' });"
     " const named: string = charset + symbology; void named;"
     " if (head !== null && head !== 'programming') head.parts + 1;", True),
    ("const text: string | null = joined([readGrid(write('a'))]).text; void text;", True),
    ("write({ marks: [] });", False), ("write({ items: [65], head: { part: 1 } });", False),
    ("readGrid(write('a'), { limit: 'any' });", False),
    ("const number: string = readGrid(write('a')).marks[0].number;", False),
    ("write('text', { form: 'binary' });", False), ("write(7);", False), ("read('picture.png');", False),
    ("const text: string = readGrid(write('a')).text;", False), ("const rows: string = write('a').rows;", False),
]
CONFIG = {"compilerOptions": {"strict": True, "noEmit": True, "types": [], "target": "es2022", "module": "node16",
                              "moduleResolution": "node16", "lib": ["es2022", "dom"]}, "include": ["*.mts"]}
# Prints of each charset the bytes of all texts of one letter, and of two of which one isn't in ISO 8859-1.
CHARACTERS = """
const { waysOfText } = await import(process.argv[1]), [, , others] = process.argv, told = {};
for (let code = 0; code < 0xffff; code++) {
  const letter = String.fromCharCode(code), texts = code < 256 ? [...others].map((it) => letter + it) : [letter];
  for (const text of code < 0xd800 || code >= 0xe000 ? texts : [])
    for (const { items, marks: [{ number }] } of waysOfText(text))
      (told[number] ??= {})[text] = Buffer.from(items).toString("hex");
}
console.log(JSON.stringify(told));
"""
# Prints what columns are, by their headings.
KNOWN = """
const [, gs1, headings] = process.argv, [texts, given] = process.argv.slice(3).map(JSON.parse);
const { readIdentifiers } = await import(gs1), { readHeadings, knownAs } = await import(headings);
readIdentifiers(texts[0]);
readHeadings(texts[1]);
console.log(JSON.stringify(given.map(knownAs)));
"""
BEYOND = "ĄĦĸПبαאğŋกģẁ€țあ國国한"  # a letter of each charset


def members_of(layout):
    """For each struct its members, as C asks for their places."""
    for name, members in layout.items():
        yield f"_Static_assert(sizeof(ecc200_{name}) == {members.pop('size')}, \"{name}\");"
        for member, at in members.items():
            yield f"_Static_assert(offsetof(ecc200_{name}, {member}) == {at}, \"{name}.{member}\");"


@needs.page
@needs.program
class JavaScript(Case):
    def test_uses(self):
        on.program, on.module, count.rows = places.PROGRAM, places.path("web", "out", "ecc200.mjs"), []
        uses()
        self.rows(count.rows)

    def test_charsets_have_the_characters_that_python_writes(self):
        words = ["node", "--input-type=module", "-e", CHARACTERS, places.path("web", "charsets.mjs"), BEYOND]
        told = json.loads(commands.run(words).output)
        letters = [chr(code) for code in (*range(0xD800), *range(0xE000, 0xFFFF))]
        texts = [*(letter + other for letter in letters[:256] for other in BEYOND), *letters[256:]]
        wanted = {}
        for text in texts:
            for data, ((_, number),) in package.imported().core._writings(text):
                wanted.setdefault(str(number), {})[text] = data.hex()
        self.row("the charsets", sorted(told), sorted(wanted))
        for number, own in wanted.items():
            self.row(f"ECI {number}", sorted({*own.items()} ^ {*told[number].items()})[:5], [])

    def test_headings_are_those_of_the_command(self):
        given = ["gs1_identifiers.txt", "headings.txt"]
        texts = [places.text_of("library", "python", "ecc200", "data", name) for name in given]
        listed = [heading for line in texts[1].splitlines() if not line.startswith("#")
                  for heading in line.partition(": ")[2].split(", ")]
        headings = [*listed, *map(str.upper, listed), " Lot_No.", "-", "--", "(01)", "10", "(10", "05", "7", "",
                    "GTIN 2", *(f" {heading.replace(' ', '_.-')} " for heading in listed)]
        modules = [places.path("web", name) for name in ("gs1.mjs", "headings.mjs")]
        words = ["node", "--input-type=module", "-e", KNOWN, *modules, *map(json.dumps, (texts, headings))]
        tables = importlib.import_module(f"{package.imported().__name__}.tables")
        told = json.loads(commands.run(words).output)
        for heading, meaning in zip(headings, told, strict=True):
            self.row(heading, meaning, tables.known_as(heading))
        self.assertGreater(len([meaning for meaning in told if meaning is None]), 4)

    @needs.programs("tsc")
    def test_types(self):
        folder = pathlib.Path(self.folder())
        shutil.copy(TYPES, folder)
        (folder / "tsconfig.json").write_text(json.dumps(CONFIG))
        names = "import { FNC1, Refused, joined, normal, read, readGrid, sizes, write } from './ecc200.mjs';\n"
        used = "void [FNC1, Refused, joined, normal, read, readGrid, sizes, write];\n"
        for k, (line, _) in enumerate(LINES):
            (folder / f"line{k}.mts").write_text(f"{names}{used}{line}\nexport {{}};\n")
        told = commands.said(["tsc", "-p", str(folder)])[1]
        for k, (line, is_right) in enumerate(LINES):
            self.row(line, f"line{k}.mts(" not in told, is_right)

    def test_members_stand_where_a_compiler_has_them(self):
        script = "import(process.argv[1]).then(({ LAYOUT }) => console.log(JSON.stringify(LAYOUT)))"
        told = commands.run(["node", "-e", script, places.path("web", "layouts.mjs")]).output
        lines = list(members_of(json.loads(told)))
        source = os.path.join(self.folder(), "members.c")
        pathlib.Path(source).write_text("\n".join(["#include <ecc200_sample.h>", "#include <stddef.h>", *lines, ""]))
        words = ["clang", "--target=wasm32-wasi", "-std=c17", "-fsyntax-only", f"-I{places.LIBRARY}",
                 f"-I{places.path('sampler')}", source]
        self.row("the places", commands.said(words), (0, ""))
        self.assertGreater(len(lines), 60)

    def test_a_header_that_changes_is_told(self):
        """Where a struct of the sampler's header changes, tools/callers names the page's module."""
        top = pathlib.Path(self.folder())
        for part in ("library", "web", "sampler", "crates/dm_layout/src", "crates/dm_words/src",
                     "crates/ecc200_calls/src"):
            shutil.copytree(places.path(*part.split("/")), top / part, ignore=shutil.ignore_patterns("out"))
        check = [sys.executable, places.path("tools", "callers"), "--check", "--top", str(top)]
        self.row("as it is", commands.said(check)[0], 0)
        header = top / "sampler" / "ecc200_sample.h"
        text = header.read_text("utf-8")
        for old, new in (("    uint16_t rows, columns; ", "    uint16_t columns, rows; "),
                         ("#define ECC200_SAMPLE_ABI 1", "#define ECC200_SAMPLE_ABI 2")):
            self.assertEqual(text.count(old), 1, old)
            header.write_text(text.replace(old, new), "utf-8")
            self.row(new, "web/layouts.mjs isn't what" in commands.said(check)[1], True)
