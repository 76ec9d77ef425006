"""The library's assembler texts in compiled/: what the proved source makes, byte for byte, and nothing of a machine."""
import os
import re
import shutil

from tests.library.systems import targets
from tests.support import commands, needs, places
from tests.support.case import Case

COMPILED = places.path("compiled")
TRIPLES = ["x86_64-unknown-linux-gnu", *targets.TARGETS]


def texts_in(folder):
    """The text of each system in a folder, by its triple, as bytes."""
    found = {}
    for triple in TRIPLES:
        found[triple] = places.read(folder, f"{triple}.s")
    return found


def unlike(folder, made):
    """The systems whose text in a folder isn't, byte for byte, the one in another."""
    others = texts_in(made)
    return [triple for triple, text in texts_in(folder).items() if text != others[triple]]


class Compiled(Case):
    def test_there_is_one_for_each_system(self):
        self.assertEqual(sorted(os.listdir(COMPILED)), sorted(f"{it}.s" for it in TRIPLES))
        self.assertIn("compiled/*.s linguist-generated", places.text_of(".gitattributes"))

    def test_each_says_of_what_it_is_made_and_nothing_of_the_machine(self):
        version = re.escape(places.text_of("packaging", "version").strip())
        for triple, text in texts_in(COMPILED).items():
            first = text.partition(b"\n")[0].decode()
            self.assertRegex(first, rf"^/\* The library ecc200 {version}, .* with the toolchain of logic \w+\.", triple)
            self.row(triple, re.findall(rb"\n\t\.(?:file|ident)\b|/(?:home|root|tmp|work)/", text), [])

    def test_a_byte_is_enough(self):
        made = os.path.join(self.folder(), "made")
        shutil.copytree(COMPILED, made)
        self.row("the same", unlike(COMPILED, made), [])
        for triple, text in texts_in(COMPILED).items():
            middle = len(text) // 2
            for other in (text[:middle] + bytes([text[middle] ^ 1]) + text[middle + 1:], text[:-1],
                          text.replace(b"\n", b"\r\n", 1)):
                places.wrote(other, made, f"{triple}.s")
                self.row(triple, unlike(COMPILED, made), [triple])
            shutil.copy(os.path.join(COMPILED, f"{triple}.s"), made)


@needs.toolchain
class Made(Case):
    def test_each_is_what_the_proved_source_makes(self):
        status, told = commands.said([places.path("library", "build"), "--texts"], timeout=7200)
        self.assertEqual(status, 0, told)
        told = unlike(COMPILED, places.path("library", "out", "texts"))
        self.row("not what was made, so that `make compiled` is to be run", told, [])
