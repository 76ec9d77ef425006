"""The sampler for other systems, each by its emulator: its library from C, on ARM the program with photographs."""
import os
import unittest

from tests.library.systems import Emulated, lacking, targets
from tests.sampler.pictures import grid_of, pgm, pixels_of
from tests.sampler.reading import the_set
from tests.support import commands, needs, places
from tests.support.case import Rows

ARM = "aarch64-unknown-linux-gnu"


@needs.program
@needs.library
@unittest.skipIf(places.OTHER_LIBRARY, "another library is taken")
class Targets(Rows):
    def built(self, triple):
        """Builds the sampler for a target, and gives the folders with its library and with ecc200's."""
        for words in (["library/build", "--target", triple], ["sampler/build", "--target", triple]):
            status, said = commands.said([places.path(*words[0].split("/")), *words[1:]])
            self.assertEqual(status, 0, said)
        return [places.path(part, "out", triple) for part in ("sampler", "library")]

    def test_the_library_from_c(self):
        picture = pgm(pixels_of(grid_of("FROM C")))
        for triple, target in targets.TARGETS.items():
            with self.subTest(triple):
                self.skip_for(lacking(target))
                self.from_c(target, picture)

    def from_c(self, target, picture):
        folder, folders = self.folder(), self.built(target.triple)
        system = Emulated(target, folder)
        self.addCleanup(system.end)
        linked = [os.path.join(at, f"lib{name}.{'dll.a' if target.is_windows else 'so'}")
                  for at, name in zip(folders, ("ecc200_sample", "ecc200"))]
        made = os.path.join(folder, f"calls{system.ending}")
        words = [system.cc, "-std=c11", "-Wall", "-Wextra", "-Werror", f"-I{places.path('sampler')}",
                 f"-I{places.LIBRARY}", places.path("tests", "sampler", "calls.c"), *linked, "-o", made]
        status, said = commands.said(words)
        self.assertEqual(status, 0, said)
        loaded = system.beside(folder, *folders)
        self.row(f"on {target.triple}", system.said([made, "x"], given=picture, env=loaded), (0, "14 14 FROM C 12.0"))

    def test_the_set_on_arm(self):
        target = targets.TARGETS[ARM]
        self.skip_for(lacking(target))
        program = os.path.join(self.built(ARM)[0], "dm_sample")
        self.skip_for(not os.path.isfile(program) and "libpng-dev:arm64 or libjpeg-dev:arm64 isn't installed")
        the_set(self, [*target.emulator, program])
