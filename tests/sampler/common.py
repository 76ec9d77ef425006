"""What the cases of the sampler share: it is built once as it is, and once with the sanitisers; and searches by its
shared library, called from C, that may do more work than usual, or less."""
import json
import os

from tests.sampler.pictures import CAREFUL, pgm, record, run
from tests.support import commands, needs, places
from tests.support.case import Rows

HEADERS = {"png.h": "libpng-dev", "jpeglib.h": "libjpeg-dev"}


def missing():
    """What isn't installed without which nothing can be built."""
    test = ["cc", "-fsyntax-only", "-include", "stdio.h", "-x", "c", "-"]
    return needs.lacking("cc") or ", ".join(f"{package} isn't installed" for header, package in HEADERS.items()
                                            if run([*test[:4], "-include", header, *test[4:]]).returncode)


class SamplerCase(Rows):
    sources = places.path("sampler")
    made = None  # a folder in which the sampler lies already that is to be tested

    @classmethod
    def setUpClass(cls):
        cls.lacking = missing()
        if cls.lacking:
            return
        cls.room, cls.builds = cls.folder_of_class(), []
        cls.plain = cls.made or os.path.join(cls.room, "plain")
        cls.sampler = os.path.join(cls.made, "dm_sample") if cls.made else cls.built(cls.plain, "-Werror")
        cls.sanitised = None

    @classmethod
    def built(cls, folder, *flags, **more):
        """Builds the sampler with these flags of the compiler, and with more variables."""
        os.makedirs(folder)
        env = commands.environment(ECC200_FOLDER=places.BUILT, **more)
        done = commands.run([os.path.join(cls.sources, "build"), folder, *flags], env=env, timeout=600)
        cls.builds.append((f"sampler/build {' '.join(flags)}", (done.status, done.errors.decode()), (0, "")))
        return os.path.join(folder, "dm_sample")

    @property
    def careful(self):
        """The sampler with the sanitisers, built when it is first asked for; its library shows all that it has."""
        kind = type(self)
        kind.sanitised = kind.sanitised or kind.built(os.path.join(kind.room, "careful"), "-g1", "-O1", *CAREFUL,
                                                      CFLAGS="-fvisibility=default")
        return kind.sanitised

    def careful_run(self, source, *words):
        """What a C file of these tests does that is compiled over the library with the sanitisers."""
        made, careful = os.path.join(self.room, f"{source}.out"), os.path.dirname(self.careful)
        self.compiles(source, made, os.path.join(careful, "libecc200_sample.so"), places.SHARED, "-lm",
                      compiler=("cc", "-std=c17", "-D_POSIX_C_SOURCE=200809L", *CAREFUL))
        return run([made, *words], env=paths_for(self.folder(), careful, places.BUILT))

    def reads(self, name, picture, grid, *words):
        """That the sampler reads this symbol in a picture, which is rows of levels, or what a file has."""
        done = run([self.sampler, *words], picture if isinstance(picture, bytes) else pgm(picture))
        self.row(name, (done.returncode, done.stdout.decode()), (0, record(grid)))

    def told(self, picture, *words):
        """What the sampler tells of each symbol in a picture, which is rows of levels, or what a file has."""
        done = run([self.sampler, "--json", *words], picture if isinstance(picture, bytes) else pgm(picture))
        return [json.loads(line) for line in done.stdout.splitlines()]

    def first(self, picture, *words):
        """What it tells of the first one; nothing if there is none."""
        return next(iter(self.told(picture, "--time=30000", *words)), {})

    def says(self, name, picture, message, *words):
        """That the first symbol in a picture, if there is one, has this message."""
        self.row(name, next(iter(self.told(picture, *words)), {}).get("message"), message)

    def compiles(self, source, made, *words, compiler=("cc", "-std=c11")):
        """That a C file of these tests compiles without a warning."""
        done = run([*compiler, "-Wall", "-Wextra", "-Werror", f"-I{self.sources}", f"-I{places.LIBRARY}",
                    places.path("tests", "sampler", source), "-o", made, *words])
        self.row(f"{source} compiles", done.stderr.decode(), "")

    def setUp(self):
        super().setUp()
        self.skip_for(self.lacking)


def paths_for(folder, built, base):
    """The libraries under the names by which they are loaded."""
    for name, where in (("libecc200_sample.so", built), ("libecc200.so", base)):
        told = run(["readelf", "-d", os.path.join(where, name)]).stdout.decode()
        link = os.path.join(folder, told.split("soname: [")[1].split("]")[0])
        if not os.path.exists(link):
            os.symlink(os.path.join(where, name), link)
    return {**os.environ, "LD_LIBRARY_PATH": folder}


class Searches:
    """A program over the library of a case, or over the one in another folder, compiled with these flags."""

    def __init__(self, case, built=None, *flags):
        folder, built = case.folder(), built or case.plain
        self.case, self.made = case, os.path.join(folder, "searched.out")
        self.env = paths_for(folder, built, places.BUILT)
        case.compiles("searched.c", self.made, os.path.join(built, "libecc200_sample.so"), places.SHARED,
                      compiler=("cc", "-std=c11", *flags))

    def of(self, rows, room, percent=100):
        """What the symbols of a picture say, at most so many, with so many percent of the work, and how it ended."""
        done = run([self.made, str(room), str(percent)], pgm(rows), env=self.env)
        self.case.row("searched.c", (done.returncode, done.stderr), (0, b""))
        *found, ended = done.stdout.decode().splitlines() or [""]
        return found, ended
