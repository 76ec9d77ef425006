"""`make install`, with a blank in the prefix, where nothing can be proved or compiled, for others; `make uninstall`."""
import glob
import os
import re
import stat

from tests.packages.common import GRID, TOP, VERSION, Packed, broken_links, bytecode, read, run, wrote

LIBRARIES = "lib/x86_64-linux-gnu"
# Compiles a module to bytecode that Python takes for another's, and doesn't compare with its source.
UNCHECKED = """
import importlib.util, py_compile, sys
to = importlib.util.cache_from_source(sys.argv[2])
py_compile.compile(sys.argv[1], to, invalidation_mode=py_compile.PycInvalidationMode.UNCHECKED_HASH)
"""


class Installed(Packed):
    @classmethod
    def setUpClass(cls):
        super().setUpClass()
        cls.before, folder = bytecode(TOP), cls.folder_of_class()
        os.chmod(folder, 0o755)
        cls.prefix, cls.clean = os.path.join(folder, "a prefix"), ["env", "-i", f"PATH={cls.path}"]
        status, told = cls.made("install", cls.prefix)
        if status:
            raise AssertionError(told)

    @classmethod
    def made(cls, target, prefix, *settings):
        """What make says with neither compiler nor toolchain."""
        return run([*cls.clean, "make", "-C", TOP, target, f"PREFIX={prefix}", *(settings or [f"LIBDIR={LIBRARIES}"])])

    def program(self, name):
        return os.path.join(self.prefix, "bin", name)

    def test_what_it_gives(self):
        self.row("the program", run([*self.clean, self.program("dm_tool"), "write"], given=b"123456\n"), (0, GRID))
        self.is_found_by_cmake("the installed library", self.room(), self.prefix)
        self.is_found_by_pkg_config("the installed library", self.room(), os.path.join(self.prefix, LIBRARIES))
        self.shows_its_options(self.prefix)
        self.row("links in its documents that lead to nothing", broken_links(self.prefix), [])

    def test_another_user(self):
        """Runs the programs and reads each file."""
        self.skip_for(os.geteuid() and "only root can run something as another user")
        files = [os.path.join(at, name) for at, _, names in os.walk(self.prefix) for name in names]
        self.row("files that others can't read", [it for it in files if not os.stat(it).st_mode & stat.S_IROTH], [])
        for words, wanted in ((["dm_tool", "write"], GRID), (["ecc200", "--version"], f"ecc200 {VERSION}\n")):
            done = run([self.program(words[0]), *words[1:]], given=b"123456\n", user=65534, group=65534,
                       extra_groups=[], env={}, cwd="/")
            self.row(f"{words}", done, (0, wanted))

    def test_bytecode(self):
        """The installed modules are compiled, for those who can't write there; what is left of others is replaced."""
        place = os.path.join(self.prefix, "share", "ecc200", "python", "ecc200")
        modules = sorted(name.removesuffix(".py") for name in os.listdir(place) if name.endswith(".py"))
        self.row("modules compiled", [os.path.basename(it).split(".")[0] for it in bytecode(place)], modules)
        stale = wrote("raise SystemExit('stale')\n", os.path.dirname(place), "stale.py")
        for level in (0, 1):
            words = ["/usr/bin/python3", *["-O"] * level, "-c", UNCHECKED, stale, os.path.join(place, "core.py")]
            self.works(f"stale bytecode, optimised {level}", words)
        os.remove(stale)
        command = [self.program("ecc200"), "--version"]
        self.row("the command with stale bytecode", run(command, env={}), (1, "stale\n"))
        self.row("make install once more", self.made("install", self.prefix)[0], 0)
        for name, env in (("", {}), (", optimised", {"PYTHONOPTIMIZE": "1"})):
            self.row(f"the command over new bytecode{name}", run(command, env=env), (0, f"ecc200 {VERSION}\n"))
        self.holds("bytecode that the command has written", any(".opt-1." in it for it in bytecode(place)))

    def test_uninstall(self):
        prefix = os.path.join(self.room(), "another prefix")
        for target in ("install", "uninstall"):
            self.row(f"make {target}", self.made(target, prefix)[0], 0)
        left = [os.path.relpath(it, prefix) for it in glob.glob(f"{glob.escape(prefix)}/**/*", recursive=True)]
        self.row("what it leaves", sorted(left), ["bin", "include", "lib", LIBRARIES, "share"])
        self.row("bytecode beside the sources", bytecode(TOP), self.before)

    def test_a_relative_prefix_and_a_stage(self):
        staged = self.room()
        self.row("make install", self.made("install", "rel", f"DESTDIR={staged}")[0], 0)
        text = "".join(read(it).decode() for it in glob.glob(f"{staged}/**/ecc200.pc", recursive=True))
        self.row("the prefix in its .pc", re.findall("^prefix=.*", text, re.M), [f"prefix={os.path.join(TOP, 'rel')}"])
        self.holds("nothing of it here", not os.path.exists(os.path.join(TOP, "rel")))
