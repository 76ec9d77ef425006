"""What `packaging/install` says where it can't install, and that all is found that it has installed in a home."""
import os
import re

from tests.library.library import lacking_rust
from tests.support import commands, needs, places
from tests.support.case import Case

INSTALL = places.path("packaging", "install")
PACKAGES = ["libecc200-[0-9]*", "libecc200-dev", "python3-ecc200", "beside"]
WARNINGS = ["-Wall", "-Wextra", "-Werror"]


@needs.library
class Reach(Case):
    def setUp(self):
        self.skip_for(places.OTHER_LIBRARY and "another library is taken")
        self.home = self.folder()
        self.prefix = os.path.join(self.home, ".local")
        # (rustup looks for its own below HOME)
        rust = {"RUSTUP_HOME": os.environ.get("RUSTUP_HOME", os.path.expanduser("~/.rustup"))}
        self.env = commands.environment(HOME=self.home, PREFIX=self.prefix, **rust)

    def test_what_is_in_the_way_is_named_in_a_line_and_nothing_is_installed(self):
        folder, file = os.path.join(self.prefix, "lib", "libecc200.a"), os.path.join(self.home, "file")
        os.makedirs(folder)
        open(file, "w").close()
        for prefix, why in ((self.prefix, f"{folder} is in the way, a folder"),
                            (file, f"{file} is in the way, which is no folder"),
                            ("/proc/none", "/proc/none: No such file or directory")):
            self.row(prefix, commands.said([INSTALL, *PACKAGES], env={**self.env, "PREFIX": prefix}),
                     (1, f"packaging/install: {why}\n"))
        self.row("what is there", os.listdir(os.path.join(self.prefix, "lib")), ["libecc200.a"])

    def test_a_home_has_all_that_is_used(self):
        status, told = commands.said(["make", "-C", places.TOP, "install-library"], env=self.env)
        self.assertEqual(status, 0, told)
        lines = re.findall(r"^    (export .*)$", told, re.M)
        self.row("what has to be set", [it.split("=")[0] for it in lines],
                 [f"export {it}" for it in ("PATH", "PKG_CONFIG_PATH", "LD_LIBRARY_PATH")])

        def done(*words, settings=()):
            return commands.said(["sh", "-c", "\n".join(["set -e", "cd /", *settings, *words])], env=self.env)
        self.row("import ecc200", done("/usr/bin/python3 -c 'import ecc200; print(bool(ecc200.write(b\"1\")))'"),
                 (0, "True\n"))
        examples, made = os.path.join(self.prefix, "share", "doc", "libecc200-dev", "examples"), f"{self.home}/a.out"
        kinds = {"c": f"cc -std=c11 {' '.join(WARNINGS)} {examples}/example.c $(pkg-config --cflags --libs ecc200)"}
        if not needs.lacking("c++"):
            kinds["cpp"] = f"c++ -std=c++17 {' '.join(WARNINGS)} {examples}/example.cpp " \
                           "$(pkg-config --cflags --libs ecc200)"
        if not lacking_rust():
            kinds["rs"] = f"rustc --edition 2021 -D warnings {examples}/example.rs -l ecc200 -L {self.prefix}/lib"
        for kind, words in kinds.items():
            status, told = done("ecc200 --version", f"{words} -o {made}", made, settings=lines)
            self.row(f"the example in {kind}", (status, "Mitsubadoor: " in told), (0, True))
        status, told = done(f"/usr/bin/python3 {examples}/example.py")
        self.row("the example in py", (status, "Mitsubadoor: " in told), (0, True))
        self.row("uninstalled", commands.said([INSTALL, "--uninstall", *PACKAGES], env=self.env)[0], 0)
        self.row("what is left", [name for _, _, names in os.walk(self.prefix) for name in names], [])
