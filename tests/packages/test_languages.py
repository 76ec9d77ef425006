"""What cargo, npm and pip make of a clone, without network and the toolchain; and what shells complete."""
import json
import os
import re
import shutil
import subprocess

from tests.packages.common import VERSION
from tests.support import commands, needs, places
from tests.support.case import Case

# What the example for Rust says of its own module, which a program over the crate has no need of.
OWN = '#[path = "../ecc200.rs"]\nmod ecc200;\n'
MANIFEST = """[package]
name = "user"
version = "0.1.0"
edition = "2021"
[dependencies]
ecc200 = { path = "../clone" }
"""
LABEL = "(01)09521234543213(10)ABC"
# Lines of the command as far as they are typed, and what becomes of their last words.
TYPED = [("ecc200 chec", "check"), ("ecc200 write --sha", "--shape"), ("ecc200 write --shape ext", "extended"),
         ("ecc200 read --any", "--any-way")]
SHELLS = {
    "bash": 'source "$0/ecc200.bash"; COMP_WORDS=($1); COMP_CWORD=$((${#COMP_WORDS[@]} - 1)); _ecc200; '
            'echo "${COMPREPLY[@]}"',
    "fish": 'source $argv[1]/ecc200.fish; string split -f 1 \\t -- (complete -C $argv[2])',
    # (a shell at a terminal, in which the line is completed, and then printed)
    "zsh": """zmodload zsh/zpty; zpty shell 'zsh -f -i'
zpty -w shell "PS1=; bindkey -e; fpath=($0 \\$fpath); autoload -U compinit; compinit -u -D"
zpty -w -n shell "$1"$'\\t\\C-aprint -r "told: \\C-e"\\n'
zpty -r shell told $'*\\ntold: *\\n*' && print -r -- ${${${told##*$'\\n'told: }%%$'\\r'*}##* }""",
}


class Clone(Case):
    @classmethod
    def setUpClass(cls):
        cls.room = cls.folder_of_class()
        subprocess.run(["git", "clone", "--quiet", places.TOP, os.path.join(cls.room, "clone")], check=True)
        path = os.pathsep.join(it for it in os.environ["PATH"].split(os.pathsep) if not os.path.exists(f"{it}/rt"))
        cls.env = commands.environment(PATH=path, CARGO_NET_OFFLINE="true", npm_config_offline="true",
                                       npm_config_cache=os.path.join(cls.room, "npm"))

    @classmethod
    def said(cls, words, *folder):
        return commands.said(words, cwd=os.path.join(cls.room, *folder), env=cls.env)


@needs.programs("git", "cargo", "cc")
class Crate(Clone):
    def test_a_program_depends_on_it(self):
        example = places.text_of("library", "examples", "example.rs")
        self.assertIn(OWN, example)
        os.makedirs(os.path.join(self.room, "user", "src"))
        for name, text in (("Cargo.toml", MANIFEST), ("src/main.rs", example.replace(OWN, ""))):
            places.wrote(text, self.room, "user", name)
        status, told = self.said(["cargo", "run", "--quiet"], "user")
        self.row("the example over the crate", (status, "Mitsubadoor: 2 codewords corrected" in told), (0, True))

    def test_it_is_packed_with_all_that_it_is_built_of(self):
        status, told = self.said(["cargo", "package"], "clone")
        self.row("packed, and built of that", (status, "warning: unused" in told), (0, False))

    def test_its_version(self):
        self.assertEqual(re.search(r'^version = "(.*)"$', places.text_of("Cargo.toml"), re.M)[1], VERSION)


@needs.programs("git", "cc")
@needs.module("setuptools")
@needs.module("wheel")
@needs.module("PIL")
class Wheel(Clone):
    def test_pip_installs_the_clone(self):
        """Without network, by the system's setuptools, where the library isn't built; with -O1, which is quicker."""
        place = os.path.join(self.room, "place")
        status, told = self.said(["/usr/bin/python3", "-m", "venv", "--system-site-packages", place])
        self.skip_for(status and "venv isn't installed (Debian package python3-venv)")
        alone = ["unshare", "-n"] if os.geteuid() == 0 and needs.has("unshare") else []
        words = ["env", "CFLAGS=-O1", f"{place}/bin/pip", "install", "--no-index", "--no-build-isolation", "."]
        status, told = self.said([*alone, *words], "clone")
        self.assertEqual(status, 0, told)
        told = self.said([f"{place}/bin/python3", "-c", "import ecc200; print(ecc200.__file__)"])
        self.row("the module", (told[0], told[1].startswith(place)), (0, True))
        self.row("a label", self.said([f"{place}/bin/ecc200", "write", "--gs1", LABEL, "-o", "label.png"])[0], 0)
        self.row("read", self.said([f"{place}/bin/ecc200", "read", "label.png"]), (0, f"{LABEL}\n"))
        self.row("what is left in the clone", self.said(["git", "status", "--short"], "clone"), (0, ""))


@needs.page
@needs.toolchain
@needs.programs("node", "npm")
class Node(Clone):
    @classmethod
    def setUpClass(cls):
        super().setUpClass()
        cls.user = os.path.join(cls.room, "user")
        os.makedirs(cls.user)
        cls.packed = cls.said(["npm", "pack", "--silent", places.path("web", "out")])
        places.wrote(json.dumps({"name": "user", "version": "1.0.0"}), cls.user, "package.json")
        cls.installed = cls.said(["npm", "install", "--silent", f"../ecc200-{VERSION}.tgz"], "user")

    def test_it_is_packed_and_installed(self):
        self.assertEqual((self.packed, self.installed), ((0, f"ecc200-{VERSION}.tgz\n"), (0, "")))

    def test_it_is_imported(self):
        asked = 'import { readGrid, write } from "ecc200"; console.log(readGrid(write("123456")).text)'
        self.row("import", self.said(["node", "--input-type=module", "-e", asked], "user"), (0, "123456\n"))
        asked = 'import("ecc200").then(({ readGrid, write }) => console.log(readGrid(write("1")).text))'
        self.row("import of a program that calls require", self.said(["node", "-e", asked], "user"), (0, "1\n"))

    def test_require_says_why_not(self):
        status, told = self.said(["node", "-e", 'require("ecc200")'], "user")
        self.row("require", (status, "ecc200 is an ES module: import" in told), (1, True))

    @needs.programs("tsc")
    def test_its_types_are_found(self):
        lines = {"right": 'const rows: number = write("a").rows;', "wrong": 'const rows: string = write("a").rows;'}
        for name, line in lines.items():
            places.wrote(f'import {{ write }} from "ecc200";\n{line}\nvoid rows;\n', self.user, f"{name}.mts")
        words = "tsc --strict --noEmit --target es2022 --module node16 --moduleResolution node16 right.mts wrong.mts"
        told = self.said(words.split(), "user")[1].splitlines()
        self.row("what has faults", {line.partition("(")[0] for line in told if line[:1] != " "}, {"wrong.mts"})


class Shells(Case):
    def test_shells_complete_the_command(self):
        folder, asked = places.path("packaging", "completion"), 0
        for shell, script in SHELLS.items():
            if not shutil.which(shell):
                continue
            for typed, wanted in TYPED:
                words = [shell, "-c", script, folder, typed]
                self.row(f"{shell}, {typed}", commands.said(words, timeout=60), (0, f"{wanted}\n"))
                asked += 1
        self.skip_for(needs.lacking(*SHELLS))
        self.assertGreater(asked, 0)
