"""The Makefile's list, a first look, and what tests see of the caller's environment."""
import os
import re
import shutil

from tests.library.systems import targets
from tests.packages.common import GRID, TOP, Packed, package, read, run, wrote
from tests.support import commands

# What a caller may have set, beside what tests/environment keeps.
CALLER = {"PYTHONPATH": "/nowhere", "PYTHONDONTWRITEBYTECODE": "1", "LC_ALL": "tr_TR.UTF-8", "LANGUAGE": "tr",
          "GIT_DIR": "/nowhere", "PREFIX": "/nowhere", "ECC200_LIBRARY": "/nowhere"}


class Machine(Packed):
    def test_help_lists_each_target_and_starts_nothing(self):
        status, listed = run(["env", "-i", f"PATH={self.path}", "make", "-C", TOP, "help"])
        phony = re.search(r"^\.PHONY: (.*(?:\\\n.*)*)", package.text("Makefile"), re.M)[1].replace("\\", "").split()
        unlisted = {it for it in phony if f"make {it}" not in listed} - {"all", "users", "assembled"}
        self.row("targets that make doesn't list", unlisted, set())
        self.holds("make help", status == 0 and "Proving" not in listed, listed)

    def test_a_first_look_shows_four_answers(self):
        status, shown = run(["make", "-C", TOP, "try"])
        wanted = ["    123456\n", "    ok 10 border 0 corrected 2\n", "    \\no 6 block 0\n",
                  "    ##  ##  ##  ##  ##  \n"]
        self.holds("make try", status == 0 and all(it in shown for it in wanted), shown)
        tried = run(["sh", "-c", "printf '123456\\n' | dm_tool write"],
                    env=commands.environment(PATH=f"{TOP}/demo:{os.environ['PATH']}"))
        self.row("the documents' commands with demo/ on the path", tried, (0, GRID))

    def test_a_fresh_machine(self):
        """`.ci/run` installs the compilers, or one by one, and starts `make test` by tests/environment."""
        folder = self.room()
        for part in (".ci/run", "tests/environment"):
            os.makedirs(os.path.join(folder, os.path.dirname(part)))
            shutil.copy(os.path.join(TOP, part), os.path.join(folder, part))
        path, told = os.path.join(folder, "bin"), os.path.join(folder, "told")

        def add(name, text):
            os.chmod(wrote(f"#!/bin/sh\n{text}\n", path, name), 0o755)
        os.makedirs(path)
        for name in ("sh", "env", "dirname", "mkdir"):
            os.symlink(shutil.which(name, path="/usr/bin:/bin"), os.path.join(path, name))
        for name, text in (("dpkg", "exit 1"), ("apt-cache", "exit 0"), ("make", "umask; exec env"),
                           ("timeout", f'for last; do :; done; echo "$last" >> {told}; [ $# -lt 9 ]')):
            add(name, text)
        kept = {"PATH": path, "HOME": "/nowhere", "CC": "cc  -m64 '$x'", "https_proxy": "", "RT_JOBS": "1"}
        words, env = ["sh", "-c", f"umask 077; exec {folder}/.ci/run"], {**CALLER, **kept}
        status, seen = run(words, env=env)
        self.row("a machine without it", (status, "the toolchain (rt) isn't on the path" in seen), (127, True))
        add("rt", "exit 0")
        status, seen = run(words, env=env)
        wanted = {"0022", "LC_ALL=C.UTF-8", "MIMALLOC_PURGE_DELAY=-1", *(f"{name}={kept[name]}" for name in kept)}
        self.row("make test sees", (status, {it for it in seen.splitlines() if not it.startswith("PWD=")}), (0, wanted))
        wanted = {"g++", "clang", "rustc-web", "qemu-user", "wine", "mmdebstrap",
                  *(it.package for it in targets.TARGETS.values())}
        self.row("compilers and emulators that aren't installed", wanted - set(read(told).decode().split()), set())
        planned = run(["env", "-i", f"PATH={os.environ['PATH']}", "make", "-n", "-C", TOP, "test"])[1].splitlines()
        started = [line.split()[0] for line in planned if line.startswith("tests/")]
        self.row("by what tests are started", started, ["tests/environment"])
