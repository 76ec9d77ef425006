"""A Debian root without the toolchain: behind `git clone` one command reads a label, another tests what is built."""
import os
import re
import subprocess
import unittest

from tests.support import commands, needs, places, work
from tests.support.case import Case

WANTED = re.search(r"`apt install (gcc [^`]*)`", places.text_of("README.md"))[1].split()
LABEL = "(01)09521234543213(17)271231(10)ABC123\n"
SYMBOL = "16 x 16: ]d4, 5 bytes, ECI 26 at 0\n"  # the last line of the example in C
USES = ["cd /tmp", "ecc200 read /m/out/first/label.png",
        "python3 -c 'import ecc200; print(ecc200.decode(\"/m/out/first/label.png\")[0].text)'",
        "cc -std=c11 -Wall -Wextra -Werror ~/.local/share/doc/libecc200-dev/examples/example.c -I ~/.local/include "
        "-L ~/.local/lib -lecc200 -o example", "./example | tail -n 1"]
# How a command has mounts of its own, the second way in a root; and one of the shell a root, with devices.
APART = (["unshare", "--mount"], ["unshare", "--mount", "--propagation=unchanged"])
INSIDE = ('mount --bind "$0" "$0" && mount --make-private "$0" && mount -t proc proc "$0/proc" && mount --rbind /dev '
          '"$0/dev" && exec chroot "$0" /usr/bin/env -i PATH=/usr/sbin:/usr/bin:/sbin:/bin HOME=/root /bin/sh -c "$1"')
# Pieces of work, of which a minute and three of an idle machine are some 600 and 1,800.
MOST_TO_BUILD, MOST_TO_CHECK = 1_000, 3_000


@needs.programs("mmdebstrap", "git")
@unittest.skipUnless(os.geteuid() == 0, "only root can make a root")
class Clean(Case):
    @classmethod
    def setUpClass(cls):
        cls.root = os.path.join(cls.folder_of_class(), "root")
        status, told = needs.debian(cls.root, ["git", *WANTED], "--variant=minbase")
        if status:
            raise unittest.SkipTest(f"Debian can't be had ({told.strip().splitlines()[-1:]})")
        cls.apart = next((it for it in APART if not commands.said([*it, "true"])[0]), None)
        if not cls.apart:
            raise unittest.SkipTest("nothing can be mounted here")
        subprocess.run(["git", "clone", "--quiet", "--bare", places.TOP, f"{cls.root}/source.git"], check=True)

    def done(self, words):
        """Status, output, and the work of a command of the shell in the root."""
        with work.measured() as took:
            status, told = commands.said([*self.apart, "sh", "-c", INSIDE, self.root, words], timeout=3600)
        return status, told, took

    def test_a_label_is_read_and_what_was_built_is_tested(self):
        status, told, took = self.done("git clone --quiet /source.git m && make -C m")
        self.assertEqual((status, LABEL in told, "isn't read" in told), (0, True, True), told[-3000:])
        self.sound("the work to build", None if took.pieces < MOST_TO_BUILD else str(took))
        status, told, _ = self.done("m/out/bin/ecc200 read m/out/first/label.png")
        self.row("the command as it lies there", (status, told), (0, LABEL))
        status, told, took = self.done("cd m && make check")
        counts = re.search(r"^Nothing was proved here.*\n(\d+) passed, 0 failed, \d+ skipped\n\Z", told, re.M)
        failed = "\n".join(re.findall("^FAILED.*", told, re.M))
        self.assertEqual((status, bool(counts)), (0, True), f"{failed}\n{told[-1000:]}")
        self.sound("the work to check", None if took.pieces < MOST_TO_CHECK else str(took))
        status, told, _ = self.done("make -C m install PREFIX=$HOME/.local")
        self.row("installed in a home", (status, told.count("\n    export ")), (0, 3))
        status, told, _ = self.done("\n".join(["set -e", *re.findall(r"^    (export .*)$", told, re.M), *USES]))
        self.row("what is installed there is used", (status, told), (0, f"{LABEL}{re.sub('[()]', '', LABEL)}{SYMBOL}"))
