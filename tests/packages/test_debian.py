"""Debian packages, and what they do in a clean root that has nothing but what they depend on."""
import glob
import os
import re

from tests.packages import clean_root
from tests.packages.common import GRID, QUICKLY, TOP, VERSION, Packed, broken_links, package, picture, read, run, wrote
from tests.support import commands

ELEMENTS = "(01)09521234543213(17)251231(10)ABC123"
IN_SHARE = ("man/man1/dm_tool.1.gz", "man/man1/dm_parts.1.gz", "man/man1/dm_same.1.gz", "man/man1/ecc200.1.gz",
            "man/man1/dm_sample.1.gz", "man/man3/ecc200.3.gz", "man/man3/ecc200_read.3.gz",
            "bash-completion/completions/ecc200", "zsh/vendor-completions/_ecc200",
            "fish/vendor_completions.d/ecc200.fish")


def drawn_in(name, depends):
    """A package and those that it depends on, of these with their fields Depends."""
    named = {one for group in clean_root.alternatives(depends[name]) for one in group}
    return {name}.union(*(drawn_in(it, depends) for it in named if it in depends))


class Debian(Packed):
    def test_packages(self):
        what = "Debian packages"
        if not self.has_all(("dpkg-buildpackage", "dh", "dh_python3"), what) or not self.has_sampler(what):
            return
        folder = self.room()
        self.works("make deb", ["make", "-C", TOP, "deb"], env=commands.environment(**QUICKLY))
        made = sorted(glob.glob(os.path.join(TOP, "out", "deb", "*.deb")))
        names, merged = [os.path.basename(it).split("_")[0] for it in made], os.path.join(folder, "merged")
        self.row("the packages", set(names), set(package.debian_packages()))
        for name, file in zip(names, made):
            self.row(f"the version of {name}", run(["dpkg-deb", "--field", file, "Version"]), (0, f"{VERSION}\n"))
            unpacked = os.path.join(folder, f"unpacked {name}")
            self.works(f"unpacking {name}", ["dpkg-deb", "--extract", file, unpacked])
            told = read(unpacked, "usr", "share", "doc", name, "copyright")
            self.holds(f"the licence of {name}", b"SPDX-License-Identifier: MIT OR Apache-2.0\n" in told)
            self.works(f"{name} beside the others", ["dpkg-deb", "--extract", file, merged])
        if self.has("lintian", "what lintian finds"):
            self.works("lintian", ["lintian", "--allow-root", "--fail-on", "error",
                                   *glob.glob(os.path.join(TOP, "out", "deb", "*.changes"))])
        self.is_found_by_cmake("the development package", folder, os.path.join(merged, "usr"))
        self.row("links in the packages' documents that lead to nothing", broken_links(merged), [])
        self.work_in_a_clean_root(os.path.join(folder, "root"), made)

    def work_in_a_clean_root(self, root, made):
        """The packages, installed and used where there is nothing else."""
        if os.geteuid() != 0 or run(["chroot", "/", "true"])[0] != 0:
            self.leave_out("the packages in a clean root (chroot isn't allowed here)")
            return
        form = "${Package}\\t${Depends}\\t${Pre-Depends}\\t${Recommends}\\n"
        told = [run(["dpkg-deb", "--showformat", form, "--show", file])[1].rstrip("\n").split("\t") for file in made]
        own, of_ours = [it[0] for it in told], {it[0]: it[1] for it in told}
        self.row("what ecc200 draws in", drawn_in("ecc200", of_ours),
                 {"ecc200", "python3-ecc200", "dm-sample", *(it for it in own if re.fullmatch(r"libecc200.*\d", it))})
        try:
            needed = [group for it in told for field in it[1:] for group in clean_root.alternatives(field)]
            clean_root.make(root, needed, own)
        except clean_root.Missing as what:
            self.leave_out(f"the packages in a clean root ({what} isn't installed)")
            return
        status, output = clean_root.install(root, made)
        self.holds("installed in a clean root", status == 0, output)
        tools = [it for it in ("cc", "gcc", "c++", "ld", "rt") if os.path.lexists(f"{root}/usr/bin/{it}")]
        self.row("compilers there", tools, [])
        wrote(picture(), root, "tmp", "picture.pgm")
        asked = "import ecc200; print(ecc200.read(ecc200.write(b'123456')).data)"
        for words, said in ((["dm_tool", "write"], GRID), (["python3", "-c", asked], "b'123456'\n"),
                            (["dm_sample", "/tmp/picture.pgm"], GRID), (["ecc200", "read", "/tmp/picture.pgm"],
                                                                        "123456\n"),
                            (["ecc200", "--version"], f"ecc200 {VERSION}\n")):
            self.row(f"{words} there", clean_root.run(root, words, b"123456\n"), (0, said))
        if self.has("zint", "a GS1 mark of another encoder, read with the packages alone"):
            spelled = ELEMENTS.replace("(", "[").replace(")", "]")
            self.works("a GS1 mark", ["zint", "--barcode=71", "--gs1", "--square", "--scale=4",
                                      f"--output={root}/tmp/mark.png", f"--data={spelled}"])
            self.row("a GS1 mark read there in one command",
                     clean_root.run(root, ["ecc200", "read", "/tmp/mark.png"]), (0, f"{ELEMENTS}\n"))
        self.there((f"{name} there", os.path.exists(f"{root}/usr/share/{name}")) for name in IN_SHARE)
