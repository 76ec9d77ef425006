"""What library/retarget.py refuses: what is of x86-64 in LLVM IR and isn't known; and compilers that are missing."""
import os
import sys

from tests.library.shuffled import ARM, CODE, LAYOUT
from tests.library.systems import targets
from tests.support import commands, places
from tests.support.case import Case

sys.path.insert(0, places.path("library"))
import retarget
sys.path.remove(places.path("library"))

# What stands in the IR in place of something, or behind it, and what is said of it.
REFUSED = {
    "another intrinsic": ("@llvm.ctpop.i64", "@llvm.x86.sse42.crc32.32.8", "llvm.x86.sse42.crc32.32.8"),
    "an intrinsic of another processor": ("@llvm.ctpop.i64", "@llvm.wasm.swizzle", "llvm.wasm.swizzle"),
    "code of an assembler": ("  ret void", '  call void asm sideeffect "pause", ""()\n  ret void', "assembler"),
    "a module's code of an assembler": ("@words", 'module asm "nop"\n@words', "assembler"),
    "a type": ("define void", "declare x86_fp80 @long(x86_fp80)\ndefine void", "x86_fp80"),
    "a calling convention": ("define void", "define x86_vectorcallcc void", "x86_vectorcallcc"),
    "a numbered calling convention": ("define void", "define cc 75 void", "cc 75"),
    "an address space": ("ptr %out)", "ptr addrspace(256) %out)", "addrspace(256)"),
    "a section": ('x86_fp80"\n', 'x86_fp80", section "old"\n', "a section"),
    "other instructions": ('"target-cpu"', '"target-features"="+avx2" "target-cpu"', "+avx2"),
    "another processor": ("x86-64-v2", "x86-64-v3", "x86-64-v3"),
    "an attribute": ('nounwind "probe-stack"', 'nounwind "no-realign-stack" "probe-stack"', "no-realign-stack"),
    "an attribute outside of a group": ("ptr %out) #0", 'ptr %out) #0 "tune-cpu"="native"', "tune-cpu"),
    "another kind of probe": ('"inline-asm"', '"__probe"', "__probe"),
    "a flag": ('"PIC Level"', '"cf-protection-branch"', "cf-protection-branch"),
    "another triple": ("x86_64-unknown-linux-gnu", "x86_64-apple-macosx", "x86_64-apple-macosx"),
    "no triple": ("target triple", "; triple", "0 lines"),
    "short addresses": ("e-m:e-p270", "e-m:e-p:32:32-p270", "p:32:32"),
    "the highest byte first": ('"e-m:e', '"E-m:e', "E-m:e"),
    "integers of 64 bits at places of 4": ("-i64:64", "-i64:32", "i64:32"),
}


class Refused(Case):
    """What is of x86-64 and isn't known ends the build, and is named."""

    def refusal(self, text, triple="aarch64-unknown-linux-gnu"):
        try:
            retarget.retarget(text, triple, ARM)
        except retarget.Foreign as what:
            return str(what)
        return ""

    def test_what_is_known(self):
        self.assertEqual(self.refusal(CODE), "")

    def test_what_is_not_known(self):
        for triple in ("aarch64-unknown-linux-gnu", "riscv64-unknown-linux-gnu", "x86_64-w64-windows-gnu"):
            for name, (old, new, told) in REFUSED.items():
                self.assertIn(old, CODE)
                said = self.refusal(CODE.replace(old, new), triple)
                self.sound(f"{name}, for {triple}", None if told in said else f"{said!r}, without {told}")

    def test_nothing_of_the_first_processor_is_left(self):
        made = retarget.retarget(CODE, "aarch64-unknown-linux-gnu", ARM)
        self.assertEqual([word for word in ("x86_64", "llvm.x86", "x86-64", LAYOUT) if word in made], [])


class Missing(Case):
    """A compiler that isn't installed is named, with its Debian package; and so is a target that isn't there."""

    def said(self, triple):
        """What each script says where there is a Python and nothing else."""
        path = self.folder()
        for name, program in (("python3", sys.executable), ("sh", "/bin/sh"), ("dirname", "/usr/bin/dirname")):
            os.symlink(program, os.path.join(path, name))
        for words in (["library", "build"], ["sampler", "build"]):
            ended = commands.said([places.path(*words), "--target", triple], env=commands.environment(PATH=path))
            yield "/".join(words), ended

    def test_a_missing_compiler(self):
        for triple, target in targets.TARGETS.items():
            for script, ended in self.said(triple):
                told = f"{script}: {target.tools}-gcc isn't installed (Debian package {target.package})\n"
                self.row(f"{script} for {triple}", ended, (1, told))

    def test_an_unknown_target(self):
        for script, ended in self.said("sparc64-unknown-linux-gnu"):
            told = f"{script}: no such target: sparc64-unknown-linux-gnu; there are {', '.join(targets.TARGETS)}\n"
            self.row(script, ended, (1, told))
