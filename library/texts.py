"""Makes the library's assembler texts of the LLVM IR of the proved code, one for each system: compiled/TRIPLE.s, by
which it is built where the toolchain isn't installed. The same source, version and toolchain give the same bytes."""
import os
import re
import subprocess

import retarget

# What GNU's assemblers don't know, or what would tell of the machine: the file's name, who compiled it, the extensions
# that are part of rv64gc, and marks for the second form of Windows' tables for unwinding; the first needs none.
LEFT_OUT = re.compile(r"\t\.(?:file\t|ident\t|addrsig|attribute\t|seh_(?:start|end)epilogue\b)")
# Each function of the crates gets a table for unwinding, so that a debugger's backtrace passes through the library's
# calls. The toolchain's code asks for none, and clang's own flag for them works on C alone.
OF_CRATES = re.compile(r'^(attributes #\d+ = \{ )(?=.*"target-cpu"=)', re.M)
# Loops that begin elsewhere make writing a tenth slower.
BEGINNING = {retarget.TRIPLE: "\t.text\n\t.p2align\t5\n"}


def head(version, logic):
    """The first line of each text."""
    return (f"/* The library ecc200 {version}, made by library/build of the proved source with the toolchain of "
            f"{logic}. Not written by hand: `make compiled` makes it anew. */\n")


def prepared(text, triple, clang, flags):
    """The IR for a system, with tables for unwinding, and the words of the compiler that take it."""
    text = OF_CRATES.sub(r"\1uwtable ", text)
    words = [*clang, "--no-default-config", f"--target={triple}", *flags]
    if triple == retarget.TRIPLE:
        return text, [*words, "-march=x86-64"]
    asked = subprocess.run([*words, "-S", "-emit-llvm", "-x", "c", "-", "-o", "-"], input="", stdout=subprocess.PIPE,
                           text=True, check=True).stdout
    return retarget.retarget(text, triple, retarget.head(asked, "datalayout")), words


def make(text, triple, clang, flags, first, to, run):
    """Makes the text for a system, of the IR `text`, with these words of the toolchain's compiler, below a first line.
    `run` runs a command."""
    text, words = prepared(text, triple, clang, flags)
    with open(f"{to}.ll", "w", encoding="utf-8") as file:
        file.write(text)
    run([*words, "-fno-addrsig", "-fno-verbose-asm", "-S", "-x", "ir", f"{to}.ll", "-o", f"{to}.plain"])
    with open(f"{to}.plain", encoding="utf-8") as file:
        lines = [line for line in file if not LEFT_OUT.match(line)]
    with open(to, "w", encoding="utf-8", newline="\n") as file:
        file.writelines([first, BEGINNING.get(triple, ""), *lines])
    os.remove(f"{to}.plain")
    os.remove(f"{to}.ll")
