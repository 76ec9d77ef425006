"""Makes the static library and the shared one of an assembler text and library/about.c, in a folder. `run` runs a
command there."""
import glob
import hashlib
import os
import re
import shlex
import shutil

HERE = os.path.dirname(os.path.abspath(__file__))
HEADER, ABOUT = os.path.join(HERE, "ecc200.h"), os.path.join(HERE, "about.c")
# A stack that holds no code.
STACK = '.section .note.GNU-stack, "", %progbits\n'
# The processor that the text for x86-64 under Linux is for, as the note that glibc's loader reads: x86-64-v2 and what
# is below it.
PROCESSOR = """
.section .note.gnu.property, "a", @note
.p2align 3
.long 4, 16, 5
.asciz "GNU"
.long 0xc0008002, 4, 3, 0
"""


def compiler_of(target):
    """The words by which the C compiler of a target is called, or of this system if it is None."""
    return [target.tool("gcc"), *target.flags] if target else shlex.split(os.environ.get("CC") or "cc")


def made_of(text, target):
    """What tells apart what the library is made of."""
    told = hashlib.sha256(" ".join(compiler_of(target)).encode())
    for path in (text, ABOUT, HEADER, __file__):
        with open(path, "rb") as file:
            told.update(file.read())
    return told.hexdigest()


def is_made(text, folder, target, names):
    """Whether these files of a folder are there, and made of this text."""
    try:
        with open(os.path.join(folder, "made_of"), encoding="ascii") as file:
            return file.read() == made_of(text, target) and all(os.path.exists(os.path.join(folder, name))
                                                                for name in names)
    except FileNotFoundError:
        return False


def make(text, folder, target, run):
    """Makes the library of a text, for a target or for this system."""
    os.makedirs(folder, exist_ok=True)
    stamp = os.path.join(folder, "made_of")
    if os.path.exists(stamp):
        os.remove(stamp)
    compiler, archiver = compiler_of(target), target.tool("ar") if target else "ar"
    run([*compiler, "-c", text, "-o", "ecc200.o"])
    if target and target.is_windows:
        for_windows(folder, compiler, archiver, run)
    else:
        for_linux(folder, compiler, archiver, run, PROCESSOR if "x86_64" in os.path.basename(text) else "")
    for name in ("ecc200.o", "about.o", "hidden.s", "hidden.o", "processor.s", "processor.o"):
        if os.path.exists(os.path.join(folder, name)):
            os.remove(os.path.join(folder, name))
    shutil.rmtree(os.path.join(folder, "hidden"), ignore_errors=True)
    write(folder, "made_of", made_of(text, target))


def interface():
    """The number of the interface, which the shared library's name carries, and the names that are exported, as the
    header has them."""
    with open(HEADER, encoding="utf-8") as file:
        header = file.read()
    names = re.findall(r"^(?:uint16_t|void|const char \*) ?(ecc200_\w+)\(", header, re.M)
    return re.search(r"#define ECC200_ABI (\d+)", header)[1], names


def write(folder, name, text):
    with open(os.path.join(folder, name), "w", encoding="utf-8") as file:
        file.write(text)


def compile_about(compiler, run):
    """Compiles what is in C."""
    # A table of addresses would have to be relocated, and so could be written to when the library is loaded.
    flags = ["-std=c11", "-O2", "-fPIC", "-g0", "-Wall", "-Wextra", "-Werror", "-fno-jump-tables",
             "-fasynchronous-unwind-tables", "-fno-merge-constants"]
    flags += ["-fno-tree-switch-conversion"] if "clang" not in " ".join(compiler) else []
    run([*compiler, *flags, "-c", ABOUT, "-o", "about.o"])


def archive(folder, archiver, run, *objects):
    """Makes the static library anew."""
    made = os.path.join(folder, "libecc200.a")
    if os.path.exists(made):
        os.remove(made)
    run([archiver, "rcD", made, *objects])


def for_linux(folder, compiler, archiver, run, note=""):
    """Makes the shared library, and the static one, whose names are hidden: a shared library that is linked with it
    exports none of them. It hasn't the names of functions that aren't exported, which the shared one has. `note`: what
    both say of the processor that they need, in the words of an assembler."""
    number, names = interface()
    shared = os.path.join(folder, "libecc200.so")
    hidden = "".join(f".globl {name}\n.hidden {name}\n" for name in names)
    write(folder, "hidden.s", f"{hidden}{note}{STACK}")
    write(folder, "processor.s", f"{note}{STACK}")
    compile_about(compiler, run)
    for name in ("hidden", "processor"):
        run([*compiler, "-c", f"{name}.s", "-o", f"{name}.o"])
    run([*compiler, "-shared", "-o", shared, "-Wl,-z,now,-z,relro,-z,noexecstack,-z,defs",
         f"-Wl,-soname,libecc200.so.{number}", "ecc200.o", "about.o", "processor.o"])
    os.makedirs(os.path.join(folder, "hidden"), exist_ok=True)
    run([*compiler, "-r", "-nostdlib", "-Wl,--discard-all", "-o", "hidden/ecc200.o", "ecc200.o", "about.o", "hidden.o"])
    archive(folder, archiver, run, "hidden/ecc200.o")
    for name in glob.glob(f"{glob.escape(shared)}.*"):
        os.remove(name)
    os.symlink("libecc200.so", f"{shared}.{number}")


def for_windows(folder, compiler, archiver, run):
    """Makes ecc200.dll with its import library, and the static one."""
    write(folder, "ecc200.def", "EXPORTS\n" + "".join(f"    {name}\n" for name in interface()[1]))
    compile_about(compiler, run)
    run([*compiler, "-shared", "-static-libgcc", "-o", "ecc200.dll", "-Wl,--out-implib,libecc200.dll.a",
         "-Wl,--no-insert-timestamp", "ecc200.def", "ecc200.o", "about.o"])
    archive(folder, archiver, run, "ecc200.o", "about.o")
