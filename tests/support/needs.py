"""What is installed or built. What needs something that isn't there is skipped with its reason."""
import fcntl
import functools
import importlib.util
import os
import platform
import shutil
import unittest

from tests.support import commands, places

# The Debian packages of programs and modules that have another name than these.
PACKAGES = {
    "c++": "g++", "nm": "binutils", "sshd": "openssh-server", "ssh": "openssh-client", "pkg-config": "pkgconf",
    "javac": "default-jdk-headless", "node": "nodejs", "wasm-opt": "binaryen", "WebKitWebDriver": "webkit2gtk-driver",
    "Xvfb": "xvfb", "chromedriver": "chromium-driver", "tsc": "node-typescript", "qemu-aarch64": "qemu-user",
    "qemu-riscv64": "qemu-user", "aarch64-linux-gnu-g++": "g++-aarch64-linux-gnu", "wasm-ld": "lld",
    "riscv64-linux-gnu-g++": "g++-riscv64-linux-gnu", "x86_64-w64-mingw32-g++": "g++-mingw-w64-x86-64",
}
# What `make page` needs besides the library.
PAGE = ("wasm-opt", "clang", "wasm-ld", "esbuild")
WASI_LIBC = "/usr/lib/wasm32-wasi/libc.a"
FONT = "/usr/share/fonts/truetype/dejavu/DejaVuSansMono.ttf"
PATH = os.pathsep.join([os.environ.get("PATH", os.defpath), "/usr/sbin"])


def has(*programs):
    return all(shutil.which(program, path=PATH) for program in programs)


def lacking(*programs):
    """Says which of these programs aren't installed, with their Debian packages; nothing if all are."""
    return ", ".join(f"{it} isn't installed (Debian package {PACKAGES.get(it, it)})" for it in programs if not has(it))


def programs(*names):
    """Skips a class or a case where one of these programs isn't installed."""
    return unittest.skipUnless(has(*names), lacking(*names))


def page(kind):
    """Marks a class whose cases use the page, which `make page` brings up to date first. Where something isn't
    installed that this needs, they are skipped."""
    has_libc = unittest.skipUnless(os.path.isfile(WASI_LIBC), "wasi-libc isn't installed (Debian package wasi-libc)")
    has_font = unittest.skipUnless(os.path.isfile(FONT), "the font isn't installed (Debian package fonts-dejavu-core)")
    used = built(kind, places.path("web", "out", "mitsubadoor.html"), "page", lambda _: made("page"))
    return programs(*PAGE, "node")(has_font(has_libc(used)))


def module(name):
    """Skips a class or a case where this Python module isn't installed."""
    package = PACKAGES.get(name, f"python3-{name}")
    return unittest.skipUnless(importlib.util.find_spec(name), f"{name} isn't installed (Debian package {package})")


def toolchain(kind):
    """Skips a class or a case where the toolchain isn't installed."""
    return unittest.skipUnless(has("rt"), "the Rattle toolchain (rt) isn't on the path")(kind)


def program(kind):
    """Marks a class whose cases run the program. They fail where it isn't built, or are skipped without a toolchain."""
    return built(kind, places.PROGRAM, "build", lambda why: None if os.path.isfile(places.PROGRAM) else why)


def library(kind):
    """Marks a class whose cases use the library, by `make library` or `make assembled`, unless another is named."""
    target = "library" if has("rt") else "assembled"
    return built(kind, places.SHARED, target, lambda _: None if is_library_built() else made(target))


def have_library():
    """Builds the library, where it isn't and can be, for a module that imports the package; else that is skipped."""
    if not os.path.isfile(places.SHARED) and not has("rt"):
        raise unittest.SkipTest("the library isn't built (run `make library` first)")
    if problem := None if is_library_built() else made("library"):
        raise ImportError(problem)


@functools.cache
def is_library_built():
    """Whether another library is named, or nothing has changed since this one was built."""
    return bool(places.OTHER_LIBRARY) or commands.said([places.path("library", "build"), "--is-built"])[0] == 0


def built(kind, file, target, problem_of):
    """Marks a class that needs a file of `make TARGET`, unless `problem_of` says before its first case why it can't."""
    reason = f"{os.path.relpath(file, places.TOP)} isn't built (run `make {target}` first)"
    if not os.path.isfile(file) and not has("rt"):
        return unittest.skip(reason)(kind)
    further = kind.setUpClass.__func__

    def set_up(cls):
        if problem := problem_of(reason):
            raise AssertionError(problem)
        further(cls)

    kind.setUpClass = classmethod(set_up)
    return kind


@functools.cache
def made(target):
    """Runs `make TARGET`, one at a time in this checkout, and says what is wrong. What is built already stays."""
    print(f"make {target}, which can take minutes", flush=True)
    os.makedirs(places.path("out"), exist_ok=True)
    with open(places.path("out", "making"), "w", encoding="ascii") as lock:
        fcntl.flock(lock, fcntl.LOCK_EX)
        status, output = commands.said(["make", "-C", places.TOP, target], timeout=7200)
    return None if status == 0 else f"make {target}: status {status}: {output[-2000:]}"


def debian(root, packages, *options):
    """Makes a root of this release of Debian with packages and what they stand on, by mmdebstrap, which has to be run
    by root. Gives its status and what it says."""
    release = platform.freedesktop_os_release().get("VERSION_CODENAME", "stable")
    words = ["mmdebstrap", *options, f"--include={','.join(packages)}", release, root]
    return commands.said(words, env=commands.environment(PATH=PATH))
