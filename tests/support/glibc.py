"""What libraries need of glibc, as auditwheel looks at it."""
import re

from tests.support import commands

NEEDED = re.compile(r"\(NEEDED\).*\[(.*)\]")
# The libraries that every Linux with glibc has, as far as ours are concerned, and those that a wheel carries itself.
THERE = re.compile(r"(?:libc|libm)\.so\.6|ld-linux-.*|libecc200(?:_sample)?\.so\.\d+")
# The oldest glibc that a wheel names, by the second number of its version.
OLDEST = 17


def many_linux(libraries, processor):
    """Gives the name of the systems on which all of these libraries run, and what they need beside glibc."""
    told = "".join(commands.said(["readelf", "-V", "-d", path])[1] for path in libraries)
    needed = set(NEEDED.findall(told))
    versions = [int(it) for it in re.findall(r"Name: GLIBC_2\.(\d+)", told)]
    return f"manylinux_2_{max([OLDEST, *versions])}_{processor}", {it for it in needed if not THERE.fullmatch(it)}


def needed_packages(files):
    """The Debian packages that have the libraries which these files need, beside the C library and our own."""
    names = {name for file in files for name in NEEDED.findall(commands.said(["readelf", "-d", file])[1])}
    told = [commands.said(["dpkg-query", "-S", f"*/x86_64-linux-gnu/{name}"]) for name in names if "ecc200" not in name]
    return {output.split(":")[0] for status, output in told if status == 0} - {"libc6"}
