"""Builds the library's callers from a folder, over a library that is built, puts the requests of cases.py to them, and
compares the answers. Each function yields names of tests, each with None or what is wrong."""
import json
import os
import shutil
import sys

from tests.library.systems import HERE as THIS
from tests.support import commands, places
from tests.support.commands import said

HERE = places.path("tests", "library")
SANITISED = ["-g", "-fsanitize=address,undefined", "-fno-sanitize-recover=all"]
WARNINGS = ["-Wall", "-Wextra", "-Werror"]


class Callers:
    """The callers of a folder `library`, the folder `built` with the library, and one to work in, on some system."""

    def __init__(self, library, built, work, interface, system=THIS):
        self.library, self.built, self.work, self.interface = library, built, work, interface
        self.archive, self.system = os.path.join(built, "libecc200.a"), system

    def source(self, *names):
        return os.path.join(self.library, *names)

    def made(self, name):
        return os.path.join(self.work, name)

    def compiled(self, name, words):
        """A program that a compiler makes, or what it says."""
        made = self.made(f"{name}{self.system.ending}")
        status, output = said([*words, "-o", made])
        return (made, None) if status == 0 else (None, f"status {status}: {output[-2000:]}")

    def answered(self, name, program, requests):
        """The answers of a program, each compared with what is wanted."""
        status, output = self.system.said([program], given="".join(f"{request}\n" for request, _ in requests).encode())
        got = output.split("\n")
        yield f"{name}: status", None if status == 0 else f"{status}: {output[-3000:]}"
        for i, (request, wanted) in enumerate(requests):
            answer = got[i] if i < len(got) else "no answer"
            yield f"{name}: {request[:80]}", None if answer == wanted else f"{answer[:300]}, and not {wanted[:300]}"

    def in_c(self):
        """C with the sanitisers, if the compiler has them, and without."""
        yield from self.in_c_with("C", "-O2")
        if has_sanitisers(self.work):
            yield from self.in_c_with_sanitisers()

    def in_c_with_sanitisers(self):
        return self.in_c_with("C with the sanitisers", "-O1", *SANITISED)

    def in_c_with(self, name, *flags):
        return self.by_header(name, [self.system.cc, "-std=c11", "-pedantic", *flags, "-x", "c"])

    def in_cpp(self):
        return self.by_header("C++", [self.system.cxx, "-std=c++17", "-O1", "-x", "c++"])

    def by_header(self, name, compiler):
        """All requests, by the header and these words of a compiler."""
        places.wrote(self.interface.listed(), self.made("listed.h"))
        words = [*compiler, *WARNINGS, *self.system.flags, f"-I{self.library}", f"-I{self.work}",
                 os.path.join(HERE, "answers.c"), "-x", "none", self.archive]
        program, problem = self.compiled(f"answers{len(compiler)}", words)
        yield f"{name}: compiled", problem
        if program:
            yield from self.answered(name, program, [*self.interface.calls(), *self.interface.of_the_header()])

    def in_rust(self):
        """Every public function in Rust; and whether a library with another interface is told apart."""
        folder = self.made("rust")
        os.makedirs(folder, exist_ok=True)
        for source in (os.path.join(HERE, "answers.rs"), self.source("ecc200.rs")):
            shutil.copy(source, folder)
        words = [*self.system.rustc()[0], "--edition", "2021", "-D", "warnings", os.path.join(folder, "answers.rs")]
        checked = ["-O", "-C", "debug-assertions", "-L", f"native={self.built}", "-l", "static=ecc200"]
        program, problem = self.compiled("answers_rs", [*words, *checked])
        yield "Rust: compiled", problem
        if program:
            yield from self.answered("Rust", program, list(self.interface.of_rust()))
        other, problem = self.compiled("answers_other", [*words, "-L", f"native={self.other()}", "-l", "static=ecc200"])
        yield "Rust: compiled over another interface", problem
        if other:
            yield from self.answered("Rust over another interface", other, [("compatible", "0")])

    def other(self):
        """A folder with libraries of another interface."""
        folder = self.made("other")
        if not os.path.isdir(folder):
            os.mkdir(folder)
            source, made = os.path.join(HERE, "other_abi.c"), os.path.join(folder, "libecc200")
            compiled = [self.system.cc, "-c", "-fPIC", source, "-o", f"{made}.o"]
            shared = [self.system.cc, "-shared", f"{made}.o", "-o", f"{made}.so"]
            for words in (compiled, shared, [self.system.ar, "rc", f"{made}.a", f"{made}.o"]):
                status, output = said(words)
                if status:
                    sys.exit(output)
        return folder

    def in_python(self):
        """The Python module, by python_module.py."""
        own, other = (os.path.join(folder, "libecc200.so") for folder in (self.built, self.other()))
        asked = "".join(f"{request}\n{wanted}\n" for request, wanted in self.interface.calls())
        found = commands.environment(ECC200_LIBRARY=own, OTHER_LIBRARY=other, VERSION=self.interface.version,
                                     REQUESTS=places.wrote(asked, self.made("requests")))
        words = [self.system.python, "-m", "tests.library.python_module", self.source("python", "ecc200", "core.py")]
        done = commands.run(words, env=found, cwd=places.TOP, timeout=1800)
        for name, problem in json.loads(done.output or "[]"):
            yield f"Python: {name}", problem
        yield "Python: its end", None if done.status == 0 else done.errors.decode(errors="replace")[-3000:]


def has_sanitisers(work):
    """Whether the C compiler has them; works in a folder."""
    source = os.path.join(work, "empty.c")
    places.wrote("int main(void) { return 0; }\n", source)
    return said(["cc", *SANITISED, source, "-o", os.path.join(work, "empty")])[0] == 0


def copied(library, folder):
    """A copy of the callers, in which one can be spoilt."""
    shutil.copytree(library, folder, symlinks=True, ignore=shutil.ignore_patterns("out", "__pycache__"))
