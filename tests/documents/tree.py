"""Reads the crates of the tree: their definitions, their public functions and the clauses of these. It shares nothing
with tools/definitions, so that what that script writes can be compared with it."""
import collections
import functools
import glob
import os
import re

from tests.support import places

QUOTED = re.compile(r"`([^`]+)`")
text = functools.cache(places.text_of)


def crates():
    lines = text(places.path("crates.txt")).splitlines()
    return [re.match(r"\w+", line)[0] for line in lines if line and not line.startswith("#")]


@functools.cache
def modules(crate, are_inner=False):
    """The modules in the folders of a crate's specs/, by their paths: inner ones or the others, but no list of them."""
    top, found = places.path("crates", crate, "specs"), {}
    for folder in ("", "*"):
        for path in glob.glob(os.path.join(top, folder, *["inner"] * are_inner, "*.antt")):
            name = os.path.relpath(path, top).removesuffix(".antt")
            is_list = name == "Lib" or os.path.isdir(os.path.join(top, name))
            if are_inner or not is_list and "inner" not in name.split(os.sep):
                found[name] = text(path)
    return found


def is_declared(name, source):
    """Whether a name is declared at the start of a line: a definition, a record, or a case or part of one."""
    marks = r"(?:(?:pub|abbrev|unfoldable|pattern|record|data) )*"
    return re.search(rf"^\s*{marks}{re.escape(name)}(?:\s*\{{[^}}]*\}})*(?:\s*\(|\s+:|\s*$)", source, re.M) is not None


def definitions(source):
    """The public definitions of a module. A public name without a word for its kind before it is a lemma's."""
    for kinds, name in re.findall(r"^ *((?:(?:pub|abbrev|unfoldable|pattern|record|data) )+)(\S+)", source, re.M):
        if "pub" in kinds.split() and len(kinds.split()) > 1:
            yield name


@functools.cache
def sources(crate):
    """The files of a crate's code, by their path within src/ without its ending; tests have none that others call."""
    top = places.path("crates", crate, "src")
    found = {}
    for path in glob.glob(os.path.join(top, "**", "*.rt"), recursive=True):
        name = os.path.relpath(path, top).removesuffix(".rt")
        if name.split(os.sep)[0] != "tests":
            found[name] = text(path)
    return found


def functions_in(source):
    """The functions that are public in a file, and those of its public traits, each with its type or trait, or None."""
    owner, is_trait = None, False
    for line in source.splitlines():
        if declared := re.match(r"(pub trait|impl(?:<.*?>)?) (\w+)[^{]*\{", line):
            owner, is_trait = declared[2] if " for " not in line else None, declared[1] == "pub trait"
        elif line.startswith("}"):
            owner, is_trait = None, False
        elif declared := re.match(r"\s*(pub )?(?:const )?(?:extern \"C\" )?fn (\w+)", line):
            if declared[1] or is_trait:
                yield owner, declared[2]


def public_modules(crate):
    """The files of a crate's code whose names others can say, the first one and those of public modules, each with what
    it passes on of the modules below it, by the file of these."""
    known = sources(crate)
    found, left = {}, [("lib" if "lib" in known else "main", "")]
    while left:
        name, folder = left.pop()
        found[name] = collections.defaultdict(set)
        for path, many, one in re.findall(r"^pub use (\w+)(?:::\w+)*::(?:\{([^}]*)\}|(\w+));", known[name], re.M):
            if folder + path in known:
                found[name][folder + path] |= set(re.findall(r"\w+", many or one))
        left += [(folder + it, f"{folder}{it}/") for it in re.findall(r"^pub mod (\w+);", known[name], re.M)]
    return found


def public_functions(crate):
    """The functions that other crates can call, those of types among them, by the first file and public modules."""
    for public, passed_on in public_modules(crate).items():
        for name, source in sources(crate).items():
            file = places.path("crates", crate, "src", name + ".rt")
            given = set().union(*(names for it, names in passed_on.items() if f"{name}/".startswith(f"{it}/")))
            for owner, function in functions_in(source):
                if owner in given:
                    yield f"{owner}::{function}", file
                elif owner is None and (function in given or name == public):
                    yield function, file


@functools.cache
def contracts(file):
    """The names of clauses in a file, by function, by type and function, and by type; '' for an unnamed one."""
    found, owner, function = collections.defaultdict(set), None, None
    for line in text(file).splitlines():
        if declared := re.match(r"(?:pub(?:\(\w+\))? )?(?:struct|enum|trait) (\w+)", line):
            owner, function = declared[1], None
        elif declared := re.match(r"impl(?:<.*?>)? (?:(\w+) for )?(\w+)", line):
            owner, function = f"{declared[2]} as {declared[1]}" if declared[1] else declared[2], None
        elif declared := re.match(r"(\s*)(?:pub(?:\(\w+\))? )?(?:const )?(?:extern \"C\" )?fn (\w+)", line):
            owner, function = owner if declared[1] else None, declared[2]
        clause = re.match(r"\s*(?:ensures\*? ?(\w*) ?\{|ghost (\w+) = )", line)
        for place in filter(None, [owner, function, owner and function and f"{owner}::{function}"]):
            found[place] |= {clause[1] or clause[2] or ""} if clause else set()
    return found


def clauses_of(file, function):
    """The clauses of a function in a file: a type's by both names, any other by its last; or None."""
    parts = function.split("::")
    is_type = len(parts) > 1 and parts[-2][0].isupper()
    return contracts(file).get("::".join(parts[-2:]) if is_type else parts[-1])
