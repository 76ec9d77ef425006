"""Reads the crates of a tree: the definitions of specs/, and what others can call, with its clauses and the definitions
that these cite. tools/definitions and tools/clauses tell it."""
import collections
import functools
import glob
import itertools
import os
import re

TOP = os.path.dirname(os.path.dirname(os.path.abspath(__file__)))
KINDS = ("pub", "abbrev", "unfoldable", "pattern", "record", "data")
Definition = collections.namedtuple("Definition", "crate module name path line comment")
Clause = collections.namedtuple("Clause", "name text")
Function = collections.namedtuple("Function", "crate name path line comment clauses cited")


# ---- The tree

@functools.cache
def text(top, path):
    with open(os.path.join(top, path), encoding="utf-8") as file:
        return file.read()


def crates(top):
    lines = text(top, "crates.txt").splitlines()
    return [re.match(r"\w+", line)[0] for line in lines if line and not line.startswith("#")]


def paths(top, *pattern):
    return sorted(os.path.relpath(path, top) for path in glob.glob(os.path.join(top, *pattern), recursive=True))


def name_of(path):
    return os.path.splitext(os.path.basename(path))[0]


def in_order(top, listing, found):
    """The modules of a folder in the order in which its list names them, which goes from what is cited to what cites
    it."""
    listed = re.findall(r"^pub mod (\w+)", text(top, listing), re.M)
    places = {name: at for at, name in enumerate(listed)}
    return sorted(found, key=lambda path: (places.get(name_of(path), len(listed)), path))


@functools.cache
def lists(top, crate):
    """The folders of specs/ but for inner ones, specs/ itself first, by name, each with the file that lists its
    modules."""
    within = paths(top, "crates", crate, "specs", "*", "")
    return {"": os.path.join("crates", crate, "specs", "Lib.antt"),
            **{os.path.basename(path): path + ".antt" for path in within if os.path.basename(path) != "inner"}}


@functools.cache
def modules(top, crate):
    """The files of specs/ that define something, folder by folder: no list of modules, and none of an inner folder."""
    found = []
    for folder, listing in lists(top, crate).items():
        own = [path for path in paths(top, "crates", crate, "specs", folder, "*.antt")
               if path not in lists(top, crate).values() and name_of(path) != "inner"]
        found += in_order(top, listing, own) if own else []
    return found


def module_of(path):
    """The name of a module of specs/ by its file, with that of its folder before it if it is in one."""
    return ".".join(path.removesuffix(".antt").split(os.sep)[3:])


def comment_above(lines, at, mark):
    """The comment directly above a line, as one text."""
    found = []
    while at > 0 and (line := lines[at - 1].strip()).startswith((mark, "#[", "// ")):
        if line.startswith(mark):
            found.insert(0, line[len(mark):].strip())
        at -= 1
    return " ".join(found)


@functools.cache
def definitions(top, crate):
    """The public definitions of specs/: what a public name with a word for its kind defines. A public name without one
    is a lemma's."""
    found = []
    for path in modules(top, crate):
        lines = text(top, path).splitlines()
        for at, line in enumerate(lines):
            declared = re.match(rf"\s*((?:(?:{'|'.join(KINDS)}) )+)(\S+)", line)
            if declared and "pub" in declared[1].split() and len(declared[1].split()) > 1:
                found.append(Definition(crate, module_of(path), declared[2], path, at + 1,
                                        comment_above(lines, at, "--")))
    return found


@functools.cache
def by_place(top):
    """All public definitions by their crate, module and name."""
    return {(it.crate, it.module, it.name): it for crate in crates(top) for it in definitions(top, crate)}


@functools.cache
def handed_on(top):
    """What files of specs/ pass on of others: by crate, module and name the crate and the module that it comes from,
    and for a whole module, which the crate's list passes on, without a name."""
    found = {}
    for crate in crates(top):
        for path in paths(top, "crates", crate, "specs", "**", "*.antt"):
            for of, module, names in re.findall(r"^pub use Rattle\.(\w+)\.specs\.([\w.]*\w)(?:\.\{([^}]*)\})?$",
                                                text(top, path), re.M):
                here = module_of(path) if names else name_of(module.replace(".", os.sep))
                found.update({(crate, here, name.strip()): (of, module) for name in names.split(",")})
    return found


def home(top, crate, module, name):
    """Where it is defined what is found in a module by a name."""
    for key in ((crate, module, name), (crate, module, "")):
        if key in handed_on(top):
            return home(top, *handed_on(top)[key], name)
    return crate, module, name


@functools.cache
def named_by(top, definition):
    """The definitions that a definition names in its own lines, which end with an empty one, but for itself."""
    source = text(top, definition.path)
    own = itertools.takewhile(str.strip, source.splitlines()[definition.line - 1:])
    known = names_cited(source)
    known.update({operator.strip("◌"): place for operator, place in known.items() if operator.startswith("◌")})
    others = dict((here, (crate, module)) for crate, module, here in
                  re.findall(r"^use Rattle\.(\w+)\.specs\.([\w.]+) as (\w+)$", source, re.M))
    found = set()
    for word in re.findall(r"[^\s(){}\[\],;]+", " ".join(line.split("--")[0] for line in own)):
        module, _, name = word.partition(".")
        place = (*others[module], name) if module in others else known.get(
            word, known.get(module, (definition.crate, definition.module, word)))
        found.add(by_place(top).get(home(top, *place)))
    return found - {None, definition}


def rests_on(top, definition):
    """A definition with all that it rests on: those that it names, those that these name, and so on. What std has isn't
    among them, nor are constructors, fields and types of the code."""
    found, left = {definition}, [definition]
    while left:
        new = named_by(top, left.pop()) - found
        found |= new
        left += new
    return found


# ---- Contracts

def sources(top, crate):
    """The files of a crate's code; tests have none that others call."""
    return [path for path in paths(top, "crates", crate, "src", "**", "*.rt") if "tests" not in path.split(os.sep)[3:4]
            and name_of(path) != "tests"]


def within(path):
    """The modules that lead to a file of a crate's code; none leads to its first file."""
    parts = path.removesuffix(".rt").split(os.sep)[3:]
    return () if parts in (["lib"], ["main"]) else tuple(parts)


@functools.cache
def passed_on(top, crate):
    """What others find in the crate itself and in each module that it opens, by the names of the modules that lead
    there: pairs of a module whose files declare it, this one or one below, and the names."""
    files = {within(path): path for path in sources(top, crate)}
    found, left = {}, [()]
    while left:
        module = left.pop()
        source = text(top, files[module])
        found[module] = [(module, set(re.findall(r"^pub (?:const )?(?:extern \"C\" )?fn (\w+)", source, re.M)))]
        for below, many, one in re.findall(r"^pub use (\w+)(?:::\w+)*::(?:\{([^}]*)\}|(\w+));", source, re.M):
            if (*module, below) in files:
                found[module].append(((*module, below), set(re.findall(r"\w+", many or one))))
        left += [(*module, name) for name in re.findall(r"^pub mod (\w+);", source, re.M)]
    return found


def opened_to(top, crate, path, name):
    """The module in which others find what a file declares by this name, as the names that lead there; None if they
    don't find it."""
    here = within(path)
    for module, given in passed_on(top, crate).items():
        for below, names in given:
            if name in names and (here == below or below != module and here[:len(below)] == below):
                return module
    return None


def braces(source, start):
    """What stands between the brace at a place and the one that closes it."""
    depth = 0
    for at in range(start, len(source)):
        depth += {"{": 1, "}": -1}.get(source[at], 0)
        if depth == 0:
            return source[start + 1:at]
    return source[start + 1:]


def clauses_of(source):
    """The clauses of a contract, by the text from the function's name to its body."""
    return [Clause(found[1] or "", braces(source, found.end() - 1))
            for found in re.finditer(r"^\s*ensures\*? ?(\w*) ?\{", source, re.M)]


def names_cited(source):
    """By the names that a file uses in its clauses or its definitions: the crate and the module of each definition."""
    found = {}
    one = r"Rattle\.(\w+)\.specs\.(?!declared\.|inner\.)((?:[a-z]\w*\.)?\w+)\.\{([^}]*)\}"
    for crate, module, names in re.findall(rf"^\s*(?:ghost )?use {one};?", source, re.M):
        for name in names.split(","):
            of, _, here = name.strip().partition(" as ")
            found[here or of] = (crate, module, of)
    return found


def blocks(lines):
    """The lines of a file at its left margin that open an impl or a trait, each with the lines that it holds; what
    stands outside has no opening."""
    opening, body = "", []
    for at, line in enumerate(lines):
        if not line.startswith((" ", "}", ")")) and line.strip():
            if re.match(r"(?:pub trait|impl)\b", line):
                yield opening, body
                opening, body = line, []
            elif opening:
                yield opening, body
                opening, body = "", []
        body.append(at)
    yield opening, body


def owner_of(opening):
    """The type or trait whose functions these are, and the trait that the type implements here, if any."""
    if not opening:
        return None, None
    if trait := re.match(r"pub trait (\w+)", opening):
        return trait[1], None
    found = re.match(r"impl(?:<.*?>)? (?:([A-Z]\w*) for )?(\w+)", opening)
    return (found[2], found[1]) if found else (None, None)


def contract(lines, at):
    """The lines of a function from its name to its body, which begins on a line of its own if there is a clause, or to
    the end of its declaration."""
    margin = re.match(r" *", lines[at])[0]
    has_clause = False
    for end in range(at, len(lines)):
        has_clause = has_clause or re.match(r"\s*(?:requires|ensures)\b", lines[end]) is not None
        if lines[end] in (margin + "{",
                          margin + "{}") or lines[end].endswith(";") or lines[end].endswith("{") and not has_clause:
            return "\n".join(lines[at:end + 1])
    return ""


def kept_by(lines, body, trait, given):
    """What a type promises where it implements a trait: all that a trait of this repository promises, and of another
    the clauses written here."""
    if trait in given:
        return [Clause(f"those of `{trait}`", "")]
    ghosts = [Clause(found[1], "") for at in body
              if (found := re.match(r"\s*ghost (next_gives|remaining) =", lines[at]))]
    return ghosts + [clause for at in body if re.match(r"\s*fn ", lines[at])
                     for clause in clauses_of(contract(lines, at))]


def functions_in(top, crate, path):
    """The functions of a file, and the traits that its types implement, with the names by which others call them."""
    lines, cites = text(top, path).splitlines(), names_cited(text(top, path))
    given = {name for found in passed_on(top, crate).values() for _, names in found for name in names}
    for opening, body in blocks(lines):
        owner, trait = owner_of(opening)
        if owner and opened_to(top, crate, path, owner) is None:
            continue
        if trait:
            if kept := kept_by(lines, body, trait, given):
                yield Function(crate, f"{owner} as {trait}", path, body[0] + 1, comment_above(lines, body[0], "///"),
                               kept, cites)
            continue
        for at in body:
            declared = re.match(r"\s*(pub )?(?:const )?(?:extern \"C\" )?fn (\w+)", lines[at])
            if not declared or not (declared[1] or opening.startswith("pub trait")):
                continue
            outside = [owner] if owner else opened_to(top, crate, path, declared[2])
            if outside is None:
                continue
            clauses = clauses_of(contract(lines, at))
            yield Function(crate, "::".join([*outside, declared[2]]), path, at + 1, comment_above(lines, at, "///"),
                           clauses, cites)


@functools.cache
def functions(top, crate):
    """The functions that other crates can call, file by file, those of laws last."""
    found = sorted(sources(top, crate), key=lambda path: ("laws" in path, path))
    return [function for path in found for function in functions_in(top, crate, path)]


def cited(function, clause):
    """The definitions that a clause cites, in the order in which it names them."""
    words = re.findall(r"[^\s(){}\[\],;]+", clause.text)
    operators = {name.strip("◌"): name for name in function.cited if name.startswith("◌")}
    names = [operators.get(word, word) for word in words]
    return list(dict.fromkeys(function.cited[name] for name in names if name in function.cited
                              and function.cited[name][0] not in ("std", "clap")))


def shown_clause(function, clause):
    """The name of a clause, with the definitions that it cites."""
    return " ".join(filter(None, [clause.name or "clause", ", ".join(name for _, _, name in cited(function, clause))]))


def exported(top, path):
    """What a file passes on, each with the module that has it; a file that passes on what another one does has it from
    there."""
    for module, names in re.findall(r"^(?:unfoldable )?pub use Rattle\.(\S+)\.\{([^}]*)\}", text(top, path), re.M):
        below = dict(exported(top, f"crates/{module.replace('.', '/')}.antt")) if module.endswith(".Exported") else {}
        for name in (name.strip() for name in names.split(",")):
            yield name, below.get(name, module)


def lemmas(top, crate):
    """The lemmas that the crate passes on to those above it, and what these speak of, by the file that has them."""
    found = collections.defaultdict(list)
    for path in paths(top, "crates", crate, "proofs", "**", "Exported.antt"):
        for name, module in exported(top, path):
            found[f"crates/{module.replace('.', '/')}.antt"].append(name)
    return found
