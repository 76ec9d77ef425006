"""Compares docs/PROMISES.md and what tools/definitions and tools/clauses print with the crates.

By a reading of the tree that shares nothing with these scripts, what they name is there: each definition in that file
of specs/, each function in that file of src/ and, where a line is named, on that line, each clause in its contract, and
what is named behind a clause is cited by it. And what is there is printed: each definition of specs/, each file of
specs/inner, each public function, each of its clauses, what each crate uses of those below it, and each lemma that a
crate passes on to those above it. Whether the words are right is for readers to judge."""
import collections
import glob
import os
import re

from tests.documents.pages import (bodies, calls_without_a_promise, is_part, lemmas_of_clauses, listed, printed,
                                   promises_of_clauses, promises_of_page)
from tests.documents.tree import (clauses_of, crates, definitions, is_declared, modules, public_functions, sources,
                                  text)
from tests.support import places
from tests.support.case import Case


def checks_of_promises():
    for page, crate, file, function, clauses in [*promises_of_page(), *promises_of_clauses()]:
        known = clauses_of(file, function) if os.path.exists(file) else None
        yield f"{page}: {crate}, {function} in {os.path.basename(file)}", known is not None
        for clause, cited in clauses:
            which = f"{page}: {crate}, {function}, clause {clause or 'without a name'}"
            yield which, clause in (known or set())
            for name in cited:
                own = name.split(".")[0].strip("◌")
                is_cited = any(own in body for body in bodies(file, function, clause))
                yield f"{which} cites {name}", is_cited and is_part(name)
    for names in calls_without_a_promise():
        yield f"docs/PROMISES.md, a clause behind {names}", False


def checks_of_lines():
    """Where tools/clauses says that a function stands."""
    for path, line, function in printed():
        if line:
            there = text(places.path(path)).splitlines()[int(line) - 1]
            last, _, trait = function.split("::")[-1].partition(" as ")
            declared = rf"impl\b.* {trait} for {last}\b" if trait else rf"fn {last}\b"
            yield f"tools/clauses, {path}:{line}, {function}", re.search(declared, there) is not None


def checks_of_headline():
    """The clauses, the definitions and their parts by which README carries its promises."""
    page = text(places.path("README.md"))
    link = r"\[`(\w+)`\]\((crates/[^)]+)\)"
    for function, file, clause in re.findall(link + r", clause `(\w+)`(?! of)", page):
        yield f"README.md, {function}, clause {clause}", clause in (clauses_of(places.path(file), function) or set())
    for clause, function, file in re.findall(r"clause `(\w+)` of " + link, page):
        yield f"README.md, {function}, clause {clause}", clause in (clauses_of(places.path(file), function) or set())
    for part, record, _ in re.findall(r"part `(\w+)` of " + link, page):
        yield f"README.md, {record}.{part}", is_part(f"{record}.{part}")
    for name, file in re.findall(link, page):
        yield f"README.md, {name} in {file}", re.search(rf"\b{name}\b", text(places.path(file))) is not None


def checks_of_definitions():
    """tools/definitions prints each definition of specs/ below its file, and each file of an inner folder."""
    defined = set()
    for heading, names in listed().items():
        if found := re.fullmatch(r"crates/(\w+)/specs/(.+?)(\.antt)?", heading):
            crate, inside, is_file = found.groups()
            for name in names.split(", "):
                at = inside if is_file else f"{inside}/{name}"
                source = modules(crate, are_inner=not is_file).get(at)
                defined.add((crate, at, name))
                is_there = source is not None and (not is_file or is_declared(name, source))
                yield f"tools/definitions, {crate}, {at}: {name}", is_there
    for crate in crates():
        for inside, source in modules(crate).items():
            for name in definitions(source):
                yield f"tools/definitions, definition {crate}, {inside}.{name}", (crate, inside, name) in defined
        for path in modules(crate, are_inner=True):
            yield f"tools/definitions, {crate}, inner file {path}", (crate, path, os.path.basename(path)) in defined


def checks_of_functions():
    """tools/clauses prints each public function with all of its clauses."""
    known = collections.defaultdict(set)
    for _, crate, _, function, clauses in promises_of_clauses():
        for name in (function.split("::")[-1], "::".join(function.split("::")[-2:])):
            known[crate, name] |= {None, *(clause for clause, _ in clauses)}
    for crate in crates():
        for function, file in public_functions(crate):
            yield f"tools/clauses, {crate}, {function}", (crate, function) in known
            for clause in clauses_of(file, function) or set():
                name = f"tools/clauses, {crate}, {function}, clause {clause or 'without a name'}"
                yield name, clause in known[crate, function]


def home(crate, name):
    """The crate that declares what others have by this name: it, or one whose name it passes on; or None."""
    public = re.compile(rf"^pub (?:const )?(?:fn|struct|enum|trait|type) {name}\b", re.M)
    if any(map(public.search, sources(crate).values())):
        return crate
    passes = [line for source in sources(crate).values() for line in re.findall(r"^pub use ([^;]+);", source, re.M)]
    there = [line.split("::")[0] for line in passes if re.search(rf"\b{name}\b", line)]
    return next((home(it, name) for it in there if it in crates()), None)


def checks_of_uses():
    """tools/definitions prints of each crate exactly the functions and types of other crates that it imports and names
    once more, or calls by the crate's name, with the crates that declare them."""
    told = collections.defaultdict(set)
    for upper in crates():
        for lower, names in re.findall(r"of (\w+) (.*?)(?= of \w+ |$)", listed().get(upper, "")):
            told[upper] |= {(name, lower) for name in names.split(", ")}
    for upper in crates():
        code = "\n".join(source for name, source in sources(upper).items() if name != "tests")
        imports = re.findall(rf"^(?:pub )?use (?!{upper}\b)({'|'.join(crates())})::([^;]*);", code, re.M)
        plain = re.sub(r"^(?:pub |ghost )*use [^;]*;|//[^\n]*", "", code, flags=re.M)
        named = collections.defaultdict(set)
        for lower, names in imports:
            for name in re.findall(r"\w+\b(?!::)", names):
                if name != name.upper() and re.search(rf"\b{name}\b", plain):
                    named[name].add(home(lower, name))
        for lower, name in re.findall(rf"\b({'|'.join(crates())})::(?:[a-z]\w*::)*(\w+)\(", plain):
            named[name].add(home(lower, name))
        for name in named if any(True for _ in public_functions(upper)) else ():
            yield f"tools/definitions, {upper} uses {name}", any(name == there for there, _ in told[upper])
        for name, lower in sorted(told[upper]):
            yield f"tools/definitions, {upper} uses {name} of {lower}", lower in named.get(name, ())


def checks_of_lemmas():
    """tools/clauses prints each lemma that a crate passes on to those above it, with its file, and no other."""
    known = set(lemmas_of_clauses())
    for path, name in sorted(known):
        is_there = os.path.exists(places.path(path)) and name in text(places.path(path)).split()
        yield f"tools/clauses, {path}, {name}", is_there
    for crate in crates():
        for exported in glob.glob(places.path("crates", crate, "proofs", "**", "Exported.antt"), recursive=True):
            for module, names in re.findall(r"use Rattle\.(\S+)\.\{(.*?)\}", text(exported), re.S):
                for name in re.split(r",\s*", names):
                    path = f"crates/{module.replace('.', '/')}.antt"
                    is_passed_on = module.endswith(".Exported") and any(name == other for _, other in known)
                    yield f"tools/clauses, lemma {module}.{name}", (path, name) in known or is_passed_on


class Definitions(Case):
    """What docs/PROMISES.md, tools/definitions and tools/clauses name is in the crates, and the other way round."""

    def test_each_definition(self):
        self.there(checks_of_definitions())

    def test_each_promise(self):
        self.there(checks_of_promises())

    def test_where_each_function_stands(self):
        self.there(checks_of_lines())

    def test_the_promises_of_the_readme(self):
        self.there(checks_of_headline())

    def test_each_public_function_and_its_clauses(self):
        self.there(checks_of_functions())

    def test_what_each_crate_uses_of_those_below(self):
        self.there(checks_of_uses())

    def test_each_lemma_that_is_passed_on(self):
        self.there(checks_of_lemmas())
