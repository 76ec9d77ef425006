"""What docs/PROMISES.md, tools/definitions and tools/clauses say of functions, clauses and definitions."""
import collections
import functools
import re

from tests.documents.tree import QUOTED, crates, is_declared, modules, text
from tests.support import commands, places

PROMISES = places.path("docs", "PROMISES.md")


def items(path):
    """The items of a page's lists, each in one line."""
    found = []
    for line in text(path).splitlines():
        if line.startswith("- "):
            found.append(line[2:])
        elif line.startswith("  ") and found and found[-1]:
            found[-1] += " " + line.strip()
        else:
            found.append("")
    return [item for item in found if item]


LINK = r"\[((?:`[^`]+`(?:, )?)+)\]\(\.\./(crates/(\w+)/src/[^)]+)\)"
CALL = re.compile(LINK + r"((?: \*\w+\*(?: `[^`]+`(?:, `[^`]+`)*)?;?)+)")
PROMISED = re.compile(r"\*(\w+)\*((?: `[^`]+`,?)*)")


class Promise(collections.namedtuple("Promise", "page crate file function clauses")):
    """What is said of a function: where, its crate and file, its name, and the definitions behind each clause."""


def promises_of_page():
    """What docs/PROMISES.md says of functions."""
    for item in items(PROMISES):
        for names, path, crate, promised in CALL.findall(item):
            clauses = [("" if name == "clause" else name, QUOTED.findall(cited))
                       for name, cited in PROMISED.findall(promised)]
            for function in QUOTED.findall(names):
                yield Promise("docs/PROMISES.md", crate, places.path(path), function, clauses)


def calls_without_a_promise():
    """The links of docs/PROMISES.md to functions behind which no clause stands."""
    for item in items(PROMISES):
        yield from (names for names, *_ in re.findall(LINK, CALL.sub("", item)))


def headed(script, of):
    """What a script prints: by what `of` gives for a line that isn't indented, the lines that stand below."""
    status, output = commands.said([places.path("tools", script)])
    if status:
        raise AssertionError(output)
    found, last = {}, None
    for line in output.splitlines():
        last = last if line.startswith("    ") else found.setdefault(of(line), [])
        last += [line.strip()] if line.startswith("    ") else []
    return found


@functools.cache
def listed():
    """What tools/definitions prints: by a file, a folder or a crate before a colon, the lines that stand below."""
    return {heading: " ".join(lines) for heading, lines
            in headed("definitions", lambda it: it.partition(": ")[0]).items()}


@functools.cache
def printed():
    """What tools/clauses prints: by file, line and name, the lines that stand below."""
    return headed("clauses", lambda it: re.fullmatch(r"(\S+?)(?::(\d+))?: (.+)", it).groups())


def promises_of_clauses():
    """What tools/clauses says of functions. Where a type promises what a trait does, no clause is named."""
    for (path, line, function), below in printed().items():
        if line:
            named = [(clause.split(" ", 1) + [""])[:2] for clause in below if not clause.startswith("those of ")]
            clauses = [("" if name == "clause" else name, cited.split(", ") if cited else []) for name, cited in named]
            yield Promise("tools/clauses", path.split("/")[1], places.path(path), function, clauses)


def lemmas_of_clauses():
    """The lemmas that tools/clauses names, with their files."""
    for (path, line, _), below in printed().items():
        if not line:
            yield from ((path, name.rstrip(",")) for name in " ".join(below).split())


def bodies(file, function, clause):
    """The texts of the clauses of this name of functions of this name in a file, or of a type's trait."""
    owner, _, trait = function.partition(" as ")
    start = rf"^impl(?:<.*?>)? {trait} for {owner}\b" if trait else rf"\bfn {function.split('::')[-1]}\b"
    for found in re.finditer(start, text(file), re.M):
        rest = text(file)[found.end():]
        stop = re.search(r"^impl\b" if trait else r"\bfn \w+", rest, re.M)
        own = rest[:stop.start() if stop else len(rest)]
        ends = r"(?=;?\s*(?:ensures|requires|\{|$|///|fn ))"
        for body in re.finditer(rf"ensures\*? ?{clause} ?\{{(.*?)\}}{ends}", own, re.S):
            yield body[1]


def is_part(name):
    """Whether a name has no dot, or in one such as `Reads.border` the second part is one of the record's of specs/."""
    record, _, part = name.partition(".")
    if not part:
        return True
    own = re.compile(rf"^pub record {record}\b.*?(?=^\S(?!-)|\Z)", re.M | re.S)
    found = [own.search(source) for crate in crates() for source in modules(crate).values()]
    return any(is_declared(part, lines[0]) for lines in found if lines)
