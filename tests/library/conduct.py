"""What the library is as a file on a system: which names it has, and where a debugger finds its calls; and what the
examples over it print. Functions that yield do so with names of tests, each with None or what is wrong."""
import functools
import re

from tests.library.library import module
from tests.support.commands import said

EXPORTS = sorted(f"ecc200_{name}" for name in ("abi", "code_words", "inspect", "normal", "places", "read", "sizes",
                                               "usual_limit", "version", "write", "write_bytes"))
# All that the library calls; under Windows also what touches a large frame page by page.
FOREIGN = {"memcpy", "memmove", "memset"}
FOREIGN_OF_WINDOWS = {"___chkstk_ms"}


def listed(*words):
    """The words of each line of nm's list that has a name."""
    return [line.split() for line in said(words)[1].splitlines() if len(line.split()) > 1]


def names(system):
    """The static library needs three functions of C, and has no data that changes; the shared one exports its own."""
    defined = [words for words in listed(system.nm, "--defined-only", system.archive) if len(words) == 3]
    known = {words[-1] for words in defined}
    yield "names that are defined", None if set(EXPORTS) <= known else f"{known}"
    wanted = {words[-1] for words in listed(system.nm, "-u", system.archive) if words[0] == "U"} - known
    allowed = FOREIGN | (FOREIGN_OF_WINDOWS if system.is_windows else set())
    yield "names that are foreign", None if wanted <= allowed else f"{wanted - allowed}"
    changing = [words[-1] for words in defined if words[1] in "BbDdCSs" and words[-1] not in SECTIONS]
    yield "data that can change", None if not changing else f"{changing}"
    exported = exports(system)
    yield "exports", None if exported == EXPORTS else f"{exported}"


def unwound(system):
    """Each function of the shared library lies in an unwind table, and the static library has as many of these; under
    Windows such tables are there. The shared library has those functions by name that aren't exported, too."""
    if system.is_windows:
        yield "unwind tables", None if " .pdata " in said([system.objdump, "-h", system.shared])[1] else "aren't there"
        return
    tables = [[(int(begin, 16), int(end, 16)) for begin, end in
               re.findall(r" FDE .* pc=(\w+)\.\.(\w+)", said(["readelf", "--debug-dump=frames", library])[1])]
              for library in (system.shared, system.archive)]
    functions = {words[3]: (int(words[0], 16), int(words[0], 16) + int(words[1], 16))
                 for words in listed(system.nm, "-S", "--defined-only", system.shared)
                 if len(words) == 4 and words[2] in "tT" and ("::" in words[3] or words[3] in EXPORTS)}
    table_of = {name: [(first, last) for first, last in tables[0] if first <= begin and end <= last]
                for name, (begin, end) in functions.items()}
    bare = [name for name, its_own in table_of.items() if not its_own]
    used = {table for its_own in table_of.values() for table in its_own}
    yield "functions by name", None if len(functions) > len(EXPORTS) else f"{functions}"
    yield "unwind tables", None if not bare else f"there is none for {bare}"
    yield "the static library's", None if len(tables[1]) >= len(used) else f"{len(tables[1])} of {len(used)}"


# What Windows' objects have a name for, each of which is empty.
SECTIONS = {".bss", ".data"}


def exports(system):
    if system.is_windows:
        told = said([system.objdump, "-p", system.shared])[1].partition("[Ordinal/Name Pointer] Table")[2]
        return sorted(re.findall(r"^\t\[ *\d+\].* (\w+)$", told, re.M))
    found = [words[-1] for words in listed(system.nm, "-D", "--defined-only", system.shared) if words[-2] == "T"]
    return sorted(name for name in found if name not in ("_init", "_fini"))


@functools.cache
def shown():
    """What each example prints: the symbol, what a damaged one says, a refusal, and what is said of a text."""
    ecc200 = module()
    rows = ecc200.write(b"Mitsubadoor")
    side = len(rows)
    blank = "  " * (side + 2)
    picture = [blank, *("  " + "".join("##" if module else "  " for module in row) + "  " for row in rows), blank]
    wrong = {at.codeword for row, line in enumerate(ecc200.places(side)[:5]) for at in line[row:row + 1] if row}
    read = f"Mitsubadoor: {len(wrong)} codewords corrected, 0 border modules wrong\n"
    refused = f"refused with 5: too many border modules have the wrong colour ({side})\n"
    text = "16 x 16: ]d4, 5 bytes, ECI 26 at 0\n"  # nine codewords: 8 x 32 has as many modules, and more columns
    return "\n".join(picture) + f"\n{read}{refused}{text}"
