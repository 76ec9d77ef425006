"""Turns the LLVM IR that the toolchain makes of the proved code, for x86-64 under Linux, into IR for another target.

What is of x86-64 in it, and what is done with that, stands here and nowhere else:

  - the data layout and the triple become the target's. The layouts have to agree in the order of bytes, the size of an
    address, the alignment of integers and that of the stack, since the IR was made by them;
  - "target-cpu" is left out where the processor is another one;
  - the intrinsics of `replaced` become functions of the target, which give the same for all arguments.

Attributes, calling conventions, types, code of an assembler or intrinsics that aren't known here end the build: a later
toolchain may emit something that no one has looked at.
"""
import re

TRIPLE = "x86_64-unknown-linux-gnu"
PROCESSOR = '"target-cpu"="x86-64-v2"'
# Each frame is touched page by page, so that no call passes the page that guards a stack. The compiler does so on every
# processor here; under Windows it always does, and by a function of the system's.
PROBES = r' "probe-stack"="inline-asm"| "stack-probe-size"="\d+"'

TABLE_BY_PLACES = "(<16 x i8> %table, <16 x i8> %places)"
# A shuffle of sixteen bytes: by the number in each lane of the second, pshufb gives the byte of the first whose place
# stands in the lowest four bits, or 0 where the highest bit is set.
PSHUFB = "llvm.x86.ssse3.pshuf.b.128"
# AArch64's tbl gives the byte at the number itself, or 0 where that is 16 or more. Where the three bits between are
# taken away, a number is below 16 and the same place, or at least 128, and both give 0.
TBL = "llvm.aarch64.neon.tbl1.v16i8"
BY_TBL = f"""  %kept = and <16 x i8> %places, splat (i8 -113)
  %found = call <16 x i8> @{TBL}(<16 x i8> %table, <16 x i8> %kept)
  ret <16 x i8> %found
"""


def lane_by_lane():
    """The same, said lane by lane in words that every processor has."""
    lines = ["  %cleared = icmp slt <16 x i8> %places, zeroinitializer",
             "  %low = and <16 x i8> %places, splat (i8 15)"]
    for lane in range(16):
        before = f"%all{lane - 1}" if lane else "zeroinitializer"
        lines += [f"  %place{lane} = extractelement <16 x i8> %low, i32 {lane}",
                  f"  %byte{lane} = extractelement <16 x i8> %table, i8 %place{lane}",
                  f"  %all{lane} = insertelement <16 x i8> {before}, i8 %byte{lane}, i32 {lane}"]
    lines += ["  %found = select <16 x i1> %cleared, <16 x i8> zeroinitializer, <16 x i8> %all15",
              "  ret <16 x i8> %found"]
    return "\n".join(lines) + "\n"


def replaced(processor):
    """For each intrinsic of x86-64 that may stand in the IR the body of the function that gives the same on another
    processor."""
    return {PSHUFB: BY_TBL if processor == "aarch64" else lane_by_lane()}


# What a target may not be given, but for what it is known to have, as it is called where it is found.
FOREIGN = [
    ("an intrinsic", r"@llvm\.(?:aarch64|amdgcn|arm|bpf|nvvm|ppc|riscv|s390|wasm|x86)\.[\w.]*"),
    ("code of an assembler", r"\b(?:module asm|asm (?:sideeffect |alignstack |inteldialect )*\")"),
    ("a type", r"\bx86_(?:fp80|mmx|amx)\b"),
    ("a calling convention", r"\b(?:x86_\w+cc|x86_64_\w+cc|win64cc|intel_ocl_bicc|cc ?\d+)\b"),
    ("an address space", r"\baddrspace\(\d+\)"),
    ("a section", r"\bsection \""),
]
# What else may stand in the module's flags: how its code is addressed.
FLAGS = {"PIC Level", "PIE Level", "uwtable", "frame-pointer", "RtLibUseGOT", "Debug Info Version"}
ATTRIBUTES = re.compile(r"^attributes #\d+ = \{(.*)\}$", re.M)
VALUED = re.compile(r'"[^"\s]+"="[^"]*"')
STRING = re.compile(r'\bc"(?:[^"\\]|\\[0-9A-Fa-f]{2}|\\\\)*"')


class Foreign(Exception):
    """Something of x86-64 that isn't known here."""


def facts(layout):
    """What the IR depends on, of a data layout."""
    items = layout.split("-")
    found = {"order": "e" if "e" in items else "E", "p": "64:64"}
    found.update(it.split(":", 1) for it in items if re.match(r"(?:p|i64|i128):", it))
    return {**found, "stack": next((it for it in items if it.startswith("S")), "")}


def head(text, word):
    """What stands in the head of the IR behind `target` and this word."""
    found = re.findall(rf'^target {word} = "(.*)"$', text, re.M)
    if len(found) != 1:
        raise Foreign(f"{len(found)} lines that say the target's {word}")
    return found[0]


def unknown(text, known):
    """Names what is of a processor or a system, and isn't among what the target is known to have."""
    code = STRING.sub('c""', text)
    for name, form in FOREIGN:
        yield from (f"{name}: {found}" for found in sorted(set(re.findall(form, code)) - known))
    alone = re.findall(r'"[^"]*"', VALUED.sub("", "".join(ATTRIBUTES.findall(code))))
    for found in sorted({*VALUED.findall(code), *alone} - known):
        if not re.fullmatch(PROBES, f" {found}"):
            yield f"an attribute: {found}"
    for found in set(re.findall(r'^!\d+ = !\{i32 \d, !"([^"]*)"', code, re.M)) - FLAGS:
        yield f"a flag of the module: {found}"


def with_functions(text, functions):
    """The IR with functions of its own in the place of intrinsics."""
    for name, body in functions.items():
        own = "@of_" + name.replace("llvm.", "").replace(".", "_")
        defined = f"define internal <16 x i8> {own}{TABLE_BY_PLACES} alwaysinline nounwind {{\n{body}}}"
        text = re.sub(rf"^declare .*@{re.escape(name)}\(.*$", lambda _: defined, text, flags=re.M)
        text = text.replace(f"@{name}(", f"{own}(")
    return text


def retarget(text, triple, layout):
    """Gives the IR for the target with this triple and data layout. Raises Foreign, with what is found, where anything
    else of x86-64 stands in it."""
    if head(text, "triple") != TRIPLE:
        raise Foreign(f"the triple {head(text, 'triple')}, and not {TRIPLE}")
    own, processor = head(text, "datalayout"), triple.split("-")[0]
    if facts(own) != facts(layout):
        raise Foreign(f"the data layout {own}, which doesn't agree with {layout}")
    known = {f"@{PSHUFB}", PROCESSOR}
    if processor != TRIPLE.split("-")[0]:
        known = {f"@{TBL}"} if processor == "aarch64" else set()
        text = with_functions(text.replace(f" {PROCESSOR}", ""), replaced(processor))
    if left := list(dict.fromkeys(unknown(text, known))):
        raise Foreign("; ".join(left))
    text = re.sub(PROBES, "", text) if "windows" in triple else text
    text = re.sub(r'^(target datalayout = ").*(")$', rf"\g<1>{layout}\2", text, flags=re.M)
    return re.sub(r'^(target triple = ").*(")$', rf"\g<1>{triple}\2", text, flags=re.M)


def flags_of(words):
    """Of the words by which the toolchain calls its compiler, those that hold for every target: all but the system, the
    processor and the files."""
    words = [word for word in words if not re.match(r"--target=|--sysroot=|-march=", word)]
    return words[:words.index("-c")] + words[words.index("-o") + 2:]
