"""Tries the wrong bodies in crates/*/must-fail, those of a crate together: the prover has to refuse each.

`rt must-fail` tries these edits one at a time, over a proof of the whole crate. Here each stands in a copy of the crate
as a function of its own, beside the one whose contract and proof it has, and the check is asked for these alone; but a
method of a trait takes its place, and edits of one function may share a body, if must-fail/goals.md says so.

must-fail/goals.md names the goal whose answer refuses an edit. This answer, or the tactic by which the right body's is
found, stands in a module below the file of answers. From that file the toolchain takes what goals to make, but it
imports what isn't there: so no other goal is tried, and no proof is put together.

Nothing else is proved in the copy, since tests/proofs does that: each other function is an endless loop there, and a
hole stands for its proof and for that of each lemma, which are taken by what they state."""
import collections
import functools
import glob
import os
import re
import shutil
import subprocess
import tempfile

from tools import crates
from tests.support import places

# A file with the hole that stands for the proofs that aren't tried, and the proof of a function by it.
ELSEWHERE = "pub proved_elsewhere {ℓ} : {A : Type ℓ} → A\nproved_elsewhere = ?\n"
SPEC = """\
use {module}.Statement.{{statement}}

pub {name}_spec : {{M : Type 1}} → statement M
{name}_spec = proved_elsewhere
"""
# An endless loop behind what the borrow checker doesn't follow, so that nothing of it is checked.
STUB = "let nowhere: *const u8 = std::ptr::null(); let _it = unsafe { *nowhere }; loop {}"
# What the toolchain says where a proof names what an edit took away, which says little of the contract.
TAKEN_AWAY = re.compile(r"has no field|is not in scope|has no `|was not admitted")
OPENS_FUNCTION = r"( *)(?:pub(?:\(\w+\))? )?(?:const )?(?:extern \"C\" )?fn (\w+)"
OPENS_IMPL = r"()impl(?:<.*?>)? (?:([\w:]+)(?:<.*>)? for )?(\w+)"
# What has parameters beside lifetimes: the answers of such a function take them before what is known at the goal.
IS_GENERIC = r"(?:\bfn \w+|\bimpl)<(?!'\w+(?:, '\w+)*>)"
PARTED = re.compile(r"\n\n(?=\S)")
# The answer to a goal that the right body needs none for, and the tactics by which the toolchain finds it there.
TACTICS = {"": "search rules fits 100", " by search": "search rules depth 2",
           " by steps": "search (rules, common_steps) fits 500"}
SEARCHED = """\
use Rattle.std.proofs.Common.{{rules}}
use Rattle.std.proofs.lemmas.Grind.{{common_steps}}
use {module}.Goals as goal

pub {goal} : goal.{goal}
{goal} {parameters}c = {tactic}
"""
# What is said where the crates below aren't proved.
LACKING = "not proved as they stand: {}; run `rt lib` in each, or `make build`, first"

# A function of a file: its path below the crate, the lines where its comment and itself begin, and the line after.
Function = collections.namedtuple("Function", "path file above start end is_of_trait is_generic")
# An edit of a function: its name, the lines that its body changes, by their numbers, the goal whose answer refuses it,
# the tactic where the right body needs no answer, and the edit that the body is of.
Edit = collections.namedtuple("Edit", "name function changes goal tactic body")


def enclosing(opens, lines, at):
    """The items that hold line at, outermost first: of each its first line, the line after it, and a match."""
    found = []
    for start, line in enumerate(lines[:at]):
        if match := re.match(opens, line):
            end = next((it for it in range(start, len(lines)) if lines[it] == match[1] + "}"), start)
            found += [(start, end + 1, match)] * (at < end)
    return found


def function_at(lines, at, file):
    """The function of the file that holds line at, or None."""
    functions, impls = enclosing(OPENS_FUNCTION, lines, at), enclosing(OPENS_IMPL, lines, at)
    if not functions:
        return None
    start, end, match = functions[-1]
    above = start
    while lines[above - 1].strip() and not lines[above - 1].endswith("{"):
        above -= 1
    module = [it for it in file.removeprefix("src/").removesuffix(".rt").split("/") if it not in ("lib", "main", "mod")]
    # (an impl for a type of the language, such as u8, is called U8 and the trait)
    owner = [it[3][0].upper() + it[3][1:] + (it[2] or "").split("::")[-1] for _, _, it in impls]
    is_generic = any(re.search(IS_GENERIC, lines[it]) for it, _, _ in [functions[-1], *impls])
    return Function("::".join([*module, *owner, match[2]]), file, above, start, end, any(it[2] for _, _, it in impls),
                    is_generic)


def body_of(lines, start):
    """Where the lines in the braces of the function that starts at a line begin and end; None where it has none."""
    indent = re.match(" *", lines[start])[0]
    for at in range(start, len(lines)):
        ends_head = at == start or lines[at].startswith(indent + ")")
        if lines[at] == indent + "{" or lines[at].endswith(" {") and ends_head:
            return at + 1, lines.index(indent + "}", at)
        if not lines[at] or lines[at].endswith((";", "{}")):
            return None
    return None


@functools.cache
def goals_of(crate):
    """By the name of an edit its goal, the tactic where the right body needs no answer, and the edit that the body is
    of."""
    path = crates.folder(crate, "must-fail", "goals.md")
    rows = re.findall(r"- `(\w+)`: `(.+?)`( by \w+)?(?: with `(\w+)`)?\n", places.text_of(path))
    return {name: (goal, TACTICS[how], body or name) for name, goal, how, body in rows}


def read_edits(crate, name):
    """Reads an edit of the toolchain's format: `file:`, and pairs of `old:` and `new:`, a line each, of which the old
    text stands in the file once. Gives an edit for each function that it changes."""
    path, texts, were = crates.folder(crate, "must-fail", f"{name}.edit"), {}, {}
    for line in places.text_of(path).split("\n"):
        if line.startswith("file: "):
            file = line[len("file: ") :]
            if file not in texts:
                texts[file] = were[file] = places.text_of(crates.folder(crate, file))
        elif line.startswith("old: "):
            old = line[len("old: ") :]
        elif line.startswith("new:"):
            if texts[file].count(old) != 1:
                raise ValueError(f"{path}: {old!r} stands in {file} {texts[file].count(old)} times")
            texts[file] = texts[file].replace(old, line[len("new: ") :])
    changed = collections.defaultdict(dict)
    for file, text in texts.items():
        right = were[file].split("\n")
        for at, line in enumerate(text.split("\n")):
            if line != right[at]:
                function = function_at(right, at, file)
                if not function:
                    raise ValueError(f"{path}: no function holds {right[at]!r}")
                changed[function][at] = line
    if not changed:
        raise ValueError(f"{path}: no function is changed")
    names = [name] if len(changed) == 1 else [f"{name}_in_{it.path.split('::')[-1]}" for it in changed]
    if missing := set(names) - goals_of(crate).keys():
        raise ValueError(f"{path}: must-fail/goals.md names no goal of {missing}")
    return [Edit(of, it, changed[it], *goals_of(crate)[of]) for of, it in zip(names, changed)]


def joined(edits, are_left_out=False):
    """The edits with what their bodies change; without what each itself does, if they are left out."""
    found = []
    for edit in edits:
        beside = [it.changes for it in edits if it.body == edit.body and it != edit]
        changes = dict(collections.ChainMap(*beside, {} if are_left_out else edit.changes))
        found.append(edit._replace(changes=changes, body=edit.name if are_left_out else edit.body))
    return found


def judged(edit):
    """The path of the function that has the edit's body in the copy."""
    return edit.function.path if edit.function.is_of_trait else re.sub(r"\w+$", edit.body, edit.function.path)


def folder_of(path, room):
    """Where the proof of the function with this path lies in a copy."""
    return os.path.join(room, "proofs", *path.split("::"))


def write_copy(crate, bodies, room):
    for part in {"src", "specs", "proofs"}.intersection(os.listdir(crates.folder(crate))):
        shutil.copytree(crates.folder(crate, part), os.path.join(room, part))
    # (from the last line of a file up, so that the lines above keep their numbers)
    for to, (edit, *_) in sorted(bodies.items(), key=lambda it: -it[1][0].function.start):
        function, path = edit.function, os.path.join(room, edit.function.file)
        lines = places.text_of(path).split("\n")
        above = [it for it in lines[function.above : function.start] if "#[tactic(" not in it] + ["#[tactic(none)]"]
        own = [edit.changes.get(at, lines[at]) for at in range(function.start, function.end)]
        if function.is_of_trait:
            lines[function.above : function.end] = [*above, *own]
        else:
            own[0] = re.sub(r"\bfn \w+", f"fn {edit.body}", own[0])
            lines[function.end : function.end] = ["", *above, *own]
            copy_proof(crate, room, function.path, to)
        places.wrote("\n".join(lines), path)


def write_stubs(bodies, room):
    """Puts an endless loop in the place of each other function's body in the copy, and gives the paths of these
    functions. A constant function stays, since the compiler runs it."""
    stubs = []
    for path in glob.glob(f"{room}/src/**/*.rt", recursive=True):
        file = os.path.relpath(path, room)
        lines = places.text_of(path).split("\n")
        # (from the last line up, so that the lines above keep their numbers)
        for start in range(len(lines) - 1, -1, -1):
            match = re.match(OPENS_FUNCTION, lines[start])
            body = match and "const fn" not in match[0] and body_of(lines, start)
            function = body and function_at(lines, start + 1, file).path
            if function and function not in bodies:
                lines[slice(*body)] = [f"{match[1]}    {STUB}"]
                stubs.append(function)
        places.wrote("\n".join(lines), path)
    return stubs


def copy_proof(crate, room, path, to):
    """Gives the function `to` the proof of another, if that has files."""
    was, now = folder_of(path, room), folder_of(to, room)
    if not os.path.isdir(was):
        return
    shutil.copytree(was, now)
    module, copied = [f"Rattle.{crate}.proofs.{it.replace('::', '.')}" for it in (path, to)]
    for file in glob.glob(f"{now}/*.antt"):
        places.wrote(re.sub(rf"{re.escape(module)}\b", copied, places.text_of(file)), file)


def write_answers(crate, path, edits, room):
    """Puts the answer to the goal of each of a body's edits into a module of its own, and leaves of the file of answers
    what names these goals, as a file that can't be read to its end; but for a method of a trait, just these answers."""
    folder, module = folder_of(path, room), f"Rattle.{crate}.proofs.{path.replace('::', '.')}"
    file = f"{folder}/Answers.antt"
    text = places.text_of(file) if os.path.exists(file) else ""
    answers = {it.name: answer_alone(module, text, it) for it in edits}
    os.makedirs(f"{folder}/Answers", exist_ok=True)
    parts = [*dict.fromkeys(it for own in answers.values() for it in PARTED.split(own))]
    # (what calls a method of a trait is checked if its file can be read)
    if not edits[0].function.is_of_trait:
        for name, own in answers.items():
            places.wrote(own, f"{folder}/Answers/{name}.antt")
        parts += [f"mod {it}\nuse {module}.Answers.{it}" for it in answers] + [f"use {module}.Nothing"]
    places.wrote("\n\n".join(sorted(parts, key=lambda it: not it.startswith(("mod ", "use ")))), file)


def answer_alone(module, text, edit):
    """The text of a file of answers without those to other goals, but for what it names of these, or else the answer by
    a tactic. All of it, if the edit's goal is a lemma there."""
    parts = PARTED.split(text)
    named = [re.search(r"(?m)^(?:pub )?(\S+) :\s+(goal\.)?", it) or ["", "", ""] for it in parts]
    own = next((at for at, it in enumerate(named) if it[1] == edit.goal), None)
    if own is None:
        return SEARCHED.format(module=module, goal=edit.goal, parameters="g " * edit.function.is_generic,
                               tactic=edit.tactic)
    kept = [at for at, it in enumerate(named) if at == own or not named[own][2] or not it[2]]
    for at in kept:
        kept += [other for other, it in enumerate(named) if other not in kept
                 and re.search(rf"(?<![\w.-]){re.escape(it[1])}(?![\w-])", parts[at])]
    return "\n\n".join(parts[it] for it in sorted(kept))


def leave_proofs_out(crate, bodies, stubs, room):
    """Puts a hole in place of the proofs in the copy that aren't those of these bodies."""
    proofs = os.path.join(room, "proofs")
    own, held = {folder_of(it, room) for it in bodies}, {folder_of(it, room) for it in stubs}
    texts = {file: places.text_of(file) for file in glob.glob(f"{proofs}/**/*.antt", recursive=True)}
    unfolded = {name for text in texts.values() for names in re.findall(r"(?m)^ *unfolding (.*)", text)
                for name in names.split()}
    lib = os.path.join(proofs, "Lib.antt")
    written = {f"{proofs}/Elsewhere.antt": ELSEWHERE, lib: f"{texts.pop(lib, '')}\nmod Elsewhere\n"}
    hole = f"use Rattle.{crate}.proofs.Elsewhere.{{proved_elsewhere}}\n"
    for file, text in texts.items():
        folder, name = os.path.split(file)
        # (a function that calls itself has the proof of a cycle of calls, which isn't one in a stub)
        in_cycle = os.path.basename(folder).startswith("+")
        if folder in own or in_cycle and folder.replace("+", "") not in held:
            continue
        if in_cycle or name in ("Proof.antt", "Invariants.antt", "Answers.antt"):
            os.remove(file)
            held |= set() if in_cycle else {folder}
        else:
            written[file] = hole + stated(text, unfolded)
    for folder in held:
        path = os.path.relpath(folder, proofs).split(os.sep)
        written[f"{folder}/Proof.antt"] = hole + SPEC.format(module=".".join(["Rattle", crate, "proofs", *path]),
                                                             name=path[-1])
    for file, text in written.items():
        os.makedirs(os.path.dirname(file), exist_ok=True)
        places.wrote(text, file)


def stated(text, unfolded):
    """The text of a file of lemmas with the hole in place of each proof. What has another form than a lemma stays, and
    so does what some proof unfolds, since there more than its type counts."""
    lines, name, is_left_out = [], None, False
    for line in text.split("\n"):
        if not line or line[0] in " )}]":
            lines += [line] * (not line or not is_left_out)
        elif name and line.split()[0] in ("unfolding", name):
            lines += [f"{name} = proved_elsewhere"] * (not is_left_out)
            is_left_out = True
        else:
            lines.append(line)
            states = re.match(r"(?:pub )?([^\s◌]+) : ", line)
            name, is_left_out = states and states[1] not in unfolded and states[1], False
    return "\n".join(lines)


def check(crate, bodies, log):
    """Checks the crate with these bodies, of each its edits, by the path of its function. Gives what it tells of
    functions, by their paths, and what it refuses, by the path of the file below proofs/. Its words go to the log."""
    words = [*crates.command("check", crate), "--jobs", "1", "--allow-holes",
             *(word for path in bodies for word in ("--only", path))]
    told, unread, refused = {}, [], collections.defaultdict(list)
    how = {"stdin": subprocess.DEVNULL, "stdout": subprocess.PIPE, "stderr": subprocess.STDOUT, "text": True,
           "errors": "replace"}
    with tempfile.TemporaryDirectory(prefix="edits-") as room:
        write_copy(crate, bodies, room)
        leave_proofs_out(crate, bodies, write_stubs(bodies, room), room)
        for path, edits in bodies.items():
            write_answers(crate, path, edits, room)
        with subprocess.Popen(words, cwd=room, **how) as run:
            last = []
            for line in run.stdout:
                log.write(line)
                if match := re.match(r"(?:\./)?proofs/(.*)\.antt:\d+:\d+: error: (.*)", line):
                    last = refused[match[1].replace("/", "::")]
                    last.append(match[2])
                elif last and line.startswith("  has no "):
                    last[-1] += line.rstrip()[1:]
                elif match := re.match(rf"fn {crate}::(\S+): (.*)", line):
                    told[match[1]] = match[2]
                elif match := re.match(r"note: (?:\./)?proofs/(.*)/Answers\.antt is not checked", line):
                    unread.append(match[1].replace("/", "::"))
    return {path: said for path, said in told.items() if path not in unread}, refused


def crates_with_edits():
    """Gives the crates that have edits, from the top, each with the names of its edits."""
    found = {it: glob.glob(crates.folder(it, "must-fail", "*.edit")) for it in reversed(crates.declared())}
    return {it: sorted(os.path.basename(path).removesuffix(".edit") for path in paths)
            for it, paths in found.items() if paths}


def unproved_below(crate):
    """Gives the crates below this one, if one of them has changed since it was proved; else none."""
    return [] if crates.are_proved(crates.below(crate)) else crates.below(crate)


def tried(crate, edits):
    """Gives for each edit, by its name, what the check refuses of its goal's answer, None where it says nothing of the
    function; then what else is refused. As few checks as keep two edits of one method of a trait apart."""
    found, others = {}, []
    os.makedirs(places.path("out"), exist_ok=True)
    with open(places.path("out", f"edits-{crate}.log"), "w", encoding="utf-8") as log:
        while edits:
            bodies = collections.defaultdict(list)
            for edit in edits:
                own = bodies[judged(edit)]
                own += [edit] * (not own or own[0].body == edit.body)
            told, refused = check(crate, bodies, log)
            for path, own in bodies.items():
                of_all = refused.pop(f"{path}::Answers", [])
                for edit in own:
                    said = refused.pop(f"{path}::Answers::{edit.name}", of_all if edit.function.is_of_trait else [])
                    found[edit.name] = said if path in told else None
            others += [f"{path}: {it}" for path, all_of in refused.items() for it in all_of]
            edits = [it for it in edits if it not in bodies[judged(it)]]
    return found, others


def verdict(edit, said):
    """Whether the edit is refused, and what to say of it."""
    if said is None:
        return False, "BAD EDIT: the check says nothing of it"
    if real := [it for it in said if f"`{edit.goal}`" in it and not TAKEN_AWAY.search(it)]:
        return True, f"refused, as it must be: {real[0][:160]}"
    return False, f"NOT REFUSED: the answer to {edit.goal} isn't" + "".join(f", but {it[:160]}" for it in said[:1])


def answered(edit, said):
    """Whether the edit's goal is answered, or isn't there, and what to say of it."""
    refused = [it for it in said or [] if f"`{edit.goal}`" in it and f"Goals` has no `{edit.goal}`" not in it]
    return said is not None and not refused, f"without it: {(refused or ['answered'])[0][:200]}"


def try_edits(crate, edits, are_unchanged=False):
    """Gives for each edit, by its name, whether it is refused, and what to say of it; then what else is refused. With
    are_unchanged each is left out of its body, whose goal has to be answered then, or not to arise."""
    found, others = tried(crate, joined(edits, are_unchanged))
    says = answered if are_unchanged else verdict
    return {it.name: says(it, found[it.name]) for it in edits}, others
