"""What crates.txt says: the crates of this repository, what each stands on, and where their proofs lie.

`rt ci`, `rt lib` and `make build` leave a crate that they have proved in crates/NAME/out/rlib. Here are the words by
which the toolchain's `rattle` checks a crate over those below it as they were left there, so that what has just been
proved isn't proved once more.
"""
import functools
import os
import shutil
import subprocess
import sys

TOP = os.path.dirname(os.path.dirname(os.path.abspath(__file__)))


def demand_toolchain(script, what):
    """Ends a script with one line where what it would prove isn't built and the toolchain isn't installed."""
    if not shutil.which("rt"):
        why = "isn't built, and the toolchain that would prove it (rt) isn't on the path"
        print(f"{script}: {what} {why}", file=sys.stderr)
        sys.exit(127)


@functools.cache
def kit():
    """The toolchain's folder."""
    return os.path.dirname(subprocess.run(["rt", "doc"], stdout=subprocess.PIPE, check=True, text=True).stdout.strip())


@functools.cache
def declared():
    """What stands in the file, lowest crate first: for each crate the words after its name, and the names of what it
    stands on."""
    found = {}
    with open(os.path.join(TOP, "crates.txt"), encoding="utf-8") as lines:
        for line in lines:
            if line.strip() and not line.startswith("#"):
                crate, _, names = line.partition(":")
                found[crate.split()[0]] = (crate.split()[1:], names.split())
    return found


def uses(crate):
    """What a crate stands on, the toolchain's own libraries among it."""
    return declared()[crate][1]


def below(crate):
    """The crates of this repository that a crate stands on, lowest first."""
    found = []
    for name in uses(crate):
        if name in declared():
            found += [it for it in [*below(name), name] if it not in found]
    return found


def folder(crate, *parts):
    return os.path.join(TOP, "crates", crate, *parts)


def rlib_of(crate):
    """Where the crate lies once it is proved."""
    return folder(crate, "out", "rlib", f"{crate}.rlib")


def last_change(crate):
    """When a file of the crate that a proof reads was changed last."""
    parts = [folder(crate, part) for part in ("src", "specs", "proofs")]
    files = [os.path.join(at, name) for part in parts for at, _, names in os.walk(part) for name in names]
    return max(os.path.getmtime(file) for file in [*files, os.path.join(TOP, "crates.txt")])


def are_proved(crates):
    """Whether each crate was proved after the last change of it and of those that it stands on."""
    return all(os.path.isdir(rlib_of(crate)) and
               os.path.getmtime(rlib_of(crate)) >= max(map(last_change, [*below(crate), crate])) for crate in crates)


def command(step, crate):
    """The words by which rattle checks or builds a crate, in its folder or in a copy of it."""
    main = "src/main.rt" if os.path.exists(folder(crate, "src", "main.rt")) else "src/lib.rt"
    return command_over(step, crate, main, uses(crate),
                        ["--crate-type", "staticlib"] if "staticlib" in declared()[crate][0] else [])


def command_over(step, name, main, stands_on, more=()):
    """The words by which rattle checks or builds what stands on these crates, as they were proved last, or on the
    toolchain's."""
    found = [f"{kit()}/bin/rattle", step, "--crate-name", name, main, *more]
    for it in ["std", *stands_on]:
        found += ["--extern", f"{it}={rlib_of(it) if it in declared() else f'{kit()}/rlibs/{it}.rlib'}"]
    lower = [it for crate in stands_on if crate in declared() for it in (*below(crate), crate)]
    for place in [f"{kit()}/rlibs", *[os.path.dirname(rlib_of(it)) for it in dict.fromkeys(lower)]]:
        found += ["-L", f"dependency={place}"]
    return [*found, "--antt-project", f"{kit()}/rattle/logic/antt-project.json",
            "--logic-built", f"{kit()}/logic_built"]
