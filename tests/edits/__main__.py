"""Tries the wrong bodies in crates/NAME/must-fail of these crates, of all if there are none, and says of each why it is
refused.

    python3 -m tests.edits [--unchanged] [CRATE ..]

With --unchanged each edit is left out of its body, whose goal has to be answered then: so an edit is refused for
itself, and not for standing in a copy or beside others."""
import argparse
import os
import sys
import time
from concurrent.futures import ThreadPoolExecutor

from tests.edits import copies


def tried(crate, names, are_unchanged):
    """Gives for each edit of the crate whether it is well, and what to say of it."""
    begun = time.monotonic()
    try:
        edits = [edit for name in names for edit in copies.read_edits(crate, name)]
    except ValueError as problem:
        return [(False, f"{crate}: BAD EDIT: {problem}")]
    found, others = copies.try_edits(crate, edits, are_unchanged)
    results = [(is_well, f"{crate}/{name}: {said}") for name, (is_well, said) in found.items()]
    results += [(False, f"{crate}: refused, though no edit changes it: {it[:200]}") for it in others]
    print(f"{crate}: {len(results)} tried in {time.monotonic() - begun:.0f} s", flush=True)
    return sorted(results, key=lambda it: it[1])


def main():
    words = argparse.ArgumentParser(prog="python3 -m tests.edits", description=__doc__.split("\n\n", maxsplit=1)[0])
    words.add_argument("--unchanged", action="store_true", help="try copies of the functions as they are")
    words.add_argument("crates", metavar="CRATE", nargs="*")
    given = words.parse_args()
    known = copies.crates_with_edits()
    wanted = given.crates or list(known)
    for crate in wanted:
        if below := copies.unproved_below(crate):
            sys.exit(copies.LACKING.format(", ".join(below)))
    passed = failed = 0
    # (more than two at a time contend for memory, as in tests/proofs)
    with ThreadPoolExecutor(int(os.environ.get("RT_JOBS") or 2)) as lanes:
        for results in lanes.map(lambda it: tried(it, known[it], given.unchanged), wanted):
            for is_well, line in results:
                print(line if is_well else f"FAILED {line}", flush=True)
                passed, failed = passed + is_well, failed + (not is_well)
    print(f"{passed} passed, {failed} failed")
    return 1 if failed else 0


if __name__ == "__main__":
    sys.exit(main())
