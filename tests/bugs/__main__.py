"""Plants the bugs of a subject, one at a time: with each, its test has to fail.

    python3 -m tests.bugs library|page|python|sampler [WORD]

Only those in whose line WORD stands are planted, if it is given. ECC200_FOLDER may name a folder with a library that is
built."""
import argparse
import importlib
import sys
import tempfile
from concurrent.futures import ThreadPoolExecutor

from tests.bugs import Unplantable
from tests.support import needs


def is_found(own, bug):
    try:
        with tempfile.TemporaryDirectory() as folder:
            by = own.found_by(bug, folder)
    except Unplantable as why:
        by, told = None, f"can't be planted: {why}"
    else:
        told = f"found by {' '.join(by.split())[:150]}" if by else "NOT FOUND"
    print(f"{bug}: {told}", flush=True)
    return by is not None


def main():
    words = argparse.ArgumentParser(prog="python3 -m tests.bugs", description=__doc__.split("\n\n", maxsplit=1)[0])
    words.add_argument("subject", choices=("library", "page", "python", "sampler"))
    words.add_argument("word", metavar="WORD", nargs="?", default="")
    given = words.parse_args()
    if problem := None if needs.is_library_built() else needs.made("library"):
        sys.exit(problem)
    own = importlib.import_module(f"tests.{given.subject}.planted")
    with own.ready(), ThreadPoolExecutor(own.AT_ONCE) as pool:
        found = list(pool.map(lambda bug: is_found(own, bug), (bug for bug in own.bugs() if given.word in str(bug))))
    print(f"{sum(found)} passed, {len(found) - sum(found)} failed")
    return 0 if found and all(found) else 1


if __name__ == "__main__":
    sys.exit(main())
