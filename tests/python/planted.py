"""Plants bugs in copies of the package: with each, the part of the tests that it names has to fail."""
import os
import shutil
import subprocess
import sys
import unittest
from contextlib import nullcontext as ready

from tests.bugs import bugs_of, sources_in
from tests.support import places

__all__ = ["AT_ONCE", "bugs", "found_by", "ready", "sources"]
AT_ONCE = 1
HERE = "tests.python.planted"
DEBIAN = "/usr/bin/python3"  # for which optional modules are installed
LEFT_OUT = "left out: "


def bugs():
    return bugs_of("python")


def sources(bug):
    return sources_in(bug, "library", "python", "ecc200")


def found_by(bug, folder):
    """What fails first in a bug's part; what is left out there is told."""
    copy = os.path.join(folder, "python")
    shutil.copytree(places.PACKAGE, copy, ignore=shutil.ignore_patterns("out", "__pycache__"))
    for file, text in bug.planted(sources(bug)).items():
        places.wrote(text, copy, "ecc200", file)
    python = DEBIAN if os.path.exists(DEBIAN) else sys.executable
    done = subprocess.run([python, "-m", HERE, copy, bug.where.split()[1]], cwd=places.TOP, stdout=subprocess.PIPE,
                          stderr=subprocess.STDOUT, text=True)
    lines = done.stdout.strip().split("\n")
    print("".join(f"  {line}\n" for line in lines if line.startswith(LEFT_OUT)), end="", flush=True)
    return lines[-1] if done.returncode else None


def main():
    """Runs the part that is named over the package that is: what is left out, and the first words of each failure."""
    places.PACKAGE = sys.argv[1]
    module, case = sys.argv[2].split(".")
    result = unittest.TestResult()
    unittest.defaultTestLoader.loadTestsFromName(f"tests.python.test_{module}.{module.title()}.test_{case}").run(result)
    wrong = [told.strip().splitlines()[-1] for _, told in (*result.failures, *result.errors)]
    print("\n".join([*(LEFT_OUT + why for _, why in result.skipped), *wrong]))
    return 1 if wrong else 0


if __name__ == "__main__":
    sys.exit(main())
