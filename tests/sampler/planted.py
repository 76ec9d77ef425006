"""Plants bugs in copies of the sampler, each of which is built: with each, the case that it names has to fail."""
import os
import shutil
import unittest
from contextlib import nullcontext as ready

from tests.bugs import bugs_of, sources_in
from tests.sampler.test_sampler import Sampler
from tests.support import commands, places

__all__ = ["AT_ONCE", "bugs", "found_by", "ready", "sources"]
AT_ONCE = 1


class Spoilt(Sampler):
    @classmethod
    def setUpClass(cls):
        cls.lacking, cls.room, cls.builds, cls.sanitised = None, cls.folder_of_class(), [], None


def bugs():
    return bugs_of("sampler")


def sources(bug):
    return sources_in(bug, "sampler")


def found_by(bug, folder):
    """What fails first in a bug's case, over a sampler that is built with it."""
    file, case = bug.where.split()
    sampler = os.path.join(folder, "sampler")
    shutil.copytree(places.path("sampler"), sampler, ignore=shutil.ignore_patterns("out"))
    for name in ("library", "packaging", "tools"):
        os.symlink(places.path(name), os.path.join(folder, name))
    places.wrote(bug.planted(sources(bug))[file], sampler, file)
    Spoilt.sources, Spoilt.plain = sampler, os.path.join(sampler, "out")
    Spoilt.sampler = os.path.join(Spoilt.plain, "dm_sample")
    env = commands.environment(ECC200_FOLDER=places.BUILT)
    done = commands.run([os.path.join(sampler, "build"), Spoilt.plain], env=env, timeout=600)
    assert done.status == 0, done.errors.decode()
    result = unittest.TestResult()
    unittest.TestSuite([Spoilt(f"test_{case}")]).run(result)
    assert not result.errors, result.errors[0][1]
    return result.failures[0][1].splitlines()[-1] if result.failures else None
