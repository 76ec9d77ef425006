"""What pip calls at the top of the tree: library and sampler are built of compiled/, without the toolchain, and the
wheel of library/python carries them."""
import os
import shutil
import subprocess
import sys

from setuptools import build_meta

TOP = os.path.dirname(os.path.dirname(os.path.abspath(__file__)))
PYTHON = os.path.join(TOP, "library", "python")


def in_package(hook, *given):
    """What setuptools does in the folder of the package, once that has its libraries. It leaves nothing there."""
    subprocess.run([os.path.join(TOP, "library", "assemble")], check=True)
    if subprocess.run([os.path.join(TOP, "packaging", "needs"), "sampler"]).returncode:
        print("left out: the sampler, which finds symbols in pictures", file=sys.stderr)
    else:
        subprocess.run([os.path.join(TOP, "sampler", "build")], check=True)
    before = os.getcwd()
    os.chdir(PYTHON)
    clear()
    try:
        return hook(*given)
    finally:
        clear()
        os.chdir(before)


def clear():
    """Removes what setuptools leaves in the folder of the package."""
    for left in ("out/build", "ecc200.egg-info"):
        shutil.rmtree(os.path.join(PYTHON, left), ignore_errors=True)


def build_wheel(wheel_directory, config_settings=None, metadata_directory=None):
    return in_package(build_meta.build_wheel, os.path.abspath(wheel_directory), config_settings)


def prepare_metadata_for_build_wheel(metadata_directory, config_settings=None):
    return in_package(build_meta.prepare_metadata_for_build_wheel, os.path.abspath(metadata_directory), config_settings)


def build_sdist(sdist_directory, config_settings=None):
    raise NotImplementedError("the sources are one archive, which `make dist` makes")
