"""`make check`: the tests of what users have, without the toolchain, in three minutes of processor time at most."""
import importlib

PYTHON = ("module", "sizes", "texts", "elements", "drawings", "surface", "messages", "answers", "batches", "labels",
          "whole", "wanted", "quick")
SAMPLER = ("options", "usage", "errors", "unread", "early", "formats", "corners", "contents", "torn", "dots",
           "sheets", "every_size", "a_label")
# Subjects, classes and cases.
CASES = ["documents", "library.test_systems.Here", "library.test_compiled.Compiled",
         *(f"python.test_{name}" for name in PYTHON),
         *(f"sampler.test_sampler.Sampler.test_{name}" for name in SAMPLER)]
# Cases of these that take longest, which the gate alone runs.
DEAR = {f"test_{name}" for name in ("alike", "beside", "beside_zint", "by_threads", "c_with_the_sanitisers",
                                    "charsets", "chosen", "cpp", "drawn", "files", "first_symbols", "forms", "found",
                                    "grids", "in_words", "made_anew", "no_picture", "otherwise", "python",
                                    "round_trips", "rust", "side_by_side", "strange_grids", "texts")}
UNPROVED = ("Nothing was proved here. What was tested is made of compiled/, which library/build made of the proved "
            "source; `make test` proves that, with the toolchain.")


def prepare():
    """Fewer hostile rounds than the gate takes, and the sampler that is built."""
    importlib.import_module("tests.library.test_systems").Here.rounds = 1_000
    sampler = importlib.import_module("tests.sampler.common")
    sampler.SamplerCase.made = sampler.places.path("sampler", "out")
