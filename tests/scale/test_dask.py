"""Runs the recipe for Dask of docs/SCALE.md, with two workers on loopback, and compares it with one run."""
import os
import re
import subprocess
import sys
import time

from tests import corpus
from tests.scale.runs import free_port
from tests.support import commands, needs, package, places
from tests.support.case import Case


# How the program spells refusals.
WORDS = {5: "border {0}", 6: "block {1}", 7: "reserved {1}", 8: "left-out {0} {1}", 9: "upper-shift {1}",
         10: "triplet {1}", 11: "value {1}", 12: "length {1}", 13: "unfinished {1}", 14: "too-long"}


def refused(why):
    """Gives the refusal that a caller of the library tells, as the program spells it."""
    return f"\\no {why.code.value} " + WORDS[why.code.value].format(why.value, why.place)


def recipe():
    source = re.search(r"```python\n(# grids on Dask's workers\n.*?)```", places.text_of("docs", "SCALE.md"), re.S)[1]
    space = {}
    exec(source, space)
    return space


def grids():
    """The marks of other encoders, again and again, some of them damaged, with more empty lines than are needed."""
    marks = [mark.text.strip() for mark in corpus.marks("squares")]
    texts = []
    for turn in range(12):
        for number, mark in enumerate(marks):
            if (turn + number) % 5 == 0:  # a side is lost, and the grid is refused
                side = len(mark.split("\n"))
                mark = "\n".join(["0" * side] * side)
            texts.append(mark + "\n" * (1 + number % 3))
    return "\n".join(texts)


@needs.program
@needs.library
@needs.module("distributed")
class Dask(Case):
    @classmethod
    def setUpClass(cls):
        cls.ecc200, cls.space, cls.text = package.imported(), recipe(), grids()
        cls.room = cls.folder_of_class()
        cls.path = os.path.join(cls.room, "grids.txt")
        places.wrote(cls.text, cls.path)
        with open(cls.path, encoding="ascii") as rows:
            cls.records = [grid for part in cls.space["parts"](rows, 50) for grid in part]
        cls.done = commands.run([places.PROGRAM, "read"], cls.text.encode())

    def cluster(self):
        """Starts a scheduler and two workers on the loopback address, each a process of its own, and gives a client."""
        address = f"tcp://127.0.0.1:{(port := free_port())}"
        env = commands.environment(**package.settings(), DASK_TEMPORARY_DIRECTORY=self.room)
        quiet = {"stdin": subprocess.DEVNULL, "stdout": subprocess.DEVNULL, "stderr": subprocess.DEVNULL,
                 "cwd": self.room, "env": env}
        module, local = [sys.executable, "-m"], ["--host", "127.0.0.1", "--no-dashboard"]
        self.process([*module, "distributed.cli.dask_scheduler", *local, "--port", str(port)], **quiet)
        for _ in range(2):
            self.process([*module, "distributed.cli.dask_worker", address, *local, "--nthreads", "1", "--no-nanny",
                          "--local-directory", self.room], **quiet)
        return self.enterContext(self.connected(address))

    @staticmethod
    def connected(address):
        import distributed
        until = time.monotonic() + 90
        while True:
            try:
                client = distributed.Client(address, timeout=5)
                client.wait_for_workers(2, timeout=60)
                return client
            except OSError:
                if time.monotonic() > until:
                    raise
                time.sleep(0.5)

    def test_answers_come_in_order_from_two_workers(self):
        client, here = self.cluster(), self.ecc200.read_many(self.records)
        for size in (50, 300):
            with open(self.path, encoding="ascii") as rows:
                answers = self.space["read_on"](client, rows, size)
            self.row(f"answers in order, {size}", [str(answer) for answer in answers], [str(answer) for answer in here])
        foreign = ["10\n", "1\xe9\n", "\n", *(f"{row}\n" for row in self.records[1])]
        self.row("a foreign character is refused by itself", [str(answer) for answer in self.space["read_on"](
            client, foreign)], [str(self.ecc200.read_many([["10", "1\xe9"]])[0]), str(here[1])])
        workers = client.run(os.getpid)
        where = client.gather([client.submit(os.getpid, pure=False, workers=[worker]) for worker in workers])
        self.row("two workers in processes of their own", (len(workers), len(set(where) - {os.getpid()})), (2, 2))
        usual = self.ecc200.read_many(self.records, extent=self.ecc200.Extent.USUAL)
        refused = sum(isinstance(answer, self.ecc200.Refused) for answer in answers)
        left_out = sum(isinstance(answer, self.ecc200.Refused) and answer.value == 240 for answer in usual)
        lines = self.done.output.decode().splitlines()
        self.row("counts", (len(answers), refused + left_out, self.done.status),
                 (len(lines), sum(line.startswith("\\no ") for line in lines), 1))

    def test_one_run_of_the_program_at_the_usual_extent(self):
        from ecc200.spelling import spelled
        usual = self.ecc200.read_many(self.records, extent=self.ecc200.Extent.USUAL)
        got = [refused(it) if isinstance(it, self.ecc200.Refused) else spelled(it.items) for it in usual]
        self.assertEqual(got, self.done.output.decode().splitlines())
