"""Tries faults of a job, of the machine and its disks on each recipe of docs/SCALE.md for one machine."""
import os
import resource
import subprocess
import sys
import tempfile

from tests.scale.faults import (ALONE, AROUND, FAULTS, WORDS, Faults, hit, in_parts, limited, machines, made_fake,
                                missing_text, planted, to_output, without)
from tests.scale.runs import MESSAGES, PATH, Scale, environment, put, ran
from tests.support import commands, places

FILE = "a file of grids on all processors"


class Jobs(Faults):
    """Each fault of a job: on a recipe as it stands, and on the first of several parts; of a file the third and all."""

    def test_each_fault(self):
        for name in ALONE:
            given, wanted, tests = *self.of(name), []
            for fault in FAULTS:
                for size, number in ((None, 1), ("400K", 1), ("400K", 3), ("400K", 0))[: 4 if name == FILE else 2]:
                    block = self.recipes[name] if size is None else in_parts(self.recipes[name], size)
                    which = "whole" if size is None else f"in parts, job {number or chr(42)}"
                    run = fault, block, given, WORDS[name][1], wanted, number
                    tests.append((f"{name}, {which}: dm_tool {fault}", lambda a=run: planted(*a)))
            self.all_tried(tests)


class Machine(Faults):
    """What is missing on the machine, is full, or refused; in each recipe."""

    def on_each(self, tests_of):
        """Tries on each recipe what `tests_of` makes of its name and the arguments of a run."""
        self.all_tried((f"{name}: {which}", call) for name in ALONE
                       for which, call in tests_of(name, (self.recipes[name], *self.of(name))))

    def in_parts(self, name):
        return in_parts(self.recipes[name], "400K"), *self.of(name)

    def test_programs_that_are_missing(self):
        paths = machines(self.folder())

        def tests_of(name, run):
            for missing, path in paths.items():
                yield f"no {missing}", lambda p=path: hit(*run, path=p)
                if missing != "dm_tool":
                    no_text = run[0], {WORDS[name][0]: b""}, (0, b"")
                    yield f"no text: no {missing}", lambda p=path: hit(*no_text, path=p)
        self.on_each(tests_of)

    def test_a_text_that_is_missing(self):
        self.on_each(lambda _, run: [("no text to read", lambda: missing_text(run[0]))])

    def test_outputs_that_are_full_or_closed(self):
        def tests_of(name, _):
            block, *more = self.in_parts(name)
            for full in (">/dev/full", ">&-", "| head -c 100; exit ${PIPESTATUS[0]}"):
                yield f"answers go {full}", lambda c=to_output(block) + full: hit(c, *more, stdout=subprocess.DEVNULL)
        self.on_each(tests_of)

    def test_no_folder_for_temporary_files(self):
        self.on_each(lambda name, _: [("no folder", lambda: hit(*self.in_parts(name), env={"TMPDIR": "/nowhere"}))])

    def limits(self, kind, values, told, **more):
        def tests_of(name, _):
            for most, value in values:
                yield told.format(most), lambda v=value: hit(*self.in_parts(name), **more, **limited(name, kind, v))
        self.on_each(tests_of)

    def test_a_limit_of_the_bytes_of_a_file(self):
        self.limits(resource.RLIMIT_FSIZE, [(most, most) for most in (0, 4096, 50000)], "files of at most {} bytes")

    def test_a_limit_of_memory(self):
        self.limits(resource.RLIMIT_AS, [(it, it << 20) for it in range(4, 44, 8)], "{} MiB of memory", sure=False)

    def test_a_limit_of_open_files(self):
        self.limits(resource.RLIMIT_NOFILE, [(most, most) for most in (12, 13, 16, 40)], "{} open files")


def can_mount():
    with tempfile.TemporaryDirectory() as disk:
        words = ["mount", "-t", "tmpfs", "-o", "size=16k", "none", disk]
        return commands.said(words)[0] == 0 and commands.said(["umount", disk])[0] == 0


class Disks(Faults):
    """A folder for temporary files, or for the answers, on a disk that is full before the end."""

    def setUp(self):
        self.skip_for(not can_mount() and "full disks take root's right to mount one")

    def disk(self, size):
        """Mounts a disk, which is gone when the case ends."""
        disk = self.folder()
        subprocess.run(["mount", "-t", "tmpfs", "-o", f"size={size}", "none", disk], check=True)
        self.addCleanup(subprocess.run, ["umount", disk], check=True)
        return disk

    def full(self, size):
        for name in ALONE:
            disk = self.disk(size)
            wrong = hit(in_parts(self.recipes[name], "600K"), *self.of(name), env={"TMPDIR": disk}, sure=size == "16k",
                        is_first=True)
            self.sound(f"{name}: the disk for temporary files", wrong)
            self.row(f"{name}: what is on that disk", os.listdir(disk), [])
            place = self.recipes[name].replace("answers.txt", f"{disk}/answers")
            self.sound(f"{name}: the disk for the answers", hit(place, *self.of(name)))
            self.row(f"{name}: what is on that disk then", [one for one in os.listdir(disk) if "--output" in place], [])

    def test_a_disk_of_16_kibibytes(self):
        self.full("16k")

    def test_a_disk_of_64_kibibytes(self):
        self.full("64k")


class SameFolder(Faults):
    def test_two_runs_at_once_and_then_a_third(self):
        """In a folder with files of such names as a run may want."""
        folder, wanted = self.folder(), self.wanted[FILE]
        names = ["jobs.tsv", "part.0000", "part.0000.out", "part.0000.status", "text", "answers", "counted", "joined",
                 "parallel", "1"]
        put(folder, {"grids.txt": self.given["grids.txt"], **{one: b"old\n" for one in names}})
        block = in_parts(self.recipes[FILE], "400K")
        blocks, env = [block, block.replace("answers.txt", "others.txt")], environment(folder)
        runs = [self.process(["bash", "-c", command], cwd=folder, env=env) for command in blocks]
        statuses = [run.wait() for run in runs]
        statuses.append(subprocess.run(["bash", "-c", block], cwd=folder, env=env, check=False).returncode)
        for answers in ("answers.txt", "others.txt"):
            self.row(answers, (statuses, places.read(folder, answers)), ([wanted[0]] * 3, wanted[1]))
        left = sorted([*names, "answers.txt", "others.txt", "grids.txt", "scratch"])
        self.row("files in that folder", sorted(os.listdir(folder)), left)


class InPython(Scale):
    """A partition and a process that stays, whose program has a fault."""

    @classmethod
    def setUpClass(cls):
        super().setUpClass()
        text = ran(["write"], MESSAGES.replace(b"\\q\n", b""))[1]
        cls.symbols = b"".join(record.replace(b"\n", b",") + b"\n" for record in text.rstrip(b"\n").split(b"\n\n")) * 50

    def run_over(self, source, body, given=b""):
        env = commands.environment(PATH=made_fake(self.folder(), body))
        return commands.run([sys.executable, "-c", source], given, env=env, timeout=60)

    def test_a_partition(self):
        for fault, body in FAULTS.items():
            if fault not in AROUND:
                done = self.run_over(self.recipes["a partition"], body, self.symbols)
                self.row(fault, (done.status, done.output, b"answers are missing" in done.errors), (3, b"", True))

    def test_a_partition_without_the_program_or_to_a_full_output(self):
        words = [sys.executable, "-c", self.recipes["a partition"]]
        path = without(os.path.join(self.folder(), "path"), "dm_tool")
        done = commands.run(words, self.symbols, env=commands.environment(PATH=path))
        self.row("no dm_tool", (done.status, done.output), (3, b""))
        with open("/dev/full", "wb") as full:
            done = commands.run(words, self.symbols, env=commands.environment(PATH=PATH), stdout=full)
        self.row("a full output", done.status, 3)

    def test_a_process_that_stays(self):
        asked = self.recipes["a process that stays"] + "\nreader = Reader()\nprint(reader.ask(['10', '01']))\n"
        for fault in ("ends with 0 before it has read", "is killed at once", "reads its part and answers nothing"):
            done = self.run_over(asked, FAULTS[fault].replace("cat", "head -n 1"))
            self.row(f"dm_tool {fault}", (done.status != 0, done.output), (True, b""))
