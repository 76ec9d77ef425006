"""The program under test, run on files in a folder, and what was wrong in its answers."""
import os
import resource
import subprocess


class Program:
    """Runs the program, keeps the best times, and compares answers with what they should be."""

    def __init__(self, path, rounds, folder):
        self.path = path
        self.rounds = rounds
        self.folder = folder
        self.wrong = []

    def file(self, name):
        """Where a file of the folder is."""
        return os.path.join(self.folder, name)

    def put(self, name, text):
        """Makes a file of the folder."""
        with open(self.file(name), "w", encoding="latin-1", newline="\n") as file:
            file.write(text)

    def get(self, name):
        """The text of a file of the folder."""
        with open(self.file(name), encoding="latin-1", newline="\n") as file:
            return file.read()

    def run(self, task, given, answers="answers"):
        """Runs a task from a file to a file, and returns its seconds of processor time, from start to end."""
        with open(self.file(given), "rb") as source, open(self.file(answers), "wb") as sink:
            before = resource.getrusage(resource.RUSAGE_CHILDREN)
            status = subprocess.run([self.path, task], stdin=source, stdout=sink).returncode
            after = resource.getrusage(resource.RUSAGE_CHILDREN)
        seconds = after.ru_utime - before.ru_utime + after.ru_stime - before.ru_stime
        if status not in (0, 1):
            raise SystemExit(f"`dm_tool {task}` ended with status {status}")
        return seconds

    def best(self, task, given):
        """The seconds of the best round of a task."""
        return min(self.run(task, given) for _ in range(self.rounds))

    def compare(self, what, got, wanted):
        """Compares two lists of answers, and notes how many are wrong."""
        differ = sum(one != other for one, other in zip(got, wanted)) + abs(len(got) - len(wanted))
        if differ:
            self.wrong.append(f"{what}: {differ} answers of {len(wanted)} are wrong")

    def compare_lines(self, what, wanted, got="answers"):
        """Compares two files, each line an answer."""
        self.compare(what, self.get(got).splitlines(), self.get(wanted).splitlines())

    def compare_grids(self, what, wanted, got="answers"):
        """Compares two files, each grid with the empty line after it an answer."""
        self.compare(what, self.get(got).split("\n\n"), self.get(wanted).split("\n\n"))
