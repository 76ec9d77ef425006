"""Runs the recipes of docs/SCALE.md for one machine and for several as they stand there, and dm_parts with all its
words. Bytes and status are compared with one run of the program."""
import os
import subprocess

from tests.scale.runs import MESSAGES, Parallel, environment, grids, left_in, put, ran, recipe, two_hosts
from tests.support import commands, needs, places

# How a text reaches dm_parts: as a file under several names, and by pipes.
WAYS = ["TEXT", "-- TEXT", "< TEXT", "/dev/stdin < TEXT", "./link", "'a b'\\''$HOME\"'",
        "< /dev/null /proc/self/fd/5 5< TEXT"]
PIPES = ["cat TEXT | dm_parts WORDS", "cat TEXT | dm_parts WORDS /dev/stdin",
         "mkfifo pipe; cat TEXT > pipe & dm_parts WORDS pipe",
         "cat TEXT | dm_parts WORDS -- /dev/fd/0", "(dm_parts WORDS < TEXT) <&-", "dm_parts WORDS TEXT <&-"]

WRONG_WORDS = ["", "scribble", "table", "--help-me", "--jobs", "--jobs 0 read", "--jobs x read", "--block 1.5M read",
               "--block 0 read", "--ssh", "--ssh= read", "--ssh -x read", "--output", "--output= read",
               "--output a/ read", "read a b", "read -- a b", "read ''", "read -x", "read --shorter", "check --shorter",
               "write --border 1", "read --border", "read --border x", "read --border 65536",
               "read --border 1 --border 1", "normal --shorter --shorter", "read --jobs 1"]

# Where answers are put, with the status, and what is there afterwards under the name `old`.
OUTPUTS = [("--output old read text", 1, "new"), ("--output old read none", 0, "empty"),
           ("--output old read nosuch", 3, "old"), ("--output old read .", 3, "old"),
           ("--output . read text", 3, "old"), ("--output nosuch/old read text", 3, "old"),
           ("--output /dev/null read text", 3, "old"), ("--output=./old read < text", 1, "new"),
           ("--output old read <&-", 3, "old"), ("--output old --block 1 read text", 1, "new"),
           ("--output -x read text; s=$?; mv -- -x old; (exit $s)", 1, "new"),
           ("--output 'a b' read text; s=$?; mv 'a b' old; (exit $s)", 1, "new"), ("--output link read text", 1, "old"),
           ("--output text read text; s=$?; mv text old; (exit $s)", 1, "new")]


class Recipes(Parallel):
    def test_grids(self):
        """Grids with some refused, with none, and without any, by each recipe for one machine."""
        text, good = grids(), ran(["write"], b"A\n123456\n" * 10)[1]
        for name in ("grids on standard input", "a file of grids on all processors"):
            for kind, given in (("", text), (", none refused", good), (", no text", b""), (", LFs alone", b"\n" * 50)):
                self.tried(f"{name}{kind}", self.recipes[name], {"grids.txt": given}, ran(["read"], given))

    def test_messages(self):
        block = self.recipes["messages on all processors"]
        self.tried("messages on all processors", block, {"messages.txt": MESSAGES}, ran(["write"], MESSAGES))
        self.tried("messages, no text", block, {"messages.txt": b""}, (0, b""))


class Words(Parallel):
    def test_each_subcommand_and_option(self):
        text = grids()
        some = ("read", "check", "check --border 3", "check --border=0", "normal", "normal --shorter --border 10")
        cases = [*((words, text) for words in some), ("write", MESSAGES), ("write --shorter", MESSAGES),
                 ("write", MESSAGES.rstrip(b"\n")), ("write", b"\n")]
        for words, given in cases:
            for command in (f"dm_parts --block 1000 {words} TEXT", f"dm_parts --jobs=2 --block=1 {words} < TEXT"):
                got = recipe(command.replace("TEXT", "text") + " > answers.txt", self.folder(), {"text": given})
                self.row(command, got, ran(words.split(), given))

    def test_each_way_in_which_a_text_can_come(self):
        text = grids()
        commands_of = [f"dm_parts --block 1000 read {way}" for way in WAYS]
        for command in [*commands_of, *(pipe.replace("WORDS", "--block 1000 read") for pipe in PIPES)]:
            folder = self.folder()
            os.symlink("text", os.path.join(folder, "link"))
            command = "{ " + command.replace("TEXT", "text") + "; } > answers.txt"
            self.row(command, recipe(command, folder, {"text": text, "a b'$HOME\"": text}), ran(["read"], text))

    def test_wrong_words_are_answered_by_the_usage(self):
        folder = self.folder()
        for words in WRONG_WORDS:
            done = commands.run(["sh", "-c", f"dm_parts {words}"], cwd=folder, env=environment(folder),
                                stdin=subprocess.DEVNULL)
            self.row(f"parts {words}", (done.status, done.output, done.errors.count(b"usage: dm_parts")), (2, b"", 1))

    def test_help(self):
        folder = self.folder()
        done = commands.run(["sh", "-c", "dm_parts --help"], cwd=folder, env=environment(folder))
        self.assertEqual((done.status, done.output.startswith(b"usage: dm_parts"), done.errors), (0, True, b""))


class Outputs(Parallel):
    """A file for the answers: it is made or replaced by all answers or not at all, and nothing lies beside it."""

    def test_each_place_for_the_answers(self):
        text = grids()
        kinds = {"new": ran(["read"], text)[1], "empty": b"", "old": b"old\n"}
        for words, status, kind in OUTPUTS:
            folder = self.folder()
            put(folder, {"text": text, "none": b"", "old": b"old\n"})
            os.symlink("old", os.path.join(folder, "link"))
            done = commands.run(["bash", "-c", f"umask 027; dm_parts {words}"], cwd=folder, env=environment(folder))
            got = done.status, done.output, places.read(folder, "old")
            self.row(f"dm_parts {words}", got, (status, b"", kinds[kind]))
            left = set(os.listdir(folder)) - {"text"}, left_in(folder)
            self.row(f"dm_parts {words}, what is left", left, ({"none", "old", "link", "scratch"}, []))
            mode = os.stat(os.path.join(folder, "old")).st_mode & 0o777
            self.row(f"dm_parts {words}, who may read it", mode == 0o640, kind != "old")


@needs.programs("ssh", "sshd")
class Hosts(Parallel):
    @classmethod
    def setUpClass(cls):
        super().setUpClass()
        cls.ssh, cls.text = cls.enterClassContext(two_hosts()), grids()

    def setUp(self):
        self.assertIsNotNone(self.ssh, "no login by ssh that asks nothing")

    def test_the_recipe(self):
        name = "grids on several machines"
        self.tried(name, self.recipes[name], {"grids.txt": self.text}, ran(["read"], self.text), self.ssh)

    def test_some_of_the_hosts(self):
        for words, subcommand in (("--ssh one,two read < grids.txt", ["read"]), ("--ssh two read grids.txt", ["read"]),
                                  ("--jobs 1 --ssh one,: normal --shorter < grids.txt", ["normal", "--shorter"])):
            block = f"dm_parts --block 500 {words} > answers.txt"
            got = recipe(block, self.folder(), {"grids.txt": self.text}, self.ssh)
            self.row(f"dm_parts {words}", got, ran(subcommand, self.text))
