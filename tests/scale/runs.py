"""What the tests of docs/SCALE.md share: the program, texts, the recipes of the page, runs of them, and two hosts."""
import contextlib
import functools
import os
import re
import shutil
import signal
import socket
import subprocess
import tempfile
import time

from tests.support import commands, needs, places
from tests.support.case import Case
from tests.support.places import PROGRAM

PATH = os.pathsep.join([os.path.dirname(PROGRAM), places.path("scripts"), os.environ["PATH"]])

STANDARD_INPUT = "# grids on standard input\ndm_parts read < grids.txt > answers.txt\n"
MESSAGES = b"123456\nA\n\n\\q\n\\F01\nab\\x4\n" + b"7" * 100 + b"\n\\xff\\xFE\nA B,C\n" + b"7" * 1633 + b"\n,\n\n\n"


def ran(words, given):
    """Status and output of one run of the program."""
    return commands.run([PROGRAM, *words], given)[:2]


def grids():
    """Symbols of several sizes, damaged ones, and refused records of each kind, with empty lines around."""
    status, written = ran(["write"], b"123456\nA\n" + b"7" * 30 + b"\n" + b"\\x80" * 60 + b"\n")
    good = written.rstrip(b"\n").split(b"\n\n")
    first = good[0]
    turned = first[:60] + (b"1" if first[60:61] == b"0" else b"0") + first[61:]
    light = b"\n".join([b"1010101010"] + [b"1000000001"] * 8 + [b"1" * 10])
    bad = [b"x", b"1", b"10\r\n01\r", b"10\n1", b"1010\n0101\n1010\n0101", b"1 0\n0 1", b"1,0\n0,1", b"\x00\xff",
           b"0" * 105]
    records = good + [turned, light, first.replace(b"1" * 10, b"0" * 10)] + bad
    text = b"\n\n"
    for count in range(len(records)):
        text += records[count * 7 % len(records)] + b"\n" * (2 + count % 4)
    return text + records[0]


def blocks():
    """The recipes of the page by the comment in their first line, in sh and in Python, and one in a sentence."""
    text = places.text_of("docs", "SCALE.md")
    found = [block for language in ("sh", "python") for block in re.findall(rf"```{language}\n(.*?)```", text, re.S)]
    assert "`dm_parts read < grids.txt`" in text
    return {block.split("\n", 1)[0].removeprefix("# "): block for block in [*found, STANDARD_INPUT]}


@functools.cache
def measured():
    """The folder of what GNU parallel measures of the machine, for all runs but those that look at that."""
    return tempfile.TemporaryDirectory(prefix="parallel-")


def environment(folder, path=PATH, ssh=None, is_first=False):
    """HOME is empty, so that GNU parallel finds no profile, and so is SHELL. A first run finds nothing measured."""
    scratch = os.path.join(folder, "scratch")
    os.makedirs(scratch, exist_ok=True)
    return commands.environment(PATH=path, HOME=scratch, TMPDIR=scratch, SHELL="",
                                PARALLEL_HOME="" if is_first else measured().name,
                                **({"PARALLEL_SSH": ssh} if ssh else {}))


def put(folder, texts):
    for name, text in texts.items():
        places.wrote(text, folder, name)


def left_in(folder):
    return sorted(os.listdir(os.path.join(folder, "scratch")))


def recipe(block, folder, texts, ssh=None, is_first=False):
    """The status of a recipe, and the answers that it leaves."""
    put(folder, texts)
    done = subprocess.run(["bash", "-c", block], cwd=folder, env=environment(folder, ssh=ssh, is_first=is_first),
                          stdin=subprocess.DEVNULL, stderr=subprocess.PIPE, timeout=300)
    return done.returncode, places.read(os.path.join(folder, "answers.txt"))


def free_port():
    with socket.socket() as listener:
        listener.bind(("127.0.0.1", 0))
        return listener.getsockname()[1]


def hosts_of(folder, port, path):
    """The settings of the hosts: a file for sshd, with the program on its path, and one for ssh. Nothing answers for
    `nowhere`. The usual exchange of keys takes ten times the processor time of this one, and a shell of level 1 that
    sshd starts would read what the user's own shells begin with."""
    for key in ("host", "login"):
        subprocess.run(["ssh-keygen", "-q", "-t", "ed25519", "-N", "", "-f", os.path.join(folder, key)], check=True)
    server = (f"ListenAddress 127.0.0.1:{port}\nHostKey {folder}/host\nAuthorizedKeysFile {folder}/login.pub\n"
              f"StrictModes no\nPidFile none\nPasswordAuthentication no\nMaxStartups 100\nSetEnv PATH={path} SHLVL=1\n")
    client = (f"Host nowhere\nPort {free_port()}\nHost one two\nPort {port}\nHost *\nHostName 127.0.0.1\n"
              f"IdentityFile {folder}/login\nIdentitiesOnly yes\nBatchMode yes\nStrictHostKeyChecking no\n"
              f"UserKnownHostsFile {folder}/known\nLogLevel ERROR\nKexAlgorithms curve25519-sha256\n")
    return places.wrote(server, folder, "sshd_config"), places.wrote(client, folder, "ssh_config")


@contextlib.contextmanager
def two_hosts(path=PATH):
    """The ssh command that reaches the hosts `one` and `two`, this machine, through an sshd on loopback."""
    with tempfile.TemporaryDirectory() as folder:
        server, client = hosts_of(folder, free_port(), path)
        if os.geteuid() == 0:
            os.makedirs("/run/sshd", exist_ok=True)
        with subprocess.Popen([shutil.which("sshd", path=needs.PATH), "-D", "-e", "-f", server],
                              stdin=subprocess.DEVNULL, stderr=subprocess.DEVNULL) as daemon:
            try:
                ssh = ["ssh", "-F", client]
                login = lambda: subprocess.run([*ssh, "one", "true"], stdin=subprocess.DEVNULL).returncode
                answered = any(time.sleep(0.1) or login() == 0 for _ in range(50))
                yield " ".join(ssh) if answered else None
            finally:
                daemon.terminate()


def with_blocks(block, size):
    smaller = block.replace("dm_parts ", f"dm_parts --block {size} ")
    assert smaller != block
    return smaller


@needs.program
class Scale(Case):
    """A case with the recipes, whose processes take signals, as what runs in the background or under nohup doesn't."""

    @classmethod
    def setUpClass(cls):
        for number, handler in ((signal.SIGINT, signal.default_int_handler), (signal.SIGHUP, signal.SIG_DFL)):
            cls.addClassCleanup(signal.signal, number, signal.signal(number, handler))
        cls.recipes = blocks()

    def tried(self, name, block, texts, wanted, ssh=None):
        """A recipe as it stands in the page, and with smaller parts. It leaves its answers and nothing else."""
        for size in (None, "800") if ssh else (None, "1", "800"):
            folder = self.folder()
            which = f"{name}, {'as it stands' if size is None else 'in parts of ' + size}"
            got = recipe(with_blocks(block, size) if size else block, folder, texts, ssh, is_first=size is None)
            self.row(which, got, wanted)
            left = sorted(os.listdir(folder)), left_in(folder)
            self.row(f"{which}, what is left", left, (sorted([*texts, "answers.txt", "scratch"]), []))


@needs.programs("parallel")
class Parallel(Scale):
    """A case of what GNU parallel runs."""
