"""What the tests of the Python package have in common."""
import contextlib
import fcntl
import functools
import os
import pty
import socket
import struct
import subprocess
import termios
import time
from concurrent.futures import ThreadPoolExecutor
from unittest import mock

from tests import corpus
from tests.support import needs, package, places
from tests.support.case import Rows

ecc200 = package.imported()
TOP, SHARED = places.TOP, places.SHARED
SAMPLER = os.environ.get("ECC200_SAMPLE_LIBRARY") or places.path("sampler", "out", "libecc200_sample.so")
PACKAGE = package.tree()
if not os.path.isfile(SAMPLER) and not places.OTHER_LIBRARY:
    needs.made("sampler")
VERSION = places.text_of("packaging", "version").strip()
PYTHON = "/usr/bin/python3"  # Debian's, for which numpy, Pillow and mypy are installed
WORDS = [PYTHON, "-m", "ecc200"]

# Each of some hundreds of interpreters would compile the package anew otherwise.
subprocess.run([PYTHON, "-m", "compileall", "-q", PACKAGE], check=True)


def libraries():
    """The variables by which the package finds the libraries that are built by now."""
    return {"ECC200_LIBRARY": SHARED, **({"ECC200_SAMPLE_LIBRARY": SAMPLER} if os.path.isfile(SAMPLER) else {})}


def run(words, given=b"", **more):
    """Status, output and errors of a command."""
    done = subprocess.run(words, input=given, stdout=subprocess.PIPE, stderr=subprocess.PIPE, timeout=600, **more)
    return done.returncode, done.stdout.decode(errors="replace"), done.stderr.decode(errors="replace")


def clean(**more):
    """An environment with the least in it."""
    return {"PATH": "/usr/bin:/bin", "PYTHONDONTWRITEBYTECODE": "1", "LC_ALL": "C.UTF-8", **more}


def saved(folder, name, data):
    """Writes a file of a folder, and gives its path."""
    return places.wrote(data, os.fsdecode(folder), os.fsdecode(name))


def outcome(call, *given, **more):
    """What a call gives, or the numbers of its refusal."""
    try:
        return call(*given, **more)
    except ecc200.Refused as why:
        return why.code, why.value, why.place


def at_terminal(stream, words, given=b"", columns=80, begun_with=b""):
    """Runs the command with a terminal for one of its streams: its status, what is seen there, and what it says on the
    others. What it is begun with comes first: its first answer is waited for, and then more than a second."""
    leader, follower = pty.openpty()
    fcntl.ioctl(follower, termios.TIOCSWINSZ, struct.pack("4H", 25, columns, 0, 0))
    streams = {"stdout": subprocess.PIPE, "stderr": subprocess.PIPE, stream: follower}
    with subprocess.Popen([*WORDS, *words], stdin=subprocess.PIPE, env=environment(), **streams) as done:
        answer = b""
        if begun_with:
            done.stdin.write(begun_with)
            done.stdin.flush()
            answer = done.stdout.readline()
            time.sleep(1.2)
        output, errors = done.communicate(given, timeout=300)
    os.close(follower)
    seen = b""
    with contextlib.suppress(OSError):  # the end, as Linux tells it
        while True:
            seen += os.read(leader, 65536)
    os.close(leader)
    return done.returncode, seen, output and answer + output, errors


def environment():
    return clean(PYTHONPATH=PACKAGE, **libraries())


# Forks for each run of the command, so that Python and the package start once. It is asked with a folder, words and
# streams, and answers with a status. What the package keeps of its import depends on none of these.
NURSERY = """import contextlib, gc, os, runpy, signal, socket, sys
import ecc200.command, ecc200.reporting, ecc200.writing
with contextlib.suppress(ImportError):
    import PIL.Image
gc.freeze()  # what is here before a child is none of its garbage
line = socket.socket(fileno=int(sys.argv[1]))
asked, streams, *_ = socket.recv_fds(line, 1 << 18, 3)
while asked and (child := os.fork()):
    for stream in streams:
        os.close(stream)
    line.send(b"%d" % os.waitstatus_to_exitcode(os.waitpid(child, 0)[1]))
    asked, streams, *_ = socket.recv_fds(line, 1 << 18, 3)
if asked:
    signal.alarm(600)  # what hangs is ended
    for number, stream in enumerate(streams):
        os.dup2(stream, number)
    os.closerange(3, 99)  # what a Python of its own hasn't open
    folder, *sys.argv[1:] = map(os.fsdecode, asked.split(b"\\0"))
    os.chdir(folder)
    sys.path[0] = os.getcwd()
    runpy.run_module("ecc200", run_name="__main__", alter_sys=True)
"""
STARTED = contextlib.ExitStack()


@functools.cache
def nursery():
    """The line on which the nursery is asked, which is started for the first run of a class, and ends with it."""
    line, theirs = socket.socketpair(socket.AF_UNIX, socket.SOCK_SEQPACKET)
    streams = dict.fromkeys(("stdin", "stdout", "stderr"), subprocess.PIPE)  # as those of the runs are
    with theirs:
        STARTED.enter_context(subprocess.Popen([PYTHON, "-c", NURSERY, str(theirs.fileno())], env=environment(),
                                               pass_fds=[theirs.fileno()], **streams))
    STARTED.callback(nursery.cache_clear)
    return STARTED.enter_context(line)


def forked(words, given=b"", folder=None):
    """Status, output and errors, which are bytes, of the command in a child of the nursery."""
    (reads, feeding), (output, writes), (errors, tells) = os.pipe(), os.pipe(), os.pipe()
    asked = b"\0".join(map(os.fsencode, (folder or os.getcwd(), *words)))
    socket.send_fds(nursery(), [asked], [reads, writes, tells])
    for stream in (reads, writes, tells):
        os.close(stream)
    with ThreadPoolExecutor(2) as pool:
        said = pool.map(lambda stream: open(stream, "rb").read(), (output, errors))
        with contextlib.suppress(BrokenPipeError), open(feeding, "wb") as stream:
            stream.write(given)
    return int(nursery().recv(99)), *said


def ecc(words="", *more, given=b"", folder=None):
    """Status, output and errors of the command with the words of a text, and with more words."""
    given = given.encode() if isinstance(given, str) else given
    status, *said = forked([*words.split(), *more], given, folder)
    return status, *(each.decode(errors="replace") for each in said)


@needs.library
class PackageCase(Rows):
    """The cases of a module, in the environment in which the package finds its libraries, with a folder for all."""

    @classmethod
    def setUpClass(cls):
        cls.enterClassContext(mock.patch.dict(os.environ, libraries()))
        cls.addClassCleanup(STARTED.close)
        cls.room = cls.folder_of_class()
        os.chmod(cls.room, 0o755)

    def made(self, name, search=""):
        """Makes a folder, in which `self.ecc` then runs the command, for a case that needs this search, if any."""
        if search:
            self.needs_search(search)
        self.here = os.path.join(self.room, name)
        os.mkdir(self.here)
        return self.here

    def ecc(self, words, *more, given=b""):
        return ecc(words, *more, given=given, folder=self.here)

    def raises(self, name, kind, part, call):
        """That a call raises this kind of exception, whose words have this part."""
        with self.subTest(name):
            with self.assertRaises(kind, msg=name) as raised:
                call()
            self.assertIn(part, str(raised.exception), name)

    def says(self, name, got, status=0, output=None, errors=None):
        """That a run has this status, this output, and errors that have each of these parts."""
        has_output = output is None or got[1] == output
        has_errors = not got[2] if errors is None else all(part in got[2] for part in errors)
        self.holds(name, got[0] == status and has_output and has_errors, f"{got!r}")

    def wanted_module(self, name, package, what, leave=None):
        """A module that needn't be installed, or None, and then what needs it is left out."""
        try:
            return __import__(name)
        except ImportError:
            return (leave or self.leave_out)(f"{what} ({package} isn't installed)")

    def needed(self, name, package, what):
        """A module that needn't be installed; the rest of the case is left out where it isn't."""
        return self.wanted_module(name, package, what, self.leave_rest)

    def needs_search(self, what):
        """Pillow, where the sampler is built too; else the rest of the case, which searches pictures, is left out."""
        pillow = self.needed("PIL.Image", "Pillow", what)
        return pillow if os.path.isfile(SAMPLER) else self.leave_rest(f"{what} (the library ecc200_sample isn't built)")

    def leave_rest(self, reason):
        self.counted += 1
        self.skipTest(reason)

    def has_sampler(self, what):
        """Whether the sampler's library is built; if it isn't, what needs it is left out."""
        return os.path.isfile(SAMPLER) or self.leave_out(f"{what} (the library ecc200_sample isn't built)")


def marks():
    """The marks of other encoders: rows of characters."""
    return [mark.lines for mark in corpus.marks("squares")]
