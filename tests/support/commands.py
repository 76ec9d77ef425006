"""Commands that tests run, each in an environment that is stated and has nothing else, and processes that are ended."""
import contextlib
import functools
import subprocess
from typing import NamedTuple

from tests.support import places


class Ended(NamedTuple):
    """How a command ended: its status, its standard output, and its errors; None for what went elsewhere."""
    status: int
    output: bytes | None
    errors: bytes | None


@functools.cache
def kept():
    """What tests/environment keeps of the caller's variables, and what it sets."""
    words = [places.path("tests", "environment"), "env", "-0"]
    told = subprocess.run(words, stdout=subprocess.PIPE, check=True, text=True).stdout
    return dict(line.split("=", 1) for line in told.split("\0") if line)


def environment(**more):
    """Gives the environment in which tests run commands, with more variables."""
    return {**kept(), "PYTHONDONTWRITEBYTECODE": "1", **more}


def run(words, given=b"", *, env=None, timeout=300, **how):
    """Runs a command on this input. `how` may name another folder (cwd) or other streams, as those of subprocess."""
    if "stdin" not in how:
        how["input"] = given
    streams = {"stdout": subprocess.PIPE, "stderr": subprocess.PIPE, **how}
    done = subprocess.run(words, env=environment() if env is None else env, timeout=timeout, check=False, **streams)
    return Ended(done.returncode, done.stdout, done.stderr)


def said(words, **how):
    """Gives the status of a command and all that it writes, as text; 127 if it isn't there, -1 if it doesn't end."""
    try:
        done = run(words, **{"timeout": 1800, "stderr": subprocess.STDOUT, **how})
    except subprocess.TimeoutExpired:
        return -1, f"{words[0]} doesn't end"
    except OSError as why:
        return 127, str(why)
    return done.status, done.output.decode(errors="replace")


@contextlib.contextmanager
def started(words, *, env=None, **how):
    """Starts a process, which is ended, if need be by force, when the context is left."""
    with subprocess.Popen(words, env=environment() if env is None else env, **how) as process:
        try:
            yield process
        finally:
            if process.poll() is None:
                process.terminate()
                with contextlib.suppress(subprocess.TimeoutExpired):
                    process.wait(timeout=20)
                process.kill()
