"""How much work commands are, whatever the machine is and whatever else it does: the processor time of the processes
that end meanwhile, over that of a known piece of work, which is done before and after."""
import contextlib
import resource
import subprocess
import sys

# About a tenth of a second: Python's own start, and sums.
KNOWN = [sys.executable, "-ISc", "sum(number * number for number in range(1_000_000))"]


class Work:
    """Work in pieces of the known one, and in seconds."""
    pieces = seconds = 0.0

    def __str__(self):
        return f"{self.pieces:.1f} pieces of work, {self.seconds:.2f} s"


def spent():
    """Seconds of processor time of the processes that have ended."""
    return sum(resource.getrusage(resource.RUSAGE_CHILDREN)[:2])


def took(call):
    """The seconds of the processes that end in a call."""
    begun = spent()
    call()
    return spent() - begun


def known():
    return took(lambda: subprocess.run(KNOWN, check=True))


@contextlib.contextmanager
def measured():
    """Measures the work of the processes that end meanwhile."""
    work, before, begun = Work(), known(), spent()
    yield work
    work.seconds = spent() - begun
    work.pieces = work.seconds / max(before, known())


def leasts(*calls):
    """The least seconds that the processes of each call take in eight rounds: what else is run makes them more."""
    return [min(each) for each in zip(*([took(it) for it in calls] for _ in range(8)))]
