"""Files that are replaced when they are whole."""
from __future__ import annotations

import contextlib
import itertools
import os
import signal
import stat
from typing import BinaryIO, Iterator, Union

__all__ = ["replace"]


def _beside(path: str) -> BinaryIO:
    """A new file in the folder of another one, under a name that no file has."""
    for number in itertools.count():
        try:
            return open(os.path.join(os.path.dirname(path), f".ecc200-{os.getpid()}-{number}"), "xb")
        except FileExistsError:
            pass
    raise AssertionError("numbers have no end")


def _write_into(path: str, data: bytes) -> None:
    with open(path, "wb") as file:
        file.write(data)


@contextlib.contextmanager
def _undisturbed() -> Iterator[None]:
    """Keeps signals that end a program waiting, where the system can: else they might leave half a file."""
    if not hasattr(signal, "pthread_sigmask"):
        yield
        return
    before = signal.pthread_sigmask(signal.SIG_BLOCK, (signal.SIGINT, signal.SIGTERM, signal.SIGHUP))
    try:
        yield
    finally:
        signal.pthread_sigmask(signal.SIG_SETMASK, before)


@_undisturbed()
def _put_whole(path: str, data: bytes) -> None:
    file = _beside(path)
    try:
        with file:
            file.write(data)
        if os.path.exists(path):
            os.chmod(file.name, stat.S_IMODE(os.stat(path).st_mode))
        os.replace(file.name, path)
    except BaseException:
        os.unlink(file.name)
        raise


def replace(path: Union[str, "os.PathLike[str]"], data: bytes) -> None:
    """Writes a file. Until it is whole, what stood there before stands there, or nothing, also if the writer is killed.
    A link stays one. Devices and pipes are written into, and so are files in folders that take no new ones."""
    named = os.fspath(path)
    try:
        if os.path.exists(named) and not os.path.isfile(named):
            _write_into(named, data)
            return
        try:
            _put_whole(os.path.realpath(named) if os.path.islink(named) else named, data)
        except PermissionError:
            if not os.path.exists(named):
                raise
            _write_into(named, data)
    except OSError as why:
        raise type(why)(why.errno, why.strerror, named) from None
