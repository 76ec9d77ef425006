# PYTHON_ARGCOMPLETE_OK
"""The command ecc200: reads, writes, checks, normalises, compares and explains Data Matrix symbols. `ecc200 --help`
says how."""
from __future__ import annotations

import argparse
import codecs
import importlib
import io
import os
import signal
import sys
import warnings
from typing import Any, Dict, Iterable, List, NoReturn, Optional, Tuple, Union

from . import core
from .options import SUBCOMMANDS
from .sources import Trouble
from .terminal import say

__all__ = ["main"]

_STATUSES = """Status: 0 if all went well; 1 if a symbol or a message was refused (compare: if the two differ); 2 if
something can't be done as it was asked for, as where a file can't be read (compare: also if one of the two isn't
read); 3 if a picture has or may have more symbols, as where its search ended early. The largest that applies counts.
What can't be read or written is named on standard error, and doesn't keep the rest from being read or written. FILE
may be - for standard input, as when none is given. A grid is lines of 0 and 1, one for each row of modules, with
empty lines between grids. Pictures are told from grids by their first bytes."""


def _formatter(prog: str) -> argparse.HelpFormatter:
    """What lays out help, as wide as the terminal. (argparse would ask shutil, whose import takes a part of each
    start.)"""
    try:
        columns = int(os.environ.get("COLUMNS") or os.get_terminal_size().columns)
    except (OSError, ValueError):
        columns = 0
    return argparse.HelpFormatter(prog, width=(columns or 80) - 2)


def _meant(word: str, names: Iterable[str]) -> str:
    """A question for the name that comes nearest to a word, if one is near."""
    import difflib  # (a part of each start, where it isn't needed)
    near = difflib.get_close_matches(word, [*names], 1, 0.65)
    return f": is {near[0]} meant?" if near else ""


_THERE_ARE = f"there are {', '.join(each.name for each in SUBCOMMANDS)}"


class _Line(argparse.ArgumentParser):
    """A command line, of which first is said what is wrong, and then how it goes."""

    def error(self, message: str) -> NoReturn:
        say(message)
        self.print_usage(sys.stderr)
        self.exit(2)

    def _check_value(self, action: argparse.Action, value: Any) -> None:
        if action.choices is None or value in action.choices:
            return
        meant = _meant(value, action.choices)
        if action.dest == "command":
            self.error(f"there is no command {value}" + (meant or f"; {_THERE_ARE}"))
        others = f"; there are {', '.join(action.choices)}"
        raise argparse.ArgumentError(action, f"there is no {value}" + (meant or others))

    def parsed(self, words: List[str]) -> argparse.Namespace:
        """What these words ask for. A word that isn't known is named, with the option that it may have been."""
        given, strange = self.parse_known_args(words)
        if strange:
            one, word = self.subcommands.get(given.command, self), strange[0].split("=")[0]
            if word[:1] != "-":
                one.error(f"{word} is one word too many")
            meant = _meant(word, one._option_string_actions)
            behind = " -- stands in front of a message that begins with -" if given.command == "write" else ""
            one.error(f"there is no option {word}{meant}{';' * bool(behind and not meant)}{behind}")
        if given.command is None:
            self.error(f"a command is wanted; {_THERE_ARE}")
        return given

    subcommands: Dict[str, "_Line"] = {}


def parser(wanted: Optional[str] = None) -> _Line:
    """The command line. Where one subcommand is wanted, it has no other: all of them would take a third of each
    start."""
    whole = _Line(prog="ecc200", epilog=_STATUSES, formatter_class=_formatter,
                  description="Reads, writes and compares Data Matrix ECC 200 symbols, squares and rectangles.")
    whole.add_argument("--version", action="version", version=f"ecc200 {core.version()}")
    commands = whole.add_subparsers(dest="command", metavar="COMMAND", prog="ecc200")
    for each in SUBCOMMANDS:
        if wanted in (None, each.name):
            one = commands.add_parser(each.name, help=each.brief, description=each.description, epilog=_STATUSES,
                                      formatter_class=_formatter)
            each.add_options(one)
            one.set_defaults(lies_in=each.module)
    whole.subcommands = commands.choices
    return whole


def _complete(line: argparse.ArgumentParser) -> None:
    """Tells a shell how the line may go on, if it asks; the import would be a tenth of each start."""
    if "_ARGCOMPLETE" in os.environ:
        try:
            import argcomplete
            argcomplete.autocomplete(line)
        except ImportError:
            pass


def _spell(why: UnicodeError) -> Tuple[Union[str, bytes], int]:
    """What is printed for a character that the terminal hasn't: \\u and its number, since \\x is a byte's. The name of
    a file goes out as the bytes that it is."""
    assert isinstance(why, UnicodeEncodeError)
    letter, following = why.object[why.start], why.start + 1
    if "\udc80" <= letter <= "\udcff":
        return os.fsencode(letter), following
    return f"\\u{ord(letter):04x}" if letter <= "\uffff" else f"\\U{ord(letter):08x}", following


def _run(words: List[str]) -> int:
    is_plain = "_ARGCOMPLETE" not in os.environ and words[:1] in [[each.name] for each in SUBCOMMANDS]
    line = parser(words[0] if is_plain else None)
    _complete(line)
    codecs.register_error("ecc200", _spell)
    for stream in (sys.stdout, sys.stderr):
        if isinstance(stream, io.TextIOWrapper):
            stream.reconfigure(errors="ecc200")
    given = line.parsed(words)
    with warnings.catch_warnings():
        warnings.simplefilter("ignore")  # Pillow's, of pictures: what can't be read is said in words
        run = getattr(importlib.import_module(f".{given.lies_in}", __package__), given.command)
        return int(run(given))


def _ended(why: str) -> int:
    """Says on standard error, where that takes it, why the command ends. Returns its status."""
    try:
        say(why)
    except OSError:
        _leave(2)
    return 2


def _leave(stream: int) -> None:
    """Lets what a stream hasn't taken go nowhere: Python would try it again at the end."""
    os.dup2(os.open(os.devnull, os.O_WRONLY), stream)


def main(words: Optional[List[str]] = None) -> int:
    """Runs the command with these words, by default those of the command line. Returns its status."""
    if sys.stderr is None:
        sys.stderr = open(os.devnull, "w")
    if sys.stdout is None:
        return _ended("standard output is closed")
    try:
        try:
            return _run(sys.argv[1:] if words is None else words)
        except SystemExit as end:  # from argparse, after its help or its complaint
            return end.code if isinstance(end.code, int) else 2
        finally:
            sys.stdout.flush()
    except Trouble as why:
        return _ended(str(why))
    except BrokenPipeError:
        _leave(1)
        return 128 + getattr(signal, "SIGPIPE", 13)  # Windows has none
    except OSError as why:
        _leave(1)
        return _ended(f"{why.filename or 'standard output'}: {why.strerror}")
    except MemoryError:
        return _ended("there is too little memory")
    except KeyboardInterrupt:
        return 128 + signal.SIGINT
