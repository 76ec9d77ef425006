"""The subcommand write."""
from __future__ import annotations

import argparse
from typing import Iterator, List, Union

from .labels import Label, Output
from .messages import Unwritten, labels
from .progress import Progress
from .sources import Trouble, known_charset
from .terminal import say

__all__ = ["write"]


def _ask(alike: List[int], given: argparse.Namespace) -> None:
    """Asks whether messages are meant as GS1 data."""
    if alike:
        which = f"{'message' if given.messages else 'line' if given.csv is None else 'row'} {alike[0]}"
        more = f" and {len(alike) - 1} more read" if len(alike) > 1 else " reads"
        say(f"{which}{more} like GS1 data, and {'are' if len(alike) > 1 else 'is'} written as plain text, which no "
            "scanner takes for it: is --gs1 meant?")


def _by_rows(given: argparse.Namespace) -> Iterator[Union[Label, Unwritten]]:
    """The labels of a table."""
    from . import tables  # (its modules would take a part of each start)
    other = repr(given.messages[0]) if given.messages else "--bytes" if given.bytes else "--raw" if given.raw else ""
    if other:
        raise Trouble(f"--csv {given.csv}: its rows are the messages, and {other} would be another")
    table = tables.table_of(given.csv, dict(given.column))
    if table.has(tables.TEXT):
        given.caption = True
    if table.has(tables.FILE) and "{}" not in (given.output or ""):
        raise Trouble(f"--csv {given.csv}: it names files, and -o has {{}} where the name goes, as "
                      "-o 'labels/{}.png'; --column HEADING=- leaves the names out")
    return tables.labels(table, given)


def write(given: argparse.Namespace) -> int:
    """Writes the symbols of messages."""
    if given.charset:
        known_charset(given.charset)
    made = labels(given) if given.csv is None else _by_rows(given)
    output, progress = Output(given), Progress("symbols written")
    status, count, kept, alike = 0, 0, [], []  # type: int, int, List[Label], List[int]
    for each in made:
        count = each.number
        progress.step()
        if isinstance(each, Unwritten):
            status = 1
            say(f"{each.name}: {each.why}")
            continue
        if each.only_looks_gs1:
            alike.append(count)
        for copy in range(each.copies):
            if output.shows:
                output.show(each)
            else:
                kept.append(each._replace(copy=copy + 1))
    progress.end()
    _ask(alike, given)
    output.put(kept, count)
    return max(status, output.status)
