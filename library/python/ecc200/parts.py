"""The subcommand join: the parts of a structured append, put together."""
from __future__ import annotations

import argparse
from typing import Any, Dict, Iterator, List, NamedTuple, Optional, Tuple

from .core import Head, Reading
from .joining import Joined, Unjoined, join as joined
from .reporting import Answer, answers, complain, json_line, line_of, message_told, put_raw
from .sources import known_charset
from .spelling import headed
from .terminal import say

__all__ = ["join"]


class _Symbol(NamedTuple):
    """A symbol that is read."""
    answer: Answer
    reading: Reading

    @property
    def place(self) -> str:
        """Where it is, in words."""
        return f"{self.answer.source.file}, symbol {self.answer.source.number}"

    @property
    def told(self) -> Dict[str, Any]:
        """The same in JSON."""
        return {"file": self.answer.source.file, "symbol": self.answer.source.number}


class _Outcome(NamedTuple):
    """What the parts among symbols say together, if they do; or what is wrong with them, of which parts; and symbols
    that are none of them."""
    whole: Optional[Joined]
    missing: Tuple[int, ...]
    doubled: Tuple[int, ...]
    strange: List[_Symbol]


def _outcome(symbols: List[_Symbol]) -> _Outcome:
    try:
        return _Outcome(joined(symbol.reading for symbol in symbols), (), (), [])
    except Unjoined as why:
        strange = [symbols[place] for place in why.strange]
        rest = [symbol for place, symbol in enumerate(symbols) if place not in why.strange]
        whole = None if why.missing or why.doubled or not rest else _outcome(rest).whole
        return _Outcome(whole, why.missing, why.doubled, strange)


def _first(symbols: List[_Symbol]) -> Optional[Tuple[int, int, int, int]]:
    """The first head of a part."""
    heads = (symbol.reading.head for symbol in symbols)
    return next((head for head in heads if isinstance(head, tuple)), None)


def _part(head: Head) -> Optional[int]:
    return head[0] if isinstance(head, tuple) else None


def _faults(outcome: _Outcome, symbols: List[_Symbol]) -> Iterator[str]:
    """Why parts make no whole, in words, if they don't."""
    head = _first(symbols)
    if head is None:
        yield "there is no part of a structured append"
        return
    _, of, first, second = head
    named = f"the file {first:03}{second:03}"
    for part in outcome.missing:
        yield f"part {part} of {of} of {named} is missing"
    for part in outcome.doubled:
        places = "; ".join(symbol.place for symbol in symbols
                           if symbol not in outcome.strange and _part(symbol.reading.head) == part)
        yield f"part {part} of {of} of {named} is there more than once, and says different things: {places}"


def _told(outcome: _Outcome, faults: List[str], symbols: List[_Symbol], given: argparse.Namespace) -> Dict[str, Any]:
    """What JSON has of an outcome."""
    strange = [symbol.told for symbol in outcome.strange]
    if outcome.whole is None:
        return {"refused": "; ".join(faults), "missing": list(outcome.missing), "doubled": list(outcome.doubled),
                "strange": strange}
    parts = [{**symbol.told, "part": _part(symbol.reading.head)} for part in outcome.whole.parts
             for symbol in symbols if symbol.reading is part]
    said = message_told(outcome.whole, None, given)
    return {**said, "marks": outcome.whole.marks, "parts": parts, "strange": strange}


def _complain_of_strange(outcome: _Outcome, given: argparse.Namespace) -> int:
    """Names symbols that are no parts of the file. Returns the status that this makes."""
    status = 0
    for symbol in outcome.strange:
        fault = f"it is {headed(symbol.reading.head)}, and isn't joined with the others"
        status = complain(symbol.answer._replace(fault=fault), given)
    return status


def _read(given: argparse.Namespace) -> Tuple[List[_Symbol], int]:
    """The symbols that are read, and the status that the others make, which are named."""
    symbols, status = [], 0  # type: List[_Symbol], int
    for answer in answers(given, given.files):
        if answer.reading is None:
            status = max(status, complain(answer, given))
        else:
            symbols.append(_Symbol(answer, answer.reading))
    return symbols, status


def join(given: argparse.Namespace) -> int:
    """Prints what the parts of a structured append say together."""
    if given.charset:
        known_charset(given.charset)
    symbols, status = _read(given)
    outcome = _outcome(symbols)
    status = max(status, _complain_of_strange(outcome, given))
    faults = list(_faults(outcome, symbols))
    for fault in faults:
        say(fault)
    if given.json:
        print(json_line(_told(outcome, faults, symbols, given)), flush=True)
    elif given.raw:
        put_raw(outcome.whole)
    elif outcome.whole is not None:
        print(line_of(outcome.whole, given), flush=True)
    return max(status, 1) if faults else status
