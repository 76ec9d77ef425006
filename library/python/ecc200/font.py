"""Letters for pictures of dots, 5 wide and 7 high, with 2 dots above for accents and one below for a cedilla: those of
ASCII, these with accents, and a few others."""
from __future__ import annotations

import functools
import unicodedata
from typing import Dict, List, Optional

__all__ = ["BASELINE", "HEIGHT", "WIDTH", "glyph", "lacking"]

_ABOVE, _LETTER, _BELOW = 2, 7, 1
WIDTH, BASELINE, HEIGHT = 5, _ABOVE + _LETTER, _ABOVE + _LETTER + _BELOW

# For each letter from the space on its columns from the left, two digits each; the lowest bit is the uppermost dot.
_COLUMNS = """
0000000000 00005F0000 0007000700 147F147F14 242A7F2A12 2313086462 3649562050 0005030000 001C224100 0041221C00
14083E0814 08083E0808 0050300000 0808080808 0060600000 2010080402 3E5149453E 00427F4000 4261514946 2141454B31
1814127F10 2745454539 3C4A494930 0171090503 3649494936 064949291E 0036360000 0056360000 0814224100 1414141414
0041221408 0201510906 324979413E 7E1111117E 7F49494936 3E41414122 7F4141221C 7F49494941 7F09090901 3E4149497A
7F0808087F 00417F4100 2040413F01 7F08142241 7F40404040 7F020C027F 7F0408107F 3E4141413E 7F09090906 3E4151215E
7F09192946 4649494931 01017F0101 3F4040403F 1F2040201F 3F4038403F 6314081463 0708700807 6151494543 007F414100
0204081020 0041417F00 0402010204 4040404040 0001020400 2054545478 7F48444438 3844444420 384444487F 3854545418
087E090102 081454543C 7F08040478 00447D4000 2040443D00 7F10284400 00417F4000 7C04180478 7C08040478 3844444438
7C14141408 081414187C 7C08040408 4854545420 043F444020 3C4040207C 1C2040201C 3C4030403C 4428102844 0C5050503C
4464544C44 0008364100 00007F0000 0041360800 0804081008
"""
_GLYPHS: Dict[str, bytes] = {chr(code): bytes.fromhex(columns) for code, columns in enumerate(_COLUMNS.split(), 32)}
_GLYPHS.update({"\u00df": bytes.fromhex("7E01494936"), "\u20ac": bytes.fromhex("143E555541"),
                "\u00b0": bytes.fromhex("0006090906")})
_BOX = bytes.fromhex("7F4141417F")

# The columns of each accent that stands above a letter, two dots high: grave, acute, circumflex, tilde, macron, breve,
# dot, diaeresis, ring, double acute, caron.
_ACCENTS = {"\u0300": (0, 1, 2, 0, 0), "\u0301": (0, 0, 2, 1, 0), "\u0302": (0, 2, 1, 2, 0), "\u0303": (2, 1, 2, 2, 1),
            "\u0304": (0, 2, 2, 2, 0), "\u0306": (1, 2, 2, 2, 1), "\u0307": (0, 0, 2, 0, 0), "\u0308": (0, 2, 0, 2, 0),
            "\u030a": (0, 3, 1, 3, 0), "\u030b": (0, 2, 1, 2, 1), "\u030c": (0, 1, 2, 1, 0)}
_CEDILLA = "\u0327"


def _composed(letter: str) -> Optional[List[int]]:
    """The columns of a letter, if it is there, or made of one that is and of one accent."""
    decomposed = unicodedata.normalize("NFD", letter)
    base, accent = decomposed[0], decomposed[1:]
    if base not in _GLYPHS or accent not in ("", _CEDILLA, *_ACCENTS):
        return None
    columns = [column << _ABOVE for column in _GLYPHS[base]]
    if accent == _CEDILLA:
        columns[2] |= 1 << BASELINE
    elif accent:
        low = base.islower() and base not in "bdfhklt"
        if low:  # the accent is nearer, and an i has no dot
            columns = [column & ~(1 << _ABOVE) for column in columns]
        columns = [column | dots << low for column, dots in zip(columns, _ACCENTS[accent])]
    return columns


@functools.lru_cache(maxsize=1024)
def glyph(letter: str) -> List[int]:
    """The columns of a letter from the left, the uppermost dot in the lowest bit; of one that isn't there a box."""
    return _composed(letter) or [column << _ABOVE for column in _BOX]


def lacking(text: str, kind: str) -> str:
    """The letters of a text that a picture of this kind hasn't, listed: a PNG has those here, a PDF those of
    Windows-1252, an SVG all."""
    if kind == "svg":
        return ""
    known = text.encode("cp1252", "ignore").decode("cp1252") if kind == "pdf" else "".join(filter(_composed, text))
    return ", ".join(map(repr, sorted(set(text) - set(known))))
