"""How good the print of a symbol is, in words and as JSON has it."""
from __future__ import annotations

from typing import Any, Dict, Iterable, List

from .core import Quality

__all__ = ["in_lines", "rounded"]

_DIGITS = 4


def _rounded(value: Any) -> Any:
    if isinstance(value, float):
        return round(value, _DIGITS) + 0.0  # (which is no -0.0)
    return [_rounded(each) for each in value] if isinstance(value, tuple) else value


def rounded(quality: Quality) -> Dict[str, Any]:
    """The same as JSON has it: lists, and numbers of four digits."""
    return {name: _rounded(value) for name, value in quality._asdict().items()}


def _listed(numbers: Iterable[float]) -> str:
    return ", ".join(f"{number:.2f}" for number in numbers)


def _signed(number: float) -> str:
    return f"{round(number, 2) + 0.0:+.2f}"


def in_lines(quality: Quality) -> List[str]:
    """The numbers with their grades, a line each."""
    grades, (across, down), count = quality.grades, quality.growth, len(quality.modulations)
    readable = "{}, {}, {}, {}".format(*quality.readable)
    return [
        "print, of this picture, uncalibrated: no verifier's report",
        f"contrast {quality.contrast:.2f}: {grades['contrast']}",
        f"modulation {quality.modulation:.2f}: {grades['modulation']}; of {count} codewords "
        f"readable at .5, .4, .3, .2: {readable}",
        f"error correction unused in each block {_listed(quality.unused)}: {grades['unused']}",
        f"axial nonuniformity {quality.axial:.3f}: {grades['axial']}",
        f"grid nonuniformity {quality.grid:.2f}: {grades['grid']}",
        f"print growth {_signed(across)} across, {_signed(down)} down",
        f"damage of the border at the top, right, bottom, left {_listed(quality.border)}",
        f"damage of the quiet zone there {_listed(quality.quiet)}",
        f"weakest place: {quality.weakest}",
    ]
