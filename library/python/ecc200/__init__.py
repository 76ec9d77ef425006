"""Data Matrix ECC 200 (ISO/IEC 16022, with the rectangles of ISO/IEC 21471): symbols are read, written, normalised and
compared by a library that is proved.

    >>> import ecc200
    >>> symbol = ecc200.encode("caf\\u00e9")
    >>> symbol.size
    (12, 12)
    >>> ecc200.decode(symbol)[0].text
    'caf\\u00e9'

`encode` and `decode` are for most; below them `read`, `write`, `normal`, `inspect` and `places` (ecc200.core) work on
grids of modules, one call of the library each. `ecc200.gs1` has GS1 element strings, `ecc200.pictures` finds symbols in
pictures, `ecc200.charsets` knows which charset a mark names, and `ecc200.drawing` draws symbols. `join` puts the parts
of a structured append together.
"""
from . import charsets, core, drawing, gs1, pictures
from .codec import Symbol, encode
from .core import *
from .joining import Joined, Unjoined, join

# (a list of words, since checkers of types take no other)
__all__ = ["ABI", "BorderLimit", "Code", "Corners", "End", "Extent", "FNC1", "Findings", "Form", "Found", "Grid",
           "Head", "Inspection", "Joined", "Kind", "MOST_ITEMS", "Mark", "Message", "Place", "Profile", "Quality",
           "Reading", "Refused", "Rows", "SamplerMissing", "Shape", "Sides", "Size", "Symbol", "Unjoined", "Unsure",
           "charsets", "decode", "drawing", "encode", "find", "gs1", "has_sampler", "inspect", "join", "luminance",
           "normal", "pictures", "places", "read", "read_many", "sampler_fault", "sizes", "usual_limit", "version",
           "write"]
__version__ = version()
_library = core._library
