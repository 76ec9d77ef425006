"""Text and its charsets: what bytes are as text, by their ECI marks, and which bytes and marks a text takes. The code
stands in ecc200.core.

    >>> from ecc200 import charsets
    >>> charsets.text_of(b"\\xcf\\xf0\\xe8\\xe2\\xe5\\xf2", [(0, 22)])
    Text(text='\u041f\u0440\u0438\u0432\u0435\u0442', charset='windows-1251')
    >>> charsets.content_of("caf\\u00e9")
    (b'caf\\xe9', ())
    >>> charsets.content_of("\\u65e5\\u672c")
    (b'\\x93\\xfa\\x96{', ((0, 20),))
    >>> charsets.assignment("shift_jis")
    20
"""
from .core import Text, assignment, charset_of, content_of, text_of

__all__ = ["Text", "assignment", "charset_of", "content_of", "text_of"]
