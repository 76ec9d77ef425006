"""Symbols in pictures, by the library ecc200_sample: found, sampled into grids, and read. ecc200.core has the code."""
from .core import Found, SamplerMissing as Missing, find, has_sampler as is_there, luminance

__all__ = ["Found", "Missing", "find", "is_there", "luminance"]
