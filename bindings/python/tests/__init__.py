"""Tests of the package, by `python3 -m unittest` in the folder above."""

import pathlib
import sys

EXAMPLES = pathlib.Path(__file__).resolve().parents[3] / "examples"
sys.path.insert(0, str(EXAMPLES))

GIF = b"GIF89a\x80\x02\xe0\x01\0\0"
"""A GIF of 640x480."""
