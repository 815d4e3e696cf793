"""The one way in which the reference model refuses an input."""

from __future__ import annotations


class Refusal(Exception):
    """A refused input.

    `str()` is the line that the program prints.  `value` is what the refusal names besides: a place, a name,
    a key, a pin or a cell's number, which the program prints with `--explain` alone.  `second` is the line in which it
    does so, of a board file and of a program; empty where the model has none.
    """

    def __init__(self, line: str, value=None, second: str = ""):
        super().__init__(line)
        self.value = value
        self.second = second
