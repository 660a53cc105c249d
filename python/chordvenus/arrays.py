"""Arrays as they are given: numpy's where numpy is there, else the standard library's, which are read the same way."""
from __future__ import annotations

from array import array
from typing import Any, List

KINDS = {"B": "u1", "H": "<u2", "I": "<u4"}  # of the standard library's arrays, as numpy names them


def numpy() -> Any:
    """The module numpy, or None."""
    try:
        import numpy as module
    except ImportError:
        return None
    return module


def row(values: "array[int]") -> Any:
    """Numbers in a row."""
    module = numpy()
    return values if module is None else module.array(values, dtype=KINDS[values.typecode])


def grid(values: "array[int]", columns: int) -> Any:
    """Numbers in rows of so many: grid[k][i] is number i of row k."""
    module = numpy()
    if module is not None:
        return module.array(values, dtype=KINDS[values.typecode]).reshape(-1, columns)
    rows: List["array[int]"] = [values[start : start + columns] for start in range(0, len(values), columns)]
    return rows


def whole(value: Any, bits: int, what: str) -> int:
    """A whole number of at most so many bits, or words that say what is amiss: ctypes would cut it down without a word."""
    if isinstance(value, bool) or not hasattr(value, "__index__"):
        raise TypeError(f"{what} is a whole number, not {value!r}")
    number = int(value.__index__())
    if not 0 <= number < 1 << bits:
        raise ValueError(f"{what} is 0 to {(1 << bits) - 1:,}, not {number:,}")
    return number
