"""What a call refuses, one class for each code, every one of them a ValueError.

>>> import chordvenus
>>> try:
...     chordvenus.plan([(0, 0, 65000), (0, 1, 65000)])
... except chordvenus.LineTooLong as refused:
...     print(refused.code, refused.side, refused.place, refused)
3 input 0 input 0 asks 130,000 slots in all, and a line has at most 65,535
"""
from __future__ import annotations

from typing import Dict, Optional, Type

SIDES = {0: None, 1: "input", 2: "output"}
ABOUT = {0: None, 1: "tonight", 2: "standby", 3: "plan", 4: "demand", 5: "wishes", 6: "sum"}


class Refused(ValueError):
    """A call that was refused. Nothing was made and nothing changed.

    code    the number of docs/SPECIFICATION.md
    place   where, as the code says: a record, a line, a cell, or how much room is needed
    side    "input" or "output" where a line is too long, else None
    about   "tonight", "standby", "plan", "demand", "wishes" or "sum" where there are several it could be about, else None

    line    where the wish stands that is refused, if it came from a text: its line and its column, from 1 on, else None

    As text it is a sentence that names the input, the output, the line or the record.
    """

    code = 0
    line: Optional[int] = None
    column: Optional[int] = None

    def __init__(self, sentence: str, place: int = 0, side: Optional[str] = None, about: Optional[str] = None) -> None:
        super().__init__(sentence)
        self.place = place
        self.side = side
        self.about = about

    @property
    def sentence(self) -> str:
        """The words alone."""
        return str(self.args[0])


class BadPorts(Refused):
    """N is 0, or more ports than the edition has."""

    code = 1


class WrongCells(Refused):
    """Some other number of cells than N * N."""

    code = 2


class LineTooLong(Refused):
    """An input or an output is asked for more than 65,535 slots in all."""

    code = 3


class TooLongForQuick(Refused):
    """T is more than 1,024, which is all that the quick cover takes."""

    code = 4


class NoRoom(Refused):
    """There is less room than the result takes. This module lends what is needed, so that it does not come up here."""

    code = 5


class NotFinite(Refused):
    """A wish is a NaN or an infinity."""

    code = 6


class BelowZero(Refused):
    """A wish is less than 0."""

    code = 7


class AboveMost(Refused):
    """A wish is more than 65,535."""

    code = 8


class Torn(Refused):
    """The bytes end inside a record."""

    code = 9


class TooManyRecords(Refused):
    """A plan has more records than are read."""

    code = 10


class Malformed(Refused):
    """A record is not well formed."""

    code = 11


class NamedTwice(Refused):
    """A wish names a pair that a wish before it named."""

    code = 12


class Uncovered(Refused):
    """The plan grants a pair less than it asks."""

    code = 13


class NothingInForce(Refused):
    """Tonight's plan is over, and the standby plan has no records."""

    code = 14


class FirstOver(Refused):
    """The batch is said to have stopped after more records than its plan has."""

    code = 15


class NoListRoom(Refused):
    """There is less room for the list of dropped records than it takes. This module lends what is needed."""

    code = 16


class BadLimit(Refused):
    """The limit on a wavelength is 0."""

    code = 17


BY_CODE: Dict[int, Type[Refused]] = {
    kind.code: kind
    for kind in (
        BadPorts, WrongCells, LineTooLong, TooLongForQuick, NoRoom, NotFinite, BelowZero, AboveMost, Torn,
        TooManyRecords, Malformed, NamedTwice, Uncovered, NothingInForce, FirstOver, NoListRoom, BadLimit,
    )
}  # fmt: skip
