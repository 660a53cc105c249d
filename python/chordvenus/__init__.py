"""Chordvenus: from wishes to plans for a switch of N inputs and N outputs, by a library whose every function is proved.

>>> import chordvenus
>>> p = chordvenus.plan([(0, 0, 2.0), (0, 1, 1.0), (1, 0, 0.5), (1, 1, 1.5)])
>>> p.records, p.longest, p.total, p.empty
(2, 4, 4, 0)
>>> for hold, outputs in p:
...     print(hold, outputs)
2 (0, 1)
2 (1, 0)

Wishes are triples, a mapping or a square array (`demand`), or whole slots taken as they are (`cells`). `plan` makes a plan of
them; `check`, `length`, `join`, `report`, `move`, `rescue`, `in_force` and `carry_over` are done with plans from anywhere;
`shop` makes a schedule for switches whose ports move on their own; `picture` draws any of these. A refusal is an exception of
its own class, a `Refused`, for each code, in words. The examples here are written as after `from chordvenus import *`.
"""
from ._library import CallMissing, LibraryMissing
from .calls import (
    METHODS,
    Counts,
    Dropped,
    InForce,
    Rescued,
    carry_over,
    check,
    in_force,
    join,
    least,
    length,
    move,
    plan,
    report,
    rescue,
    room,
)
from .demands import Demand, Ports, cells, demand, of_wish_list, wish
from .pictures import picture, report_picture
from .plans import Plan, Setting, load
from .refusals import (
    AboveMost,
    BadLimit,
    BadPorts,
    BelowZero,
    FirstOver,
    LineTooLong,
    Malformed,
    NamedTwice,
    NoListRoom,
    NoRoom,
    NotFinite,
    NothingInForce,
    Refused,
    TooLongForQuick,
    TooManyRecords,
    Torn,
    Uncovered,
    WrongCells,
)
from .schedules import Schedule, Task, shop
from .texts import BadLine, read_wishes

__all__ = [  # fmt: skip
    "AboveMost", "BadLimit", "BadLine", "BadPorts", "BelowZero", "CallMissing", "Counts", "Demand", "Dropped",
    "FirstOver", "InForce", "LibraryMissing", "LineTooLong", "METHODS", "Malformed", "NamedTwice", "NoListRoom",
    "NoRoom", "NotFinite", "NothingInForce", "Plan", "Ports", "Refused", "Rescued", "Schedule", "Setting", "Task",
    "TooLongForQuick", "TooManyRecords", "Torn", "Uncovered", "WrongCells", "carry_over", "cells", "check", "demand",
    "in_force", "join", "least", "length", "load", "move", "of_wish_list", "picture", "plan", "read_wishes", "report",
    "report_picture", "rescue", "room", "shop", "wish",
]
