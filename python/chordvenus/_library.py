"""The shared library: where it stands, and every call of include/chordvenus.h declared.

Nothing here thinks. A call takes the numbers and the memory that the header says, and gives its answer. A call that the
library does not have is missed when it is used, not before, so that an older library still serves for what it has.
"""
from __future__ import annotations

import ctypes
import os
import pathlib
import platform
from ctypes import POINTER, c_char_p, c_size_t, c_uint8, c_uint16, c_uint32, c_uint64
from typing import Any, Dict, List, NamedTuple, Tuple

VERSION = 1  # CV_VERSION of the header that is declared here
IDLE = 255  # stands where an idle input's output would
MOST_LINE = 65_535  # the largest line sum, the largest wish and the largest hold
MOST_QUICK = 1_024  # the largest T of the quick cover
WISH_SIZE = 8  # bytes of a wish record
DROPPED_SIZE = 4  # bytes of an entry of the list that rescue writes
TASK_SIZE = 12  # bytes of a task record


class Edition(NamedTuple):
    """What differs between the two kinds of plan records."""

    number: int
    ports: int  # the largest N
    size: int  # bytes of a record
    records: int  # the most records of a plan that is read
    mark: int  # the fourth byte of a record
    prefix: str  # of the calls' names


FIRST = Edition(1, 64, 68, 8_192, 0, "cv_")
SECOND = Edition(2, 128, 132, 32_768, 2, "cv2_")


class LibraryMissing(OSError):
    """The shared library is not to be found, or is not one of this module's version."""


class CallMissing(NotImplementedError):
    """The shared library does not have the call."""


class Answer(ctypes.Structure):
    """cv_answer. What does not apply is 0."""

    _fields_ = [(name, c_uint64) for name in "code place side records longest total length empty added dropped about".split()]


class Step(ctypes.Structure):
    """cv_step."""

    _fields_ = [("kind", c_uint64), ("place", c_uint64), ("hold", c_uint64), ("outputs", c_uint8 * FIRST.ports)]


class Step2(ctypes.Structure):
    """cv2_step."""

    _fields_ = [("kind", c_uint64), ("place", c_uint64), ("hold", c_uint64), ("outputs", c_uint8 * SECOND.ports)]


class Part(ctypes.Structure):
    """cv_part."""

    _fields_ = [("answer", Answer), ("plan", c_uint64), ("start", c_uint64), ("size", c_uint64)]


_READ = (c_char_p, c_size_t)  # bytes that are only read
_WRITTEN = (POINTER(c_uint8), c_size_t)  # bytes that are written
_CELLS = (POINTER(c_uint32), c_size_t)
_PLANNER = (c_uint64, *_CELLS, *_WRITTEN)
_REWRITES = (c_uint64, *_READ, *_WRITTEN)
_ROOM = (c_uint64, c_uint64)

SIGNATURES: Dict[str, Tuple[Any, Tuple[Any, ...]]] = {
    "cv_version": (c_uint64, ()),
    "cv_wish": (Answer, (c_uint32,)),
    "cv_grating_doubled": (Answer, _PLANNER),
    "cv_grating_quiet": (Answer, (c_uint64, *_CELLS, c_uint64, *_WRITTEN)),
    "cv_grating_least": (Answer, (c_uint64, *_CELLS, c_uint64)),
    "cv_grating_report": (Answer, _REWRITES),
    "cv_to_second": (Answer, _REWRITES),
    "cv_to_first": (Answer, _REWRITES),
    "cv_in_force": (Part, (c_uint64, *_READ, *_READ, c_uint64)),
    "cv_carry_over": (Answer, (c_uint64, *_CELLS, *_READ, c_uint64, *_CELLS, *_CELLS)),
    "cv_rescue": (Answer, (c_uint64, *_CELLS, *_READ, *_WRITTEN, *_WRITTEN)),
    "cv_shop": (Answer, (c_uint64, *_CELLS, c_uint16, *_WRITTEN)),
    "cv_tasks": (Answer, (c_uint64, *_READ)),
    "cv_step_at": (Step, (c_uint64, *_READ, c_uint64)),
    "cv2_step_at": (Step2, (c_uint64, *_READ, c_uint64)),
}
for _edition in (FIRST, SECOND):
    SIGNATURES.update({
        _edition.prefix + "wishes": (Answer, (c_uint64, *_READ, *_CELLS)),
        _edition.prefix + "exact": (Answer, _PLANNER),
        _edition.prefix + "doubled": (Answer, _PLANNER),
        _edition.prefix + "doubled_every_rotation": (Answer, _PLANNER),
        _edition.prefix + "quick": (Answer, _PLANNER),
        _edition.prefix + "exact_room": (Answer, _ROOM),
        _edition.prefix + "doubled_room": (Answer, _ROOM),
        _edition.prefix + "quick_room": (Answer, _ROOM),
        _edition.prefix + "check": (Answer, (c_uint64, *_CELLS, *_READ)),
        _edition.prefix + "length": (Answer, (c_uint64, *_READ, c_uint16)),
        _edition.prefix + "join": (Answer, _REWRITES),
        _edition.prefix + "write": (Answer, (c_uint16, c_uint64, c_char_p, *_WRITTEN)),
        _edition.prefix + "open": (Answer, (c_uint64, *_READ)),
    })

_loaded: Dict[str, Any] = {}


def candidates() -> List[str]:
    """Where the library is looked for, in turn: what CHORDVENUS_LIBRARY names and nothing else, or else beside the module,
    where the repository's is made, where ./install puts it, and where the system keeps its libraries."""
    named = os.environ.get("CHORDVENUS_LIBRARY")
    if named:
        return [named]
    here = pathlib.Path(__file__).resolve().parent
    made = here.parent.parent / "target" / "staticlib" / "libchordvenus.so"
    installed = here.parent.parent.parent.parent / "lib" / f"libchordvenus.so.{VERSION}"  # of a module below PREFIX/share/chordvenus/python
    places = [here / "libchordvenus.so", made] + ([installed] if here.parent.parent.name == "chordvenus" else [])
    return [str(place) for place in places if place.exists()] + [f"libchordvenus.so.{VERSION}", "libchordvenus.so"]


def load(path: str) -> Any:
    """The library at a path, once it is seen to be of this module's version."""
    library = ctypes.CDLL(path)
    try:
        version = library.cv_version
    except AttributeError:
        raise LibraryMissing(f"{path} is not Chordvenus: it has no cv_version") from None
    version.restype, version.argtypes = SIGNATURES["cv_version"]
    if version() != VERSION:
        raise LibraryMissing(f"{path} is of version {version()}, and this module of version {VERSION}: they belong together")
    return library


def library() -> Any:
    """The library, found at its first use and kept."""
    if "library" not in _loaded:
        _loaded["library"] = found()
    return _loaded["library"]


def found() -> Any:
    """The first library that can be loaded, or else words that say what to do."""
    reasons = []
    for path in candidates():
        try:
            return load(path)
        except LibraryMissing:
            raise
        except OSError as error:
            reasons.append(str(error))
    if platform.machine() not in ("x86_64", "AMD64"):
        reasons.append(f"it is for x86-64, and this processor is {platform.machine()}")
    raise LibraryMissing(
        "the shared library libchordvenus.so is not found; ./example makes it in the repository, "
        f"and CHORDVENUS_LIBRARY may name one that stands elsewhere ({'; '.join(reasons)})"
    )


def call(name: str) -> Any:
    """The call of that name, its arguments and its answer declared."""
    if name not in _loaded:
        try:
            function = getattr(library(), name)
        except AttributeError:
            raise CallMissing(f"this libchordvenus.so has no {name}: it is older than this module; build it anew") from None
        function.restype, function.argtypes = SIGNATURES[name]
        _loaded[name] = function
    return _loaded[name]


def has(name: str) -> bool:
    """Whether the library has a call."""
    try:
        call(name)
    except CallMissing:
        return False
    return True


def lent(memory: Any, kind: Any = c_uint8) -> Any:
    """Memory that a call may write, a bytearray or an array of cells, as ctypes wants it."""
    return (kind * len(memory)).from_buffer(memory)
