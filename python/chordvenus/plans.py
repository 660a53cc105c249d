"""A plan: settings of the switch one after the other, each with the number of slots for which it is held."""
from __future__ import annotations

import os
from array import array
from typing import IO, Any, Iterator, List, NamedTuple, Optional, Tuple, Union

from . import _library as lib
from . import arrays, refusals
from .demands import Demand, Ports, bad_ports, edition_for, ports_number

File = Union[str, "os.PathLike[str]", IO[bytes]]

REASONS = {
    1: "its hold is 0",
    2: "its number of ports is another",
    3: "its fourth byte is wrong",
    4: "an output is out of range",
    5: "an output stands twice",
    6: "an input that is not there is not idle",
    7: "the file ends inside it",
}


class Setting(NamedTuple):
    """One record of a plan: how long it is held, and the output of each input, None where it is idle."""

    hold: int
    outputs: Tuple[Optional[int], ...]


class Plan:
    """A plan whose every record is well formed. It does not change once it is made.

    ports    N
    edition  1, whose records have 68 bytes, or 2, whose records have 132
    records  how many records
    total    total hold: all holds together
    longest  T of the demand that the plan was made or checked for, or None
    empty    slots that it grants beyond what that demand asks, or None
    demand   that demand, or None
    holds    the holds as an array, numpy's where numpy is there
    outputs  the outputs as an array of records by inputs, 255 where an input is idle: outputs[k][i]
    data     the bytes of the records

    len(plan) is its records, plan[k] one Setting, and iterating gives them in turn.

    >>> p = plan(cells([[2, 1], [1, 2]]))
    >>> p
    Plan of 2 ports, 2 records, total hold 3, longest line 3, 0 empty slots
    >>> for hold, outputs in p:
    ...     print(hold, outputs)
    2 (0, 1)
    1 (1, 0)
    >>> p.holds.tolist(), p.outputs[1].tolist(), p[0].hold
    ([2, 1], [1, 0], 2)
    >>> p == Plan.from_bytes(p.data) and p == plan([[2, 2], [2, 2]])
    False
    """

    __slots__ = ("data", "demand", "edition", "empty", "longest", "names", "ports", "records", "total")

    def __init__(self, ports: int, edition: int, data: bytes, total: int, demand: Optional[Demand] = None, longest: Optional[int] = None,
                 empty: Optional[int] = None, names: Optional[Ports] = None) -> None:  # fmt: skip
        self.ports = ports
        self.edition = edition
        self.data = data
        self.records = len(data) // edition_for(ports, edition).size
        self.total = total
        self.demand = demand
        self.longest = longest
        self.empty = empty
        self.names = names if names is not None else demand.names if demand is not None else Ports()

    @classmethod
    def from_bytes(cls, data: bytes, ports: Optional[int] = None, edition: Union[int, str, None] = None) -> "Plan":
        """A plan from its bytes, every record judged. N and the edition are the first record's unless they are given.

        >>> p = plan(cells([[0, 1], [1, 0]]))
        >>> Plan.from_bytes(p.data) == p
        True
        >>> Plan.from_bytes(p.data + p.data[:10])
        Traceback (most recent call last):
            ...
        chordvenus.refusals.Torn: the plan ends inside a record: 1 whole records and 10 bytes more
        """
        data = bytes(data)
        n, kind = header(data, ports, edition)
        answer = lib.call(kind.prefix + "length")(n, data, len(data), 0)
        if answer.code:
            raise refused_plan(answer, n, kind, data)
        return cls(n, kind.number, data, answer.total)

    @classmethod
    def load(cls, file: File, ports: Optional[int] = None, edition: Union[int, str, None] = None) -> "Plan":
        """A plan from a file of records, by its name or open for reading bytes. See `from_bytes`.

        >>> import io
        >>> Plan.load(io.BytesIO(plan([[0, 3], [2, 0]]).data))
        Plan of 2 ports, 1 records, total hold 3
        """
        return cls.from_bytes(read_bytes(file), ports, edition)

    def save(self, file: File) -> None:
        """Writes the records, and nothing else, to a file.

        >>> import io
        >>> p, file = plan(cells([[0, 1], [1, 0]])), io.BytesIO()
        >>> p.save(file)
        >>> Plan.from_bytes(file.getvalue()) == p
        True
        """
        write_bytes(file, self.data)

    @property
    def holds(self) -> Any:
        return arrays.row(self._holds())

    @property
    def outputs(self) -> Any:
        size, n = self._size(), self.ports
        rows = b"".join(self.data[start + 4 : start + 4 + n] for start in range(0, len(self.data), size))
        return arrays.grid(array("B", rows), n)

    def svg(self, **how: Any) -> str:
        """A picture of the plan. See `chordvenus.picture`.

        >>> plan([[0, 3], [2, 0]]).svg().endswith("</svg>\\n")
        True
        """
        from .pictures import picture

        return picture(self, **how)

    def _size(self) -> int:
        return edition_for(self.ports, self.edition).size

    def _holds(self) -> "array[int]":
        size = self._size()
        low, high = self.data[0::size], self.data[1::size]
        return array("H", [a | b << 8 for a, b in zip(low, high)])

    def __len__(self) -> int:
        return self.records

    def __getitem__(self, k: int) -> Setting:
        at = k + self.records if k < 0 else k
        if not 0 <= at < self.records:
            raise IndexError(f"record {k}: the plan has {self.records}")
        record = self.data[at * self._size() :][: 4 + self.ports]
        return Setting(record[0] | record[1] << 8, tuple(None if j == lib.IDLE else j for j in record[4:]))

    def __iter__(self) -> Iterator[Setting]:
        return (self[k] for k in range(self.records))

    def __eq__(self, other: object) -> bool:
        if not isinstance(other, Plan):
            return NotImplemented
        return (self.ports, self.edition, self.data) == (other.ports, other.edition, other.data)

    def __hash__(self) -> int:
        return hash((self.ports, self.edition, self.data))

    def __repr__(self) -> str:
        known = "" if self.longest is None else f", longest line {self.longest:,}, {self.empty:,} empty slots"
        second = ", second edition" if self.edition == 2 else ""
        return f"Plan of {self.ports} ports{second}, {self.records:,} records, total hold {self.total:,}{known}"


def load(file: File, ports: Optional[int] = None, edition: Union[int, str, None] = None) -> Plan:
    """A plan from a file. N and the edition are the first record's unless they are given; a damaged record is named.

    >>> import io
    >>> load(io.BytesIO(bytes([0, 0, 2, 0, 0, 1] + 62 * [255])))
    Traceback (most recent call last):
        ...
    chordvenus.refusals.Malformed: record 0 of the plan is not well formed: its hold is 0
    """
    return Plan.load(file, ports, edition)


def read_bytes(file: File) -> bytes:
    """All bytes of a file, by its name or open."""
    if hasattr(file, "read"):
        return file.read()
    with open(file, "rb") as opened:
        return opened.read()


def write_bytes(file: File, data: bytes) -> None:
    """Bytes to a file, by its name or open."""
    if hasattr(file, "write"):
        file.write(data)
        return
    with open(file, "wb") as opened:
        opened.write(data)


def header(data: bytes, ports: Optional[int], edition: Union[int, str, None]) -> Tuple[int, lib.Edition]:
    """N and edition as they are given, or else as the first record says them."""
    if ports is None and len(data) < 4:
        raise ValueError("a plan of no records does not say how many ports it is for: give ports")
    n = data[2] if ports is None else ports_number(ports)
    if edition is None and len(data) >= 4:
        return n, lib.SECOND if data[3] == lib.SECOND.mark else lib.FIRST
    return n, edition_for(n, edition)


def refused_plan(answer: Any, n: int, kind: lib.Edition, data: bytes, name: str = "the plan", about: Optional[str] = None) -> refusals.Refused:
    """A plan that cannot be read, in words."""
    k = answer.place
    if answer.code == 1:
        return bad_ports(n, kind.number)
    if answer.code == 9:
        words = f"{name} ends inside a record: {k} whole records and {len(data) - k * kind.size} bytes more"
        return refusals.Torn(words, k, about=about)
    if answer.code == 10:
        return refusals.TooManyRecords(f"{name} has more than {k:,} records", k, about=about)
    why = REASONS[reason_of(n, kind, data[k * kind.size : (k + 1) * kind.size])]
    return refusals.Malformed(f"record {k} of {name} is not well formed: {why}", k, about=about)


def reason_of(n: int, kind: lib.Edition, record: bytes) -> int:
    """What is wrong with a record that is not well formed, for the sentence: the first of `REASONS` that is true of it."""
    first, later = record[4 : 4 + n], record[4 + n :]
    joined = [j for j in first if j != lib.IDLE]
    faults = (
        record[0] == record[1] == 0,
        record[2] != n,
        record[3] != kind.mark,
        any(j >= n for j in joined),
        len(set(joined)) != len(joined),
        any(j != lib.IDLE for j in later),
        True,
    )
    return 1 + faults.index(True)


def granted(plan: Plan) -> List[int]:
    """What a plan grants each pair, by cell."""
    n = plan.ports
    slots = [0] * (n * n)
    for hold, outputs in plan:
        for i, j in enumerate(outputs):
            if j is not None:
                slots[i * n + j] += hold
    return slots
