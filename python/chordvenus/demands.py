"""From wishes to a demand: how many whole slots each input asks of each output."""
from __future__ import annotations

from array import array
from ctypes import c_uint32
from typing import Any, Iterable, List, Mapping, NamedTuple, Optional, Sequence, Tuple, Union

from . import _library as lib
from . import arrays, refusals
from .singles import bits_of, bits_of_all

MOST_CELL = 2**32 - 1
NOWHERE = 255  # no port of any switch: stands in a wish record for a port that no byte can hold


class Ports(NamedTuple):
    """What people call the ports: names, where the wishes have names, or else the numbers."""

    inputs: Optional[Tuple[str, ...]] = None
    outputs: Optional[Tuple[str, ...]] = None

    def input(self, number: int) -> str:
        """What input `number` is called.

        >>> demand([("maser", 0, 3)]).names.input(0)
        'maser'
        """
        return _called(self.inputs, number)

    def output(self, number: int) -> str:
        """What output `number` is called.

        >>> demand([("maser", 0, 3)]).names.output(0)
        '0'
        """
        return _called(self.outputs, number)


def _called(names: Optional[Tuple[str, ...]], number: int) -> str:
    return names[number] if names is not None and number < len(names) else str(number)


class Demand:
    """The slots that each input of a switch asks of each output. It does not change once it is made.

    ports    N: how many inputs, and how many outputs
    names    what the ports are called
    cells    the slots as an N by N array, numpy's where numpy is there: cells[i][j] is what input i asks of output j
    longest  T: the most slots that any input or output is asked for
    asked    all slots together

    >>> d = demand({(0, 0): 2.0, (0, 1): 1.0, (1, 0): 0.5, (1, 1): 1.5})
    >>> d
    Demand of 2 ports, 8 slots, longest line 4
    >>> d[1, 0], d.longest, d.rows()
    (2, 4, [[2, 2], [2, 2]])
    """

    __slots__ = ("_slots", "names", "ports")

    def __init__(self, ports: int, slots: "array[int]", names: Ports = Ports()) -> None:
        self.ports = ports
        self._slots = slots
        self.names = names

    @property
    def cells(self) -> Any:
        return arrays.grid(self._slots, self.ports)

    @property
    def longest(self) -> int:
        return max(self._lines(), default=0)

    @property
    def asked(self) -> int:
        return sum(self._slots)

    def rows(self) -> List[List[int]]:
        """The cells as a list for each input.

        >>> cells([[3, 0], [1, 0]]).rows()
        [[3, 0], [1, 0]]
        """
        return [self._slots[i * self.ports : (i + 1) * self.ports].tolist() for i in range(self.ports)]

    def line(self, side: str, number: int) -> int:
        """The slots that an input or an output is asked for in all.

        >>> cells([[3, 0], [1, 0]]).line("output", 0)
        4
        """
        n = self.ports
        return sum(self._slots[number * n : (number + 1) * n]) if side == "input" else sum(self._slots[number::n])

    def _lines(self) -> List[int]:
        return [self.line(side, k) for side in ("input", "output") for k in range(self.ports)]

    def __getitem__(self, pair: Tuple[int, int]) -> int:
        i, j = pair
        if not (0 <= i < self.ports and 0 <= j < self.ports):
            raise IndexError(f"input {i}, output {j}: there are {self.ports} of each")
        return self._slots[i * self.ports + j]

    def __eq__(self, other: object) -> bool:
        if not isinstance(other, Demand):
            return NotImplemented
        return self.ports == other.ports and self._slots == other._slots

    def __hash__(self) -> int:
        return hash((self.ports, self._slots.tobytes()))

    def __repr__(self) -> str:
        return f"Demand of {self.ports} ports, {self.asked:,} slots, longest line {self.longest:,}"

    def __array__(self, dtype: Any = None, copy: Any = None) -> Any:
        cells = self.cells
        return cells if dtype is None else cells.astype(dtype)

    def _lent(self) -> Tuple[Any, int]:
        """The cells as a call is lent them."""
        return lib.lent(self._slots, c_uint32), len(self._slots)


Wishes = Union[Demand, Mapping[Tuple[Any, Any], Any], Iterable[Tuple[Any, Any, Any]], Sequence[Sequence[Any]]]


class _Listed(NamedTuple):
    """Wishes one after the other, ports as they were given."""

    inputs: List[Any]
    outputs: List[Any]
    slots: List[Any]


def demand(wishes: Wishes, ports: Optional[int] = None, edition: Union[int, str, None] = None) -> Demand:
    """The demand of wishes, each rounded up to whole slots: 0 stays 0, and any wish above it is worth 2 slots or more.

    Wishes are triples, a mapping, or a square array. A triple is a tuple of input, output and slots; a mapping has pairs
    (input, output) for keys; an array has a row, a list, for each input, or is numpy's of two dimensions. Ports are numbers
    from 0 on, or names, which are numbered on each side as they come. N is the largest port and one more unless `ports` says
    it. Slots are ints, floats, Fractions, Decimals or texts; one that is no binary32 counts as the next above it.

    >>> demand([(0, 0, 2.0), (0, 1, 1.0), (1, 0, 0.5), (1, 1, 1.5)]).rows()
    [[2, 2], [2, 2]]
    >>> demand([[2.0, 1.0], [0.5, 1.5]]) == demand({(0, 0): 2.0, (0, 1): 1.0, (1, 0): 0.5, (1, 1): 1.5})
    True
    >>> demand([("caesium", "counter A", 3), ("maser", "counter B", 2.5)]).names.inputs
    ('caesium', 'maser')
    >>> demand([(0, 0, 3), (0, 0, 4)])
    Traceback (most recent call last):
        ...
    chordvenus.refusals.NamedTwice: wish 1 names input 0 and output 0, and so did wish 0
    """
    if isinstance(wishes, Demand):
        if ports not in (None, wishes.ports):
            raise ValueError(f"the demand has {wishes.ports} ports, not {ports}")
        return wishes
    if _is_square(wishes):
        rows = _rows(wishes)
        if ports not in (None, len(rows)):
            raise ValueError(f"the array has {len(rows)} rows, and ports is {ports}")
        return _from_rows(rows, edition)
    return _from_list(_listed(wishes), ports, edition)


def cells(rows: Any) -> Demand:
    """A demand of whole slots, taken as they are: 1 stays 1.

    >>> cells([[2, 1], [1, 2]]).rows()
    [[2, 1], [1, 2]]
    """
    checked = [[arrays.whole(cell, 32, "a cell") for cell in line] for line in _rows(rows)]
    return Demand(len(checked), array("I", [cell for line in checked for cell in line]))


def wish(slots: Any) -> int:
    """What one wish is worth in slots.

    >>> [wish(slots) for slots in (0, 0.001, 1, 2.5, "65535")]
    [0, 2, 2, 3, 65535]
    >>> wish(-1)
    Traceback (most recent call last):
        ...
    chordvenus.refusals.BelowZero: the wish -1 is less than 0
    """
    answer = lib.call("cv_wish")(bits_of(slots))
    if answer.code:
        raise refusals.BY_CODE[answer.code](f"the wish {slots} {FAULTS[answer.code]}")
    return int(answer.total)


def of_wish_list(data: bytes, ports: Optional[int] = None, edition: Union[int, str, None] = None) -> Demand:
    """The demand of a wish list, records of 8 bytes as docs/SPECIFICATION.md lays them out.

    >>> of_wish_list(bytes([0, 1, 0, 0, 0, 0, 128, 63])).rows()
    [[0, 2], [0, 0]]
    """
    whole = len(data) // lib.WISH_SIZE
    records = [data[k * lib.WISH_SIZE : (k + 1) * lib.WISH_SIZE] for k in range(whole)]
    named = [port for record in records for port in record[:2]]
    listed = _Listed([r[0] for r in records], [r[1] for r in records], ["" for _ in records])
    return _called_wishes(_ports(ports, named), edition, data, listed, Ports())


# ---- How wishes are given


def _is_square(wishes: Any) -> bool:
    """Rows are lists, triples are tuples: three rows of three and three triples look alike otherwise."""
    if hasattr(wishes, "shape"):
        return True
    return isinstance(wishes, (list, tuple)) and bool(wishes) and all(isinstance(line, (list, array)) for line in wishes)


def _rows(rows: Any) -> List[List[Any]]:
    if hasattr(rows, "tolist") and len(getattr(rows, "shape", ())) != 2:
        raise ValueError("an array of wishes has two dimensions: a row for each input")
    lines: List[List[Any]] = rows.tolist() if hasattr(rows, "tolist") else [list(line) for line in rows]
    for i, line in enumerate(lines):
        if len(line) != len(lines):
            hint = "; triples are tuples, not lists" if len(line) == 3 else ""
            raise ValueError(f"row {i} of the array has {len(line)} cells, and there are {len(lines)} rows: it is not square{hint}")
    return lines


def _listed(wishes: Any) -> _Listed:
    triples = [(*pair, slots) for pair, slots in wishes.items()] if isinstance(wishes, Mapping) else list(wishes)
    for k, triple in enumerate(triples):
        if not isinstance(triple, (tuple, list)) or len(triple) != 3:
            raise ValueError(f"wish {k} is {triple!r}, and a wish is input, output and slots")
    return _Listed([t[0] for t in triples], [t[1] for t in triples], [t[2] for t in triples])


def _numbered(ports: List[Any], side: str) -> Tuple[List[int], Optional[Tuple[str, ...]]]:
    """The ports of one side by number, and their names where they have names."""
    names = [port for port in ports if isinstance(port, str)]
    if names and len(names) != len(ports):
        number = next(port for port in ports if not isinstance(port, str))
        raise ValueError(f"{side}s have names or numbers, not both: {names[0]!r} and {number!r}")
    if names:
        order = {name: k for k, name in enumerate(dict.fromkeys(names))}
        return [order[name] for name in names], tuple(order)
    for k, port in enumerate(ports):
        if isinstance(port, bool) or not hasattr(port, "__index__"):
            raise TypeError(f"wish {k}: an {side} is a whole number or a name, not {port!r}")
    return [port.__index__() for port in ports], None


# ---- The call


def _from_list(listed: _Listed, ports: Optional[int], edition: Union[int, str, None]) -> Demand:
    inputs, input_names = _numbered(listed.inputs, "input")
    outputs, output_names = _numbered(listed.outputs, "output")
    records = b"".join(
        bytes([_byte(i), _byte(j), 0, 0]) + bits.to_bytes(4, "little")
        for i, j, bits in zip(inputs, outputs, bits_of_all(listed.slots))
    )
    return _called_wishes(_ports(ports, inputs + outputs), edition, records, listed, Ports(input_names, output_names))


def _from_rows(rows: List[List[Any]], edition: Union[int, str, None]) -> Demand:
    """A wish for every cell, in order, so that the place of a refusal is the cell."""
    n = len(rows)
    slots = [slots for line in rows for slots in line]
    if n > lib.SECOND.ports:  # no byte could name the ports; the call refuses N before it reads a wish
        return _called_wishes(n, edition, b"", _Listed([], [], []), Ports())
    records = array("I", bytes(lib.WISH_SIZE * n * n))
    records[0::2] = array("I", [i | j << 8 for i in range(n) for j in range(n)])
    records[1::2] = bits_of_all(slots)
    return _called_wishes(n, edition, records.tobytes(), _Listed([], [], slots), Ports())


def _called_wishes(n: int, edition: Union[int, str, None], records: bytes, listed: _Listed, names: Ports) -> Demand:
    slots = array("I", bytes(4 * min(n, lib.SECOND.ports) ** 2))
    called = lib.call(edition_for(n, edition).prefix + "wishes")
    answer = called(n, records, len(records), lib.lent(slots, c_uint32), len(slots))
    if answer.code:
        raise _refused(answer, n, edition, records, listed, names)
    return Demand(n, slots, names)


def _byte(port: int) -> int:
    return port if 0 <= port < NOWHERE else NOWHERE


def _ports(given: Optional[int], named: Sequence[int]) -> int:
    if given is not None:
        return ports_number(given)
    return max((port for port in named if port >= 0), default=-1) + 1


def ports_number(given: Any) -> int:
    """An N as the calls take it. One that no 64 bits hold is code 1 as well, and must not wrap around to a small one."""
    if isinstance(given, bool) or not hasattr(given, "__index__"):
        raise TypeError(f"the number of ports is a whole number, not {given!r}")
    n = int(given.__index__())
    return n if 0 <= n < 2**64 else 2**64 - 1


EDITIONS = {1: lib.FIRST, "first": lib.FIRST, 2: lib.SECOND, "second": lib.SECOND}


def edition_for(n: int, edition: Union[int, str, None]) -> lib.Edition:
    """The edition that is named, or else the first that has so many ports."""
    if edition is None:
        return lib.SECOND if lib.FIRST.ports < n <= lib.SECOND.ports else lib.FIRST
    if edition not in EDITIONS:
        raise ValueError(f"an edition is 1 or 2, 'first' or 'second', not {edition!r}")
    return EDITIONS[edition]


def bad_ports(n: int, edition: Union[int, str, None]) -> refusals.BadPorts:
    """Code 1 in words."""
    most = lib.SECOND.ports if edition is None else edition_for(n, edition).ports
    if n == 0:
        return refusals.BadPorts(f"there are no ports: N is 0, and a switch has 1 to {most}")
    return refusals.BadPorts(f"N is {n}, and {'a switch' if edition is None else 'this edition'} has 1 to {most} ports")


FAULTS = {6: "is no finite number", 7: "is less than 0", 8: "is more than 65,535"}


def _refused(answer: Any, n: int, edition: Any, records: bytes, listed: _Listed, names: Ports) -> refusals.Refused:
    """A refused wish list in words."""
    k = answer.place
    if answer.code == 1:
        return bad_ports(n, edition)
    if answer.code == 9:
        left = len(records) - k * lib.WISH_SIZE
        return refusals.Torn(f"the wish list ends inside a record: {k} whole wishes and {left} bytes more", k)
    record = records[k * lib.WISH_SIZE : (k + 1) * lib.WISH_SIZE]
    i = _shown(listed.inputs, k, record[0])
    j = _shown(listed.outputs, k, record[1])
    if answer.code == 11:
        return refusals.Malformed(f"wish {k}, from input {i} to output {j}, {_misfit(record, n)}", k)
    if answer.code == 12:
        before = next(b for b in range(k) if records[b * lib.WISH_SIZE :][:2] == record[:2])
        return refusals.NamedTwice(f"wish {k} names input {i} and output {j}, and so did wish {before}", k)
    slots = f", {listed.slots[k]}," if listed.slots[k] != "" else ""
    words = f"wish {k}, from input {i} to output {j}{',' if not slots else slots} {FAULTS[answer.code]}"
    return refusals.BY_CODE[answer.code](words, k)


def _shown(ports: List[Any], k: int, byte: int) -> Any:
    return ports[k] if k < len(ports) else byte


def _misfit(record: bytes, n: int) -> str:
    if record[2] or record[3]:
        return "has a third or fourth byte other than 0"
    side = "an input" if record[0] >= n else "an output"
    return f"names {side} that is not there: they are 0 to {n - 1}"
