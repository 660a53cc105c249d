"""A schedule for switches whose ports move on their own: each pair is a task with a start and an end of its own."""
from __future__ import annotations

import struct
from array import array
from typing import Any, Iterator, List, NamedTuple, Optional

from . import _library as lib
from . import arrays, refusals
from .calls import _refused_demand
from .demands import Demand, Ports, Wishes, bad_ports, demand, ports_number
from .plans import File, read_bytes, write_bytes

_LAYOUT = "<BBHII"  # input, output, two zero bytes, start, end


class Task(NamedTuple):
    """An input is joined to an output from `start` up to but not at `end`; the first slots are the switching."""

    input: int
    output: int
    start: int
    end: int


class Schedule:
    """Tasks in the order of their starts, no port with two at a time. It does not change once it is made.

    ports      N
    records    how many tasks
    total      the latest end
    switching  the switching time that each task begins with, or None where it is not known
    demand     the demand that it was made for, or None
    tasks      the tasks as an array with columns input, output, start and end
    data       the bytes of the task records

    >>> s = shop(cells([[2, 1], [1, 2]]), 1)
    >>> s
    Schedule of 2 ports, 4 tasks, latest end 5
    >>> for task in s:
    ...     print(task)
    Task(input=0, output=0, start=0, end=3)
    Task(input=1, output=1, start=0, end=3)
    Task(input=1, output=0, start=3, end=5)
    Task(input=0, output=1, start=3, end=5)
    """

    __slots__ = ("data", "demand", "names", "ports", "records", "switching", "total")

    def __init__(self, ports: int, data: bytes, total: int, switching: Optional[int] = None, demand: Optional[Demand] = None) -> None:
        self.ports = ports
        self.data = data
        self.records = len(data) // lib.TASK_SIZE
        self.total = total
        self.switching = switching
        self.demand = demand
        self.names = demand.names if demand is not None else Ports()

    @classmethod
    def from_bytes(cls, data: bytes, ports: int) -> "Schedule":
        """A schedule from its bytes, every task judged.

        >>> s = shop(cells([[2, 1], [1, 2]]), 1)
        >>> Schedule.from_bytes(s.data, 2) == s
        True
        >>> Schedule.from_bytes(s.data[:12] + s.data[:12], 2)
        Traceback (most recent call last):
            ...
        chordvenus.refusals.Malformed: task 1 does not start after the task before it
        """
        data, n = bytes(data), ports_number(ports)
        answer = lib.call("cv_tasks")(n, data, len(data))
        if answer.code:
            raise _refused_tasks(answer, n, data)
        return cls(n, data, answer.total)

    @classmethod
    def load(cls, file: File, ports: int) -> "Schedule":
        """A schedule from a file of task records, by its name or open for reading bytes. See `from_bytes`.

        >>> import io
        >>> Schedule.load(io.BytesIO(shop([[0, 3], [2, 0]], 1).data), 2).total
        4
        """
        return cls.from_bytes(read_bytes(file), ports)

    def save(self, file: File) -> None:
        """Writes the task records, and nothing else, to a file.

        >>> import io
        >>> s, file = shop([[0, 3], [2, 0]], 1), io.BytesIO()
        >>> s.save(file)
        >>> Schedule.from_bytes(file.getvalue(), 2) == s
        True
        """
        write_bytes(file, self.data)

    @property
    def tasks(self) -> Any:
        return arrays.grid(array("I", [number for task in self for number in task]), 4)

    def svg(self, **how: Any) -> str:
        """A picture of the schedule. See `chordvenus.picture`.

        >>> shop([[0, 3], [2, 0]], 1).svg().endswith("</svg>\\n")
        True
        """
        from .pictures import picture

        return picture(self, **how)

    def __len__(self) -> int:
        return self.records

    def __getitem__(self, k: int) -> Task:
        at = k + self.records if k < 0 else k
        if not 0 <= at < self.records:
            raise IndexError(f"task {k}: the schedule has {self.records}")
        return _task(self.data, at)

    def __iter__(self) -> Iterator[Task]:
        return (self[k] for k in range(self.records))

    def __eq__(self, other: object) -> bool:
        if not isinstance(other, Schedule):
            return NotImplemented
        return (self.ports, self.data) == (other.ports, other.data)

    def __hash__(self) -> int:
        return hash((self.ports, self.data))

    def __repr__(self) -> str:
        return f"Schedule of {self.ports} ports, {self.records:,} tasks, latest end {self.total:,}"


def shop(wishes: Wishes, switching: int) -> Schedule:
    """The schedule of a demand where ports move on their own and switching takes so many slots: a task for each pair that
    asks, as long as its slots and the switching time together.

    >>> shop(cells([[3, 0], [0, 2]]), 1).total
    4
    """
    asked, d = demand(wishes), arrays.whole(switching, 16, "the switching time")
    memory = bytearray(lib.TASK_SIZE * asked.ports**2)
    answer = lib.call("cv_shop")(asked.ports, *asked._lent(), d, lib.lent(memory), len(memory))
    if answer.code:
        raise _refused_demand(answer, asked, lib.FIRST.number)
    return Schedule(asked.ports, bytes(memory[: answer.records * lib.TASK_SIZE]), answer.total, d, asked)


def _task(data: bytes, at: int) -> Task:
    i, j, _, start, end = struct.unpack_from(_LAYOUT, data, at * lib.TASK_SIZE)
    return Task(i, j, start, end)


def _refused_tasks(answer: Any, n: int, data: bytes) -> refusals.Refused:
    k = answer.place
    if answer.code == 1:
        return bad_ports(n, lib.FIRST.number)
    if answer.code == 9:
        left = len(data) - k * lib.TASK_SIZE
        return refusals.Torn(f"the schedule ends inside a task: {k} whole tasks and {left} bytes more", k)
    return refusals.Malformed(f"task {k} {_task_fault(n, data, k)}", k)


def _task_fault(n: int, data: bytes, k: int) -> str:
    """What is wrong with a task, for the sentence."""
    task = _task(data, k)
    if task.input >= n or task.output >= n:
        return f"joins input {task.input} to output {task.output}, and they are 0 to {n - 1}"
    if data[k * lib.TASK_SIZE + 2] or data[k * lib.TASK_SIZE + 3]:
        return "has a third or fourth byte other than 0"
    if task.start >= task.end:
        return f"starts at {task.start:,} and ends at {task.end:,}"
    earlier: List[Task] = [_task(data, b) for b in range(k)]
    if earlier and (task.start, task.output) <= (earlier[-1].start, earlier[-1].output):
        return "does not start after the task before it"
    for b, other in enumerate(earlier):
        if task.start < other.end and (task.input == other.input or task.output == other.output):
            side = f"input {task.input}" if task.input == other.input else f"output {task.output}"
            return f"overlaps task {b} on {side}"
    return "is not well formed"
