"""The calls: plans of a demand by every method, and all that is done with a plan from anywhere."""
from __future__ import annotations

from array import array
from ctypes import c_uint32
from typing import Any, List, NamedTuple, Optional, Tuple, Union

from . import _library as lib
from . import arrays, refusals
from .demands import Demand, Wishes, bad_ports, demand, edition_for, ports_number
from .plans import REASONS, Plan, granted, refused_plan

AnyPlan = Union[Plan, bytes, bytearray, memoryview]
AnyEdition = Union[int, str, None]

METHODS = ("exact", "doubled", "every_rotation", "quick", "grating", "quiet")
FIRST_ONLY = ("grating", "quiet")  # the grating fabric is planned in the first edition alone
_CALLED = {
    "exact": "exact",
    "doubled": "doubled",
    "every_rotation": "doubled_every_rotation",
    "quick": "quick",
    "grating": "grating_doubled",
    "quiet": "grating_quiet",
}
_ROOMS = {"exact": "exact_room", "doubled": "doubled_room", "every_rotation": "doubled_room", "quick": "quick_room"}


class Counts(NamedTuple):
    """What the checker counts: records and total hold of the plan, T of the demand, and empty slots."""

    records: int
    longest: int
    total: int
    empty: int


class InForce(NamedTuple):
    """The record in force: of which plan, "tonight" or "standby", its number there, its hold and its outputs."""

    plan: str
    record: int
    hold: int
    outputs: Tuple[Optional[int], ...]


class Dropped(NamedTuple):
    """A record that rescue dropped: its number, the number of the reason, and the reason in words."""

    record: int
    reason: int
    words: str


class Rescued(NamedTuple):
    """A rescued plan, the records that were dropped, and how many were added at its end."""

    plan: Plan
    dropped: List[Dropped]
    added: int


# ---- Plans of a demand


def plan(wishes: Wishes, method: str = "exact", *, limit: Optional[int] = None, edition: AnyEdition = None) -> Plan:
    """A plan that covers a demand, or wishes in any form that `demand` takes.

    exact           the least total hold that any plan can have
    doubled         at most 2 N records, and less than twice the least total
    every_rotation  the same by the older rule, for controllers that expect all N rotations
    quick           a record for each slot, no slot empty; for a longest line of at most 1,024
    grating         doubled for the grating fabric: few inputs share a wavelength in its second part
    quiet           for the grating fabric: no record has more than `limit` inputs on one wavelength

    The edition is the first where N is at most 64 and else the second, unless it is named: 1 or 2, "first" or "second".

    >>> d = cells([[2, 1], [1, 2]])
    >>> for method in ("exact", "doubled", "quick"):
    ...     print(method, [(hold, outputs) for hold, outputs in plan(d, method)])
    exact [(2, (0, 1)), (1, (1, 0))]
    doubled [(2, (0, 1)), (1, (1, 0))]
    quick [(1, (0, 1)), (1, (1, 0)), (1, (0, 1))]
    >>> plan([[2.0, 1.0], [0.5, 1.5]]).longest
    4
    >>> plan(cells([[1025]]), "quick")
    Traceback (most recent call last):
        ...
    chordvenus.refusals.TooLongForQuick: the longest line has 1,025 slots, and the quick cover takes at most 1,024
    """
    if method not in METHODS:
        raise ValueError(f"there is no method {method!r}: it is one of {', '.join(METHODS)}")
    if (method == "quiet") != (limit is not None):
        raise ValueError("a quiet plan takes a limit" if limit is None else "only a quiet plan takes a limit")
    asked = demand(wishes)
    kind = lib.FIRST if method in FIRST_ONLY and edition is None else edition_for(asked.ports, edition)
    if method in FIRST_ONLY and kind is not lib.FIRST:
        raise ValueError(f"{method} plans are of the first edition alone")
    memory = bytearray(_records(asked, method, kind) * kind.size)
    wanted = () if limit is None else (_limit(limit),)
    called = lib.call(kind.prefix + _CALLED[method])
    answer = called(asked.ports, *asked._lent(), *wanted, lib.lent(memory), len(memory))
    if answer.code:
        raise _refused_demand(answer, asked, kind.number)
    data = bytes(memoryview(memory)[: answer.records * kind.size])
    if method == "grating":  # its call answers neither T nor empty slots; the checker does
        answer = lib.call("cv_check")(asked.ports, *asked._lent(), data, len(data))
    return Plan(asked.ports, kind.number, data, answer.total, asked, answer.longest, answer.empty)


def _records(asked: Demand, method: str, kind: lib.Edition) -> int:
    """Records for which there is always room enough; 0 where the planner is going to refuse the demand anyway."""
    if asked.ports > kind.ports:
        return 0
    if method in _ROOMS:
        most = lib.MOST_QUICK if method == "quick" else lib.MOST_LINE
        return int(lib.call(kind.prefix + _ROOMS[method])(asked.ports, min(asked.longest, most)).records)
    return 2 * asked.ports if method == "grating" else asked.ports**2


def _limit(limit: Any) -> int:
    """A limit that no 64 bits hold is no limit at all, and must not wrap around to a small one."""
    return arrays.whole(limit, 64, "the limit") if limit < 2**64 else 2**64 - 1


def room(ports: int, longest: int, method: str = "exact", *, edition: AnyEdition = None) -> int:
    """How many records suffice for every demand of so many ports whose lines have at most `longest` slots.

    >>> room(6, 8), room(6, 8, "doubled"), room(6, 8, "quick")
    (8, 12, 15)
    """
    if method not in _ROOMS:
        raise ValueError(f"there is no room to tell for {method!r}: it is one of {', '.join(_ROOMS)}")
    n, kind = ports_number(ports), edition_for(ports_number(ports), edition)
    answer = lib.call(kind.prefix + _ROOMS[method])(n, min(arrays.whole(longest, 64, "longest"), 2**64 - 1))
    if answer.code == 1:
        raise bad_ports(n, edition)
    if answer.code == 3:
        raise refusals.LineTooLong(f"a longest line of {longest:,} is more than the 65,535 slots that a line has")
    if answer.code == 4:
        raise _too_long_for_quick(longest)
    return int(answer.records)


def least(wishes: Wishes, limit: int) -> int:
    """The least total hold that any plan can have that covers the demand and has at most `limit` inputs on one wavelength.

    >>> least(cells([[3, 0], [0, 3]]), 1), least(cells([[3, 0], [0, 3]]), 2)
    (6, 3)
    """
    asked = demand(wishes)
    answer = lib.call("cv_grating_least")(asked.ports, *asked._lent(), _limit(limit))
    if answer.code:
        raise _refused_demand(answer, asked, lib.FIRST.number)
    return int(answer.total)


# ---- Plans from anywhere


def check(wishes: Wishes, of: AnyPlan, *, edition: AnyEdition = None) -> Counts:
    """Whether a plan, or the bytes of one, is well formed and covers a demand: its counts, or else a refusal.

    >>> d = cells([[2, 1], [1, 2]])
    >>> check(d, plan(d, "quick"))
    Counts(records=3, longest=3, total=3, empty=0)
    >>> check(cells([[2, 1], [1, 3]]), plan(d))
    Traceback (most recent call last):
        ...
    chordvenus.refusals.Uncovered: input 1 asks 3 slots of output 1, and the plan grants 2
    """
    asked = demand(wishes)
    data, kind = _bytes_of(of, asked.ports, edition)
    answer = lib.call(kind.prefix + "check")(asked.ports, *asked._lent(), data, len(data))
    if answer.code in (1, 2, 3):
        raise _refused_demand(answer, asked, kind.number)
    if answer.code == 13:
        raise _uncovered(answer.place, asked, Plan(asked.ports, kind.number, data, 0))
    if answer.code:
        raise refused_plan(answer, asked.ports, kind, data)
    return Counts(answer.records, answer.longest, answer.total, answer.empty)


def length(of: AnyPlan, switching: int, ports: Optional[int] = None, edition: AnyEdition = None) -> int:
    """The slots that a plan takes where switching takes so many: its total hold, and the switching time for the first record
    and for each whose outputs differ from the record before.

    >>> length(plan(cells([[2, 1], [1, 2]])), 10)
    23
    """
    n, data, kind = _opened(of, ports, edition)
    answer = lib.call(kind.prefix + "length")(n, data, len(data), arrays.whole(switching, 16, "the switching time"))
    if answer.code:
        raise refused_plan(answer, n, kind, data)
    return int(answer.length)


def join(of: AnyPlan, ports: Optional[int] = None, edition: AnyEdition = None) -> Plan:
    """The plan with equal settings joined: each setting once, where it came first, held for the sum of its holds.

    >>> quick = plan(cells([[2, 1], [1, 2]]), "quick")
    >>> list(join(quick)) == [(2, (0, 1)), (1, (1, 0))]
    True
    """
    n, data, kind = _opened(of, ports, edition)
    memory = bytearray(len(data))
    answer = lib.call(kind.prefix + "join")(n, data, len(data), lib.lent(memory), len(memory))
    if answer.code:
        raise refused_plan(answer, n, kind, data)
    return _with_counts(of, n, kind, bytes(memory[: answer.records * kind.size]), answer.total)


def report(of: AnyPlan, ports: Optional[int] = None) -> Any:
    """For each record of a plan the most inputs that share one wavelength of the grating fabric, as an array.

    >>> report(plan(cells([[2, 1], [1, 2]]))).tolist()
    [2, 2]
    """
    n, data, kind = _opened(of, ports, lib.FIRST.number)
    if kind is not lib.FIRST:
        raise ValueError("the grating fabric is of the first edition alone: move the plan there")
    memory = bytearray(len(data) // kind.size)
    answer = lib.call("cv_grating_report")(n, data, len(data), lib.lent(memory), len(memory))
    if answer.code:
        raise refused_plan(answer, n, kind, data)
    return arrays.row(array("B", bytes(memory)))


def move(of: AnyPlan, edition: AnyEdition = None, ports: Optional[int] = None) -> Plan:
    """The same plan in the other edition, or in the one that is named; bytes that are to be moved there are of the other.
    There and back gives the same bytes.

    >>> p = plan(cells([[2, 1], [1, 2]]))
    >>> move(p).edition, len(move(p).data), move(move(p)) == p
    (2, 264, True)
    """
    if edition is not None and isinstance(of, Plan) and edition_for(of.ports, edition).number == of.edition:
        return of
    target = None if edition is None else edition_for(0, edition)
    source = None if target is None else 3 - target.number
    n, data, kind = _opened(of, ports, source)
    target = lib.SECOND if kind is lib.FIRST else lib.FIRST
    memory = bytearray(len(data) // kind.size * target.size)
    called = lib.call("cv_to_second" if target is lib.SECOND else "cv_to_first")
    answer = called(n, data, len(data), lib.lent(memory), len(memory))
    if answer.code:
        raise refused_plan(answer, n, kind._replace(number=1), data)
    return _with_counts(of, n, target, bytes(memory), answer.total)


def rescue(wishes: Wishes, damaged: AnyPlan) -> Rescued:
    """A plan for a demand out of a damaged one: its well-formed records, and the exact plan of what they leave to grant.

    >>> d = cells([[2, 1], [1, 2]])
    >>> damaged = bytearray(plan(d).data)
    >>> damaged[4] = 99
    >>> plan_again, dropped, added = rescue(d, damaged)
    >>> dropped
    [Dropped(record=0, reason=4, words='an output is out of range')]
    >>> [setting.hold for setting in plan_again], added
    ([1, 2], 1)
    """
    asked = demand(wishes)
    data = damaged.data if isinstance(damaged, Plan) else bytes(damaged)
    size, entry = lib.FIRST.size, lib.DROPPED_SIZE
    records = -(-len(data) // size)  # a torn tail counts as one
    memory = bytearray((min(records, lib.FIRST.records) + _records(asked, "exact", lib.FIRST)) * size)
    listed = bytearray(records * entry)
    called = lib.call("cv_rescue")
    answer = called(asked.ports, *asked._lent(), data, len(data), lib.lent(memory), len(memory), lib.lent(listed), len(listed))
    if answer.code == 10:
        raise refusals.TooManyRecords(f"the plan has, or would have, more than {answer.place:,} records", answer.place)
    if answer.code:
        raise _refused_demand(answer, asked, lib.FIRST.number)
    made = Plan(asked.ports, 1, bytes(memory[: answer.records * size]), answer.total, asked, answer.longest, answer.empty)
    entries = [listed[k * entry : (k + 1) * entry] for k in range(answer.dropped)]
    return Rescued(made, [Dropped(e[0] | e[1] << 8, e[2], REASONS[e[2]]) for e in entries], answer.added)


# ---- The console


def in_force(tonight: AnyPlan, standby: AnyPlan, slot: int, ports: Optional[int] = None) -> InForce:
    """The record that is in force at a slot, slots counted from 0 by holds alone: tonight's plan, and when that is over the
    standby plan over and over.

    >>> tonight, standby = plan(cells([[2, 1], [1, 2]])), plan(cells([[0, 1], [1, 0]]))
    >>> in_force(tonight, standby, 2)
    InForce(plan='tonight', record=1, hold=1, outputs=(1, 0))
    >>> in_force(tonight, standby, 10**6).plan
    'standby'
    """
    n, first, kind = _opened(tonight, ports, lib.FIRST.number)
    second = standby.data if isinstance(standby, Plan) else bytes(standby)
    if {_edition(tonight), _edition(standby)} & {2}:
        raise ValueError("the record in force is told for the first edition alone: move the plans there")
    at = arrays.whole(slot, 64, "the slot")
    part = lib.call("cv_in_force")(n, first, len(first), second, len(second), at)
    answer = part.answer
    if answer.code == 14:
        raise refusals.NothingInForce(f"tonight's plan is over before slot {at:,}, and the standby plan has no records")
    if answer.code:
        data = second if answer.about == 2 else first
        name = "the standby plan" if answer.about == 2 else "tonight's plan"
        raise refused_plan(answer, n, kind, data, name, refusals.ABOUT[answer.about])
    data = first if part.plan == 1 else second
    record = data[part.start : part.start + part.size]
    outputs = tuple(None if j == lib.IDLE else j for j in record[4 : 4 + n])
    return InForce(refusals.ABOUT[part.plan] or "", part.start // part.size, record[0] | record[1] << 8, outputs)


def carry_over(asked: Wishes, of: AnyPlan, first: int, wished: Wishes) -> Demand:
    """What a batch leaves to ask that was stopped after its first records: what they did not grant, and the new wishes.

    Both are demands, or wishes in any form that `demand` takes.

    >>> d = cells([[2, 1], [1, 2]])
    >>> carry_over(d, plan(d), 1, cells([[0, 5], [0, 0]])).rows()
    [[0, 6], [1, 0]]
    """
    old, new = demand(asked), demand(wished)
    n = old.ports
    data, kind = _bytes_of(of, n, 1)
    slots = array("I", bytes(4 * n * n))
    count = arrays.whole(first, 64, "the number of first records")
    called = lib.call("cv_carry_over")
    answer = called(n, *old._lent(), data, len(data), count, *new._lent(), lib.lent(slots, c_uint32), len(slots))
    if answer.code == 0:
        return Demand(n, slots, old.names)
    about = refusals.ABOUT[answer.about]
    if answer.code == 2:
        raise refusals.WrongCells(f"the demand has {n} ports, and the new wishes have {new.ports}", answer.place)
    if answer.code == 15:
        words = f"the batch stopped after {count:,} records, and its plan has {answer.place:,}"
        raise refusals.FirstOver(words, answer.place)
    if answer.code == 3:
        raise _carried_too_long(answer, about, old, new)
    if answer.code == 1:
        raise bad_ports(n, 1)
    raise refused_plan(answer, n, kind, data, about=about)


def _carried_too_long(answer: Any, about: Optional[str], old: Demand, new: Demand) -> refusals.Refused:
    side = refusals.SIDES[answer.side] or ""
    if about == "sum":
        words = f"{side} {answer.place} is left with more than 65,535 slots once the new wishes are added"
        return refusals.LineTooLong(words, answer.place, side, about)
    lines = old if about == "demand" else new
    name = "the demand" if about == "demand" else "the new wishes"
    words = f"{_line_words(lines, side, answer.place)} by {name}, and a line has at most 65,535"
    return refusals.LineTooLong(words, answer.place, side, about)


# ---- Bytes, and refusals in words


def _edition(of: AnyPlan) -> int:
    return of.edition if isinstance(of, Plan) else 1


def _bytes_of(of: AnyPlan, n: int, edition: AnyEdition) -> Tuple[bytes, lib.Edition]:
    """A plan's bytes, and the edition by which they are read: the one that is named, the Plan's, or what N says."""
    if isinstance(of, Plan):
        return of.data, edition_for(n, of.edition if edition is None else edition)
    data = bytes(of)
    if edition is None and len(data) >= 4 and data[3] == lib.SECOND.mark:
        return data, lib.SECOND
    return data, edition_for(n, edition)


def _opened(of: AnyPlan, ports: Optional[int], edition: AnyEdition) -> Tuple[int, bytes, lib.Edition]:
    """N, the bytes and the edition of a plan, or of bytes that are read for an N: the one given or the first record's."""
    if isinstance(of, Plan):
        return of.ports, of.data, edition_for(of.ports, of.edition)
    data = bytes(of)
    if ports is None and len(data) < 4:
        raise ValueError("a plan of no records does not say how many ports it is for: give ports")
    n = data[2] if ports is None else ports_number(ports)
    return n, *_bytes_of(data, n, edition)


def _with_counts(of: AnyPlan, n: int, kind: lib.Edition, data: bytes, total: int) -> Plan:
    """A plan that grants what another grants, so that T and the empty slots are the other's."""
    if not isinstance(of, Plan):
        return Plan(n, kind.number, data, total)
    return Plan(n, kind.number, data, total, of.demand, of.longest, of.empty, of.names)


def _line_words(asked: Demand, side: str, number: int) -> str:
    name = asked.names.input(number) if side == "input" else asked.names.output(number)
    asks = "asks" if side == "input" else "is asked for"
    return f"{side} {name} {asks} {asked.line(side, number):,} slots in all"


def _too_long_for_quick(longest: int) -> refusals.Refused:
    return refusals.TooLongForQuick(f"the longest line has {longest:,} slots, and the quick cover takes at most 1,024")


def _uncovered(cell: int, asked: Demand, of: Plan) -> refusals.Refused:
    i, j = divmod(cell, asked.ports)
    words = f"input {asked.names.input(i)} asks {asked[i, j]:,} slots of output {asked.names.output(j)}"
    return refusals.Uncovered(f"{words}, and the plan grants {granted(of)[cell]:,}", cell)


def _refused_demand(answer: Any, asked: Demand, edition: int) -> refusals.Refused:
    """A demand that a call refuses, in words."""
    if answer.code == 1:
        return bad_ports(asked.ports, edition)
    if answer.code == 3:
        side = refusals.SIDES[answer.side] or ""
        words = f"{_line_words(asked, side, answer.place)}, and a line has at most 65,535"
        return refusals.LineTooLong(words, answer.place, side)
    if answer.code == 4:
        return _too_long_for_quick(asked.longest)
    if answer.code == 17:
        return refusals.BadLimit("the limit is 0: at least one input must be allowed on a wavelength")
    return refusals.BY_CODE[answer.code](f"refused with code {answer.code}, place {answer.place}", answer.place)
