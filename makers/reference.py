#!/usr/bin/env python3
"""The planner of docs/SPECIFICATION.md once more, in another language, to make stored vectors and to compare with.

Written from the words of the document, with the plainest method for each sentence and no regard for speed.
A demand is a list of cells, a plan a list of (hold, outputs), 255 for an idle input, a lent buffer is bytes.
Each call answers an Answer, and the lent memory as it is afterwards where the call may write it.

python3 makers/reference.py     runs the document's examples, its edges and its laws on random demands
"""
import itertools
import math
import random
from fractions import Fraction
from typing import NamedTuple

PORTS = 64  # the most inputs, and the outputs that a record has room for
SECOND_PORTS = 128  # the most inputs of the second edition
RECORD = 68  # bytes of a plan record: hold, N, a zero byte, the outputs
WISH = 8  # bytes of a wish record
IDLE = 255  # stands where an idle input's output would
LINE = 65_535  # the most that a line may sum to, and the largest wish
QUICK = 1_024  # the largest T of the quick cover
RECORDS = 8_192  # the most records of a plan that is read
LISTED = 4_096  # the bytes of a wish list that the lister reads
LISTED_PORTS = 16  # the most ports of the lister


class Edition(NamedTuple):
    """The outputs of a record, the byte behind N, the most inputs, and the most records of a plan that is read."""

    width: int
    byte: int
    ports: int
    records: int

    @property
    def record(self):
        """The bytes of a record."""
        return self.width + 4


FIRST = Edition(PORTS, 0, PORTS, RECORDS)
SECOND = Edition(SECOND_PORTS, 2, SECOND_PORTS, 32_768)
MOVABLE = Edition(SECOND_PORTS, 2, PORTS, RECORDS)  # plans of the second edition that the first has room for


class Answer(NamedTuple):
    """What a call answers. What does not apply is 0; side is "input" or "output" with code 3 alone."""

    code: int = 0
    place: int = 0
    side: str = ""
    records: int = 0
    longest: int = 0
    total: int = 0
    length: int = 0
    empty: int = 0


# ---- Demand, line, cover


def inputs_lines(n, cells):
    return [sum(cells[i * n + j] for j in range(n)) for i in range(n)]


def outputs_lines(n, cells):
    return [sum(cells[i * n + j] for i in range(n)) for j in range(n)]


def longest_line(n, cells):
    """T: the largest line sum."""
    return max(inputs_lines(n, cells) + outputs_lines(n, cells))


def refused_demand(n, cells, edition=FIRST):
    """Codes 1, 2 and 3 in turn, or None where the demand stands."""
    if n == 0 or n > edition.ports:
        return Answer(1)
    if len(cells) != n * n:
        return Answer(2, n * n)
    for i, line in enumerate(inputs_lines(n, cells)):
        if line > LINE:
            return Answer(3, i, "input")
    for j, line in enumerate(outputs_lines(n, cells)):
        if line > LINE:
            return Answer(3, j, "output")
    return None


def grants(n, plan):
    """For every pair the holds of the settings that join it, summed; by cell."""
    granted = [0] * (n * n)
    for hold, outputs in plan:
        for i, j in enumerate(outputs[:n]):
            if j != IDLE:
                granted[i * n + j] += hold
    return granted


def total_hold(plan):
    return sum(hold for hold, _ in plan)


def empty_slots(n, cells, plan):
    """Over all pairs, granted less asked, summed."""
    return sum(granted - asked for granted, asked in zip(grants(n, plan), cells))


def counted(n, cells, plan):
    """What the planners and the checker answer of a plan that covers a demand."""
    return Answer(records=len(plan), longest=longest_line(n, cells), total=total_hold(plan), empty=empty_slots(n, cells, plan))


# ---- Wishes


def value(bits):
    """The exact value of a binary32 pattern, or None for a NaN or an infinity (IEEE 754, 3.4)."""
    sign, exponent, fraction = bits >> 31, bits >> 23 & 255, bits & 0x7F_FFFF
    if exponent == 255:
        return None
    if exponent == 0:
        size = Fraction(fraction) * Fraction(2) ** -149
    else:
        size = Fraction(fraction + 2**23) * Fraction(2) ** (exponent - 150)
    return -size if sign else size


def wish_slots(bits):
    """One binary32 by its bits: (code, slots). Above zero the slots are the larger of 2 and the least whole number not below the wish."""
    wish = value(bits)
    if wish is None:
        return 6, 0
    if wish < 0:
        return 7, 0
    if wish > LINE:
        return 8, 0
    return 0, max(2, math.ceil(wish)) if wish else 0


def read_wishes(n, wishes, cells, edition=FIRST):
    """A wish list to a demand: the answer, and the lent cells afterwards."""
    if n == 0 or n > edition.ports:
        return Answer(1), cells
    if len(cells) != n * n:
        return Answer(2, n * n), cells
    if len(wishes) % WISH:
        return Answer(9, len(wishes) // WISH), cells
    demand = [0] * (n * n)
    named = set()
    for k in range(len(wishes) // WISH):
        record = wishes[k * WISH : (k + 1) * WISH]
        i, j = record[0], record[1]
        if record[2] or record[3] or i >= n or j >= n:
            return Answer(11, k), cells
        if (i, j) in named:
            return Answer(12, k), cells
        code, slots = wish_slots(int.from_bytes(record[4:], "little"))
        if code:
            return Answer(code, k), cells
        named.add((i, j))
        demand[i * n + j] = slots
    return Answer(records=len(wishes) // WISH), demand


# ---- Plan records


def record_bytes(hold, n, outputs, edition=FIRST):
    """The bytes of one record; outputs beyond those given are idle."""
    return bytes([hold % 256, hold // 256, n, edition.byte, *outputs]) + bytes([IDLE] * (edition.width - len(outputs)))


def well_formed(n, record, edition=FIRST):
    hold = record[0] + 256 * record[1]
    first, later = record[4 : 4 + n], record[4 + n :]
    joined = [j for j in first if j < n]
    return (
        hold >= 1
        and record[2] == n
        and record[3] == edition.byte
        and all(j < n or j == IDLE for j in first)
        and len(set(joined)) == len(joined)
        and all(j == IDLE for j in later)
    )


def write_record(n, hold, outputs, buffer, edition=FIRST):
    """One record at the start of the lent buffer, from all its outputs: the answer, and the buffer afterwards."""
    if n == 0 or n > edition.ports:
        return Answer(1), buffer
    if len(buffer) < edition.record:
        return Answer(5, 1), buffer
    record = record_bytes(hold, n, outputs, edition)
    if not well_formed(n, record, edition):
        return Answer(11), buffer
    return Answer(records=1, total=hold), record + buffer[edition.record :]


def refused_plan(n, plan, edition=FIRST):
    """Codes 1, 9 and 10 in turn, or None where the plan may be read."""
    if n == 0 or n > edition.ports:
        return Answer(1)
    if len(plan) % edition.record:
        return Answer(9, len(plan) // edition.record)
    if len(plan) // edition.record > edition.records:
        return Answer(10, edition.records)
    return None


class Reader(NamedTuple):
    """The plan's bytes and the place reached; a refused reader stands at the end of nothing."""

    n: int
    plan: bytes
    at: int
    edition: Edition = FIRST


def open_plan(n, plan, edition=FIRST):
    """Opens a plan for an N: the answer, and the reader."""
    refused = refused_plan(n, plan, edition)
    if refused:
        return refused, Reader(n, b"", 0, edition)
    return Answer(records=len(plan) // edition.record), Reader(n, plan, 0, edition)


class Step(NamedTuple):
    """What a step gives: "record", "end", or "malformed" with the record's number as the place."""

    kind: str
    place: int
    hold: int
    outputs: bytes


def step(reader):
    """The next record, or the end, or code 11; after the last two the reader stays where it is."""
    nothing = bytes([IDLE] * reader.edition.width)
    record = reader.plan[reader.at * reader.edition.record : (reader.at + 1) * reader.edition.record]
    if not record:
        return Step("end", 0, 0, nothing), reader
    if not well_formed(reader.n, record, reader.edition):
        return Step("malformed", reader.at, 0, nothing), reader
    hold = record[0] + 256 * record[1]
    return Step("record", reader.at, hold, record[4:]), reader._replace(at=reader.at + 1)


def read_plan(n, plan, edition=FIRST):
    """Every record of a plan: (refusal or None, list of (hold, outputs))."""
    refused, reader = open_plan(n, plan, edition)
    if refused.code:
        return refused, []
    records = []
    while True:
        given, reader = step(reader)
        if given.kind == "end":
            return None, records
        if given.kind == "malformed":
            return Answer(11, given.place), []
        records.append((given.hold, list(given.outputs)))


# ---- The exact plan


def fill(n, cells, longest):
    """Adds to each cell, row by row, the smaller of what its row and its column still lack of T."""
    filled = list(cells)
    rows, columns = inputs_lines(n, cells), outputs_lines(n, cells)
    for i in range(n):
        for j in range(n):
            more = min(longest - rows[i], longest - columns[j])
            filled[i * n + j] += more
            rows[i] += more
            columns[j] += more
    return filled


def full_matching(wanted, inputs, free, known):
    """Joins every one of the inputs to a free output that it wants, each output once: a dict, or None if none exists.

    wanted[i] and free are sets of outputs as bits. The pairs of an earlier joining that still may stand are where it begins.
    An input asks its outputs; a held output asks its holder to move. An input that is refused when all its outputs, and those
    of the inputs it asked, have been tried shows that the inputs cannot all be joined.
    """
    holder = {1 << known[i]: i for i in inputs if i in known and free >> known[i] & 1}  # of an output's bit, its input
    joined = set(holder.values())

    def ask(i, tried):
        """Joins input i, moving others where it must: whether it could, and the outputs tried."""
        for low in bits(wanted[i] & free):
            if tried & low:
                continue
            tried |= low
            moved = low not in holder
            if not moved:
                moved, tried = ask(holder[low], tried)
            if moved:
                holder[low] = i
                return True, tried
        return False, tried

    for i in inputs:
        if i not in joined and not ask(i, 0)[0]:
            return None
    return {i: low.bit_length() - 1 for low, i in holder.items()}


def bits(label):
    """The bits of a set, lowest first."""
    while label:
        low = label & -label
        yield low
        label ^= low


def first_setting(n, cells):
    """The full setting on non-zero cells whose list of outputs is first in dictionary order.

    For each input in turn the lowest output after which the inputs that are left can still all be joined.
    """
    wanted = [sum(1 << j for j in range(n) if cells[i * n + j]) for i in range(n)]
    known = full_matching(wanted, range(n), (1 << n) - 1, {})
    free, outputs = (1 << n) - 1, []
    for i in range(n):
        for j in range(n):
            if not (wanted[i] & free) >> j & 1:
                continue
            if known[i] == j:
                break  # the setting already found shows that the rest can be joined
            rest = full_matching(wanted, range(i + 1, n), free & ~(1 << j), known)
            if rest is not None:
                known = rest
                break
        outputs.append(j)
        free &= ~(1 << j)
    return outputs


def exact_list(n, cells):
    """The exact plan as a list of (hold, outputs)."""
    longest = longest_line(n, cells)
    left = fill(n, cells, longest)
    plan = []
    while any(left):
        outputs = first_setting(n, left)
        hold = min(left[i * n + j] for i, j in enumerate(outputs))
        for i, j in enumerate(outputs):
            left[i * n + j] -= hold
        plan.append((hold, outputs))
    return plan


# ---- The doubled plan and the quick cover


def doubled_unit(n, cells):
    """u: T / N rounded up."""
    return -(-longest_line(n, cells) // n)


def doubled_first(n, cells, u):
    """The doubled plan's first part: the exact plan of the quotients, holds times u."""
    return [(hold * u, outputs) for hold, outputs in exact_list(n, [cell // u for cell in cells])]


def doubled_list(n, cells):
    """The first part; then each rotation held for the largest remainder among its pairs, and left out where that is 0."""
    u = doubled_unit(n, cells)
    if u == 0:
        return []
    plan = doubled_first(n, cells, u)
    for k in range(n):
        outputs = [(i + k) % n for i in range(n)]
        hold = max(cells[i * n + j] % u for i, j in enumerate(outputs))
        plan += [(hold, outputs)] if hold else []
    return plan


def doubled_list_every_rotation(n, cells):
    """The old rule: the first part; then, if u is at least 2, N rotations of hold u - 1."""
    u = doubled_unit(n, cells)
    if u == 0:
        return []
    plan = doubled_first(n, cells, u)
    if u >= 2:
        plan += [(u - 1, [(i + k) % n for i in range(n)]) for k in range(n)]
    return plan


def quick_list(n, cells):
    """One record of hold 1 per slot, inputs visited from slot mod N around, each taking the lowest free output."""
    left, plan = list(cells), []
    while any(left):
        slot = len(plan)
        outputs, taken = [IDLE] * n, set()
        for i in [(slot + k) % n for k in range(n)]:
            for j in range(n):
                if left[i * n + j] and j not in taken:
                    outputs[i] = j
                    taken.add(j)
                    left[i * n + j] -= 1
                    break
        plan.append((1, outputs))
    return plan


def planned(n, cells, plan, buffer, edition=FIRST):
    """Writes a plan at the start of the lent buffer, or refuses with code 5 and writes nothing."""
    if len(buffer) // edition.record < len(plan):
        return Answer(5, len(plan)), buffer
    written = b"".join(record_bytes(hold, n, outputs, edition) for hold, outputs in plan)
    return counted(n, cells, plan), written + buffer[len(written) :]


def exact_plan(n, cells, buffer, edition=FIRST):
    refused = refused_demand(n, cells, edition)
    return (refused, buffer) if refused else planned(n, cells, exact_list(n, cells), buffer, edition)


def doubled_plan(n, cells, buffer, edition=FIRST):
    refused = refused_demand(n, cells, edition)
    return (refused, buffer) if refused else planned(n, cells, doubled_list(n, cells), buffer, edition)


def doubled_plan_every_rotation(n, cells, buffer, edition=FIRST):
    refused = refused_demand(n, cells, edition)
    return (refused, buffer) if refused else planned(n, cells, doubled_list_every_rotation(n, cells), buffer, edition)


def quick_plan(n, cells, buffer, edition=FIRST):
    refused = refused_demand(n, cells, edition)
    if refused:
        return refused, buffer
    if longest_line(n, cells) > QUICK:
        return Answer(4), buffer
    return planned(n, cells, quick_list(n, cells), buffer, edition)


# ---- The checker and the length


def check_plan(n, cells, plan, edition=FIRST):
    refused = refused_demand(n, cells, edition) or refused_plan(n, plan, edition)
    if refused:
        return refused
    refused, records = read_plan(n, plan, edition)
    if refused:
        return refused
    for k, (granted, asked) in enumerate(zip(grants(n, records), cells)):
        if granted < asked:
            return Answer(13, k)
    return counted(n, cells, records)


def plan_length(n, plan, d, edition=FIRST):
    refused = refused_plan(n, plan, edition)
    if refused:
        return refused
    refused, records = read_plan(n, plan, edition)
    if refused:
        return refused
    total = total_hold(records)
    moves = sum(k == 0 or outputs != records[k - 1][1] for k, (_, outputs) in enumerate(records))
    return Answer(records=len(records), total=total, length=total + d * moves)


# ---- The console


def judged(n, plan):
    """The refusal of a whole plan or None, and its records."""
    refused = refused_plan(n, plan)
    return (refused, []) if refused else read_plan(n, plan)


class Part(NamedTuple):
    """A lookup's answer: what a refusal is about, and the bytes of a plan, 1 tonight's or 2 standby's, that are in force."""

    answer: Answer
    about: int = 0
    plan: int = 0
    start: int = 0
    data: bytes = b""


def in_force(n, tonight, standby, slot):
    """The record at a slot, holds alone counted: tonight's plan once, then the standby plan over and over."""
    if n == 0 or n > PORTS:
        return Part(Answer(1))
    plans = []
    for about, plan in ((1, tonight), (2, standby)):
        refused, records = judged(n, plan)
        if refused:
            return Part(refused, about)
        plans.append((about, plan, records))
    for which, plan, records in plans:
        length = total_hold(records)
        if which == 2 and length:
            slot %= length
        if slot < length:
            k = held_at(records, slot)
            return Part(Answer(), 0, which, k * RECORD, plan[k * RECORD : (k + 1) * RECORD])
        slot -= length
    return Part(Answer(14))


def held_at(records, slot):
    """The number of the record that is held at a slot before their total."""
    ends = itertools.accumulate(hold for hold, _ in records)
    return next(k for k, end in enumerate(ends) if slot < end)


def carry_over(n, asked, plan, first, wished, cells):
    """The answer, what it is about, and the lent cells afterwards."""
    if n == 0 or n > PORTS:
        return Answer(1), 0, cells
    if any(len(lent) != n * n for lent in (asked, wished, cells)):
        return Answer(2, n * n), 0, cells
    refused, records = judged(n, plan)
    if refused:
        return refused, 3, cells
    if first > len(records):
        return Answer(15, len(records)), 0, cells
    granted = grants(n, records[:first])
    new = [max(a - g, 0) + w for a, g, w in zip(asked, granted, wished)]
    for about, lines in ((4, asked), (5, wished), (6, new)):
        refused = refused_demand(n, lines)
        if refused:
            return refused, about, cells
    return Answer(), 0, new


# ---- Rescue


class Rescued(NamedTuple):
    """A rescue's answer, the records added and dropped, and both lent buffers afterwards."""

    answer: Answer
    added: int
    dropped: int
    plan: bytes
    listed: bytes


def reason(n, record):
    """Why a record is dropped, by the first rule that it breaks; 0 where it is well formed."""
    first, later = record[4 : 4 + n], record[4 + n :]
    joined = [j for j in first if j < n]
    broken = [
        record[0] + 256 * record[1] == 0,
        record[2] != n,
        record[3] != 0,
        any(j >= n and j != IDLE for j in first),
        len(set(joined)) < len(joined),
        any(j != IDLE for j in later),
    ]
    return broken.index(True) + 1 if any(broken) else 0


def rescue(n, cells, damaged, plan, listed):
    """Keeps the well-formed records, adds the exact plan of what they leave uncovered, and lists what was dropped."""
    whole, torn = len(damaged) // RECORD, len(damaged) % RECORD > 0
    refused = refused_demand(n, cells)
    if not refused and whole + torn > RECORDS:
        refused = Answer(10, RECORDS)
    if refused:
        return Rescued(refused, 0, 0, plan, listed)
    records = [damaged[k * RECORD : (k + 1) * RECORD] for k in range(whole)]
    why = [reason(n, record) for record in records]
    kept = [(record[0] + 256 * record[1], list(record[4:])) for record, broken in zip(records, why) if not broken]
    entries = [(k, broken) for k, broken in enumerate(why) if broken] + [(whole, 7)] * torn
    added = exact_list(n, [max(asked - granted, 0) for asked, granted in zip(cells, grants(n, kept))])
    everything = kept + added
    if len(everything) > RECORDS:
        refused = Answer(10, RECORDS)
    elif len(plan) // RECORD < len(everything):
        refused = Answer(5, len(everything))
    elif len(listed) // 4 < len(entries):
        refused = Answer(16, len(entries))
    if refused:
        return Rescued(refused, 0, 0, plan, listed)
    written = b"".join(record_bytes(hold, n, outputs) for hold, outputs in everything)
    told = b"".join(bytes([k % 256, k // 256, broken, 0]) for k, broken in entries)
    counts = counted(n, cells, everything)
    return Rescued(counts, len(added), len(entries), written + plan[len(written) :], told + listed[len(told) :])


# ---- The room beforehand


def sufficient(planner, ports, n, longest):
    """How many records always suffice for a switch of n ports, of at most `ports`, and a T that no demand is known of."""
    if n == 0 or n > ports:
        return Answer(1)
    if longest > LINE:
        return Answer(3)
    if planner == "quick" and longest > QUICK:
        return Answer(4)
    suffice = {"exact": min(longest, (n - 1) ** 2 + 1), "doubled": 2 * n, "quick": max(2 * longest - 1, 0)}
    return Answer(records=suffice[planner])


# ---- Joining


def join_list(records):
    """Settings in order of first appearance, holds summed, a sum above 65,535 as records of 65,535 followed by what is left."""
    sums = {}
    for hold, outputs in records:
        sums[tuple(outputs)] = sums.get(tuple(outputs), 0) + hold
    plan = []
    for outputs, hold in sums.items():
        while hold > 65_535:
            plan.append((65_535, list(outputs)))
            hold -= 65_535
        plan.append((hold, list(outputs)))
    return plan


def lay(n, records, buffer, edition):
    """Records at the start of the lent buffer, or code 5: the answer of a call that makes a plan of another, and the buffer afterwards."""
    if len(buffer) // edition.record < len(records):
        return Answer(5, len(records)), buffer
    written = b"".join(record_bytes(hold, n, outputs, edition) for hold, outputs in records)
    return Answer(records=len(records), total=total_hold(records)), written + buffer[len(written) :]


def join_plan(n, plan, buffer, edition=FIRST):
    """Joins equal settings into the lent buffer: the answer, and the buffer afterwards."""
    refused, records = read_plan(n, plan, edition)
    return (refused, buffer) if refused else lay(n, join_list(records), buffer, edition)


# ---- From one edition to another


def move_plan(n, plan, buffer, edition, other):
    """A plan of one edition written as one of another into the lent buffer: the answer, and the buffer afterwards."""
    refused, records = read_plan(n, plan, edition)
    return (refused, buffer) if refused else lay(n, [(hold, outputs[:n]) for hold, outputs in records], buffer, other)


# ---- The grating fabric


def most_shared(n, outputs):
    """The most inputs that share one wavelength (j - i) mod N, idle inputs not counted, all idle being 0."""
    used = [(j - i) % n for i, j in enumerate(outputs[:n]) if j != IDLE]
    return max((used.count(w) for w in used), default=0)


def grating_report(n, plan, report):
    """One byte for each record of a plan, in order, at the start of the lent report."""
    refused = refused_plan(n, plan)
    if refused:
        return refused, report
    refused, records = read_plan(n, plan)
    if refused:
        return refused, report
    if len(report) < len(records):
        return Answer(5, len(records)), report
    numbers = bytes(most_shared(n, outputs) for _, outputs in records)
    return Answer(records=len(records), total=total_hold(records)), numbers + report[len(numbers) :]


def grating_list(n, cells):
    """The exact plan of the quotients, holds times u; then input i to output (k - i) mod N, k from 0 to N - 1, each held for
    the largest remainder among its pairs and left out when that is 0."""
    longest = longest_line(n, cells)
    if longest == 0:
        return []
    u = -(-longest // n)
    plan = [(hold * u, outputs) for hold, outputs in exact_list(n, [cell // u for cell in cells])]
    for k in range(n):
        outputs = [(k - i) % n for i in range(n)]
        hold = max(cells[i * n + j] % u for i, j in enumerate(outputs))
        plan += [(hold, outputs)] if hold else []
    return plan


def grating_doubled(n, cells, buffer):
    """Refusals are the planner's; the answer has records and total of the plan it writes."""
    refused = refused_demand(n, cells)
    if refused:
        return refused, buffer
    answer, buffer = planned(n, cells, grating_list(n, cells), buffer)
    return answer._replace(longest=0, empty=0), buffer


# ---- The quiet plan for the grating fabric


def quiet_list(n, cells, limit):
    """While a cell is not zero: inputs in order, each the lowest free output with slots left whose wavelength fewer than `limit`
    inputs use so far, else idle; held for the smallest cell among the joined pairs."""
    left, plan = list(cells), []
    while any(left):
        outputs = []
        for i in range(n):
            used = [(j - k) % n for k, j in enumerate(outputs) if j != IDLE]
            may = (j for j in range(n) if left[i * n + j] and j not in outputs and used.count((j - i) % n) < limit)
            outputs.append(next(may, IDLE))
        joined = [i * n + j for i, j in enumerate(outputs) if j != IDLE]
        hold = min(left[pair] for pair in joined)
        for pair in joined:
            left[pair] -= hold
        plan.append((hold, outputs))
    return plan


def refused_limit(n, cells, limit):
    """Codes 1, 2, 3, then 17 where the limit is 0."""
    return refused_demand(n, cells) or (Answer(17) if limit == 0 else None)


def grating_quiet(n, cells, limit, buffer):
    refused = refused_limit(n, cells, limit)
    return (refused, buffer) if refused else planned(n, cells, quiet_list(n, cells, limit), buffer)


def bands(n, cells):
    """The slots asked on each wavelength."""
    return [sum(cells[i * n + (i + w) % n] for i in range(n)) for w in range(n)]


def grating_least(n, cells, limit):
    """The least total of any plan that covers the demand within the limit, and T."""
    refused = refused_limit(n, cells, limit)
    longest = 0 if refused else longest_line(n, cells)
    return refused or Answer(longest=longest, total=max(longest, -(-max(bands(n, cells)) // limit)))


# ---- The open shop

TASK = 12  # bytes of a task record: input, output, two zero bytes, start, end


class Task(NamedTuple):
    """A pair at work from its start on; at its end it is over."""

    input: int
    output: int
    start: int
    end: int


def shop_list(n, cells, d):
    """The tasks of §21.2, moment by moment."""
    waiting = {(i, j) for i in range(n) for j in range(n) if cells[i * n + j]}
    done, running, t = [], [], 0
    while True:
        for j in sorted(set(range(n)) - {task.output for task in running}):
            idle = set(range(n)) - {task.input for task in running}
            ready = [i for i in sorted(idle) if (i, j) in waiting]
            if ready:
                running.append(Task(ready[0], j, t, t + d + cells[ready[0] * n + j]))
                waiting.remove((ready[0], j))
        if not running:
            return sorted(done, key=lambda task: (task.start, task.output))
        t = min(task.end for task in running)
        done += [task for task in running if task.end == t]
        running = [task for task in running if task.end != t]


def task_bytes(task, spare=(0, 0)):
    return bytes([task.input, task.output, *spare]) + task.start.to_bytes(4, "little") + task.end.to_bytes(4, "little")


def counted_tasks(tasks):
    return Answer(records=len(tasks), total=max((task.end for task in tasks), default=0))


def shop_plan(n, cells, d, buffer):
    refusal = refused_demand(n, cells)
    if refusal:
        return refusal, buffer
    tasks = shop_list(n, cells, d)
    if len(buffer) // TASK < len(tasks):
        return Answer(5, len(tasks)), buffer
    written = b"".join(task_bytes(task) for task in tasks)
    return counted_tasks(tasks), written + buffer[len(written) :]


def overlap(a, b):
    return (a.input == b.input or a.output == b.output) and a.start < b.end and b.start < a.end


def read_tasks(n, data):
    """The reader of §21.7: every record against every one before it."""
    if n == 0 or n > PORTS:
        return Answer(1)
    if len(data) % TASK:
        return Answer(9, len(data) // TASK)
    tasks = []
    for k in range(len(data) // TASK):
        record = data[k * TASK : (k + 1) * TASK]
        task = Task(record[0], record[1], int.from_bytes(record[4:8], "little"), int.from_bytes(record[8:], "little"))
        fair = task.input < n and task.output < n and record[2:4] == bytes(2) and task.start < task.end
        rises = not tasks or (tasks[-1].start, tasks[-1].output) < (task.start, task.output)
        if not fair or not rises or any(overlap(earlier, task) for earlier in tasks):
            return Answer(11, k)
        tasks.append(task)
    return counted_tasks(tasks)


# ---- The lister


def lister(stdin):
    """What the lister prints for the bytes at its standard input."""
    wishes = stdin[:LISTED]
    ports = [port for k in range(len(wishes) // WISH) for port in wishes[k * WISH : k * WISH + 2]]
    n = max(ports) + 1 if ports else 0
    if n == 0 or n > LISTED_PORTS:
        return refusal_line(Answer(1))
    answer, cells = read_wishes(n, wishes, [0] * (n * n))
    if answer.code:
        return refusal_line(answer)
    refused = refused_demand(n, cells)
    if refused:
        return refusal_line(refused)
    plan = exact_list(n, cells)
    lines = [f"ports {n} longest {longest_line(n, cells)} records {len(plan)} total {total_hold(plan)} empty {empty_slots(n, cells, plan)}"]
    lines += [record_line(hold, outputs) for hold, outputs in plan]
    return "".join(line + "\n" for line in lines)


def record_line(hold, outputs):
    """Hold, then the outputs by input, 255 printed as a dash."""
    return " ".join([str(hold)] + ["-" if j == IDLE else str(j) for j in outputs])


def refusal_line(answer):
    side = [answer.side] if answer.side else []
    return " ".join(["refused", str(answer.code), *side, str(answer.place)]) + "\n"


# ---- The document's examples, its edges, and its laws tried on random demands


def wish_record(i, j, value_bits, spare=0):
    return bytes([i, j]) + spare.to_bytes(2, "little") + value_bits.to_bytes(4, "little")


def plan_text(plan):
    return "; ".join(f"{hold}:" + record_line(hold, outputs).split(" ", 1)[1] for hold, outputs in plan)


SMALL = [  # no., N, demand, method, plan
    ("P1", 2, [2, 1, 1, 2], exact_list, "2:0 1; 1:1 0"),
    ("P2", 2, [2, 1, 1, 2], doubled_list, "2:0 1; 1:1 0"),
    ("P2, every rotation", 2, [2, 1, 1, 2], doubled_list_every_rotation, "2:0 1; 1:0 1; 1:1 0"),
    ("P3", 2, [2, 1, 1, 2], quick_list, "1:0 1; 1:1 0; 1:0 1"),
    ("P4", 2, [3, 0, 1, 0], exact_list, "3:0 1; 1:1 0"),
    ("P5", 2, [3, 0, 1, 0], quick_list, "1:0 -; 1:- 0; 1:0 -; 1:0 -"),
    ("P6", 3, [1, 0, 1, 0, 1, 1, 1, 1, 0], exact_list, "1:0 2 1; 1:2 1 0"),
    ("P7", 3, [1, 0, 1, 0, 1, 1, 1, 1, 0], quick_list, "1:0 1 -; 1:- 2 0; 1:2 - 1"),
    ("P8", 1, [5], doubled_list, "5:0"),
    ("P8, every rotation", 1, [5], doubled_list_every_rotation, "5:0; 4:0"),
    ("P9", 4, [5, 0, 0, 0, 0, 5, 0, 0, 0, 0, 5, 0, 0, 0, 0, 5], doubled_list, "4:0 1 2 3; 1:0 1 2 3"),
    ("P9, every rotation", 4, [5, 0, 0, 0, 0, 5, 0, 0, 0, 0, 5, 0, 0, 0, 0, 5], doubled_list_every_rotation, "4:0 1 2 3; 1:0 1 2 3; 1:1 2 3 0; 1:2 3 0 1; 1:3 0 1 2"),
    ("P10", 1, [0], exact_list, ""),
]

BITS = [  # bits, (code, slots)
    (0x00000000, (0, 0)),
    (0x80000000, (0, 0)),
    (0x00000001, (0, 2)),
    (0x3F800000, (0, 2)),
    (0x3FC00000, (0, 2)),
    (0x477FFF00, (0, 65_535)),
    (0x477FFF01, (8, 0)),
    (0x80000001, (7, 0)),
    (0x7FC00000, (6, 0)),
    (0x7F800000, (6, 0)),
    (0xFF800000, (6, 0)),
]


def same(what, got, wanted):
    if got != wanted:
        raise SystemExit(f"{what}: {got!r} where {wanted!r} is due")


def examples():
    for name, n, cells, method, text in SMALL:
        same(name, plan_text(method(n, cells)), text)
    for bits, due in BITS:
        same(f"wish {bits:08X}", wish_slots(bits), due)
    two = [wish_record(0, 0, 0x40000000), wish_record(0, 1, 0x3F800000), wish_record(1, 0, 0x3F000000), wish_record(1, 1, 0x3FC00000)]
    same("the lister's example", lister(b"".join(two)), "ports 2 longest 4 records 2 total 4 empty 0\n2 0 1\n2 1 0\n")


def edges():
    room = bytes([170] * 680)
    same("T = 4, N = 4", doubled_list(4, [4, *[0] * 15]), [(4, [0, 1, 2, 3])])
    same("T = 5, N = 4", doubled_list(4, [5, *[0] * 15]), [(4, [0, 1, 2, 3]), (1, [0, 1, 2, 3])])
    same("T = 4, N = 4, every rotation", doubled_list_every_rotation(4, [4, *[0] * 15]), [(4, [0, 1, 2, 3])])
    same("T = 5, N = 4, every rotation", [hold for hold, _ in doubled_list_every_rotation(4, [5, *[0] * 15])], [4, 1, 1, 1, 1])
    same("65,535 passes", exact_plan(1, [65_535], room)[0], Answer(records=1, longest=65_535, total=65_535))
    same("65,536 is code 3", exact_plan(1, [65_536], room), (Answer(3, 0, "input"), room))
    same("a column over", exact_plan(2, [0, 65_535, 0, 1], room)[0], Answer(3, 1, "output"))
    idle = record_bytes(1, 1, [IDLE])
    same("8,192 records", check_plan(1, [0], idle * 8_192).records, 8_192)
    same("8,193 records", check_plan(1, [0], idle * 8_193), Answer(10, 8_192))
    same("8,193 and a tail", open_plan(1, idle * 8_193 + b"\0")[0], Answer(9, 8_193))
    same("P1's first record", exact_plan(2, [2, 1, 1, 2], room)[1][:RECORD], bytes([2, 0, 2, 0, 0, 1]) + bytes([255] * 62))
    same("bytes after the plan", exact_plan(2, [2, 1, 1, 2], room)[1][2 * RECORD :], room[2 * RECORD :])
    same("no room", exact_plan(2, [2, 1, 1, 2], room[: 2 * RECORD - 1]), (Answer(5, 2), room[: 2 * RECORD - 1]))
    same("1,024 by quick", quick_plan(1, [1_024], room)[0], Answer(5, 1_024))
    same("1,025 by quick", quick_plan(1, [1_025], room)[0], Answer(4))


def second_edges():
    idle = record_bytes(1, 1, [IDLE], SECOND)
    same("a record of the second edition", idle, bytes([1, 0, 1, 2]) + bytes([255] * 128))
    same("32,768 records", check_plan(1, [0], idle * 32_768, SECOND).records, 32_768)
    same("32,769 records", plan_length(1, idle * 32_769, 0, SECOND), Answer(10, 32_768))
    same("8,192 records moved", move_plan(1, idle * 8_192, bytes(68 * 8_192), MOVABLE, FIRST)[0], Answer(records=8_192, total=8_192))
    same("8,193 records not moved", move_plan(1, idle * 8_193, b"", MOVABLE, FIRST), (Answer(10, 8_192), b""))
    same("65 ports not moved", move_plan(65, b"", b"", MOVABLE, FIRST), (Answer(1), b""))
    same("the other edition's byte", plan_length(1, record_bytes(1, 1, [0])[:4] + idle[4:], 0, SECOND), Answer(11, 0))
    for n in (1, 64, 65, 127, 128):
        plan = record_bytes(3, n, [(i + 1) % n for i in range(n)], SECOND)
        same(f"{n} ports", plan_length(n, plan, 2, SECOND), Answer(records=1, total=3, length=5))
        same("a byte short", join_plan(n, plan, bytes(131), SECOND), (Answer(5, 1), bytes(131)))
    same("129 ports", open_plan(129, b"", SECOND)[0], Answer(1))
    for output in range(128, 255):
        same("no such output", check_plan(128, [0] * 128**2, record_bytes(1, 128, [output], SECOND), SECOND), Answer(11, 0))


def brute_first(n, cells):
    """The first full setting by trying every permutation in dictionary order."""
    return next(list(p) for p in itertools.permutations(range(n)) if all(cells[i * n + p[i]] for i in range(n)))


def laws(n, cells):
    """What §6 to §8 promise of one demand."""
    asked, longest = sum(cells), longest_line(n, cells)
    filled = fill(n, cells, longest)
    same("filled lines", set(inputs_lines(n, filled) + outputs_lines(n, filled)), {longest})
    if n <= 5 and longest:
        same("first setting", first_setting(n, filled), brute_first(n, filled))
    exact, doubled, every, quick = exact_list(n, cells), doubled_list(n, cells), doubled_list_every_rotation(n, cells), quick_list(n, cells)
    same("exact grants the filled demand", grants(n, exact), filled)
    same("exact total", total_hold(exact), longest)
    same("exact empty slots", empty_slots(n, cells, exact), n * longest - asked)
    same("exact records", len(exact) <= sufficient("exact", PORTS, n, longest).records, True)
    for plan in (doubled, every):
        same("doubled records", len(plan) <= sufficient("doubled", PORTS, n, longest).records, True)
        same("doubled total", total_hold(plan) <= max(0, 2 * longest - 1), True)
        same("doubled empty slots", empty_slots(n, cells, plan), n * total_hold(plan) - asked)
    same("quick records", longest <= len(quick) <= max(0, 2 * longest - 1), True)
    same("quick grants", grants(n, quick), cells)
    same("quick empty slots", empty_slots(n, cells, quick), 0)
    same("quick slots", sum(1 for _, outputs in quick for j in outputs if j != IDLE), asked)
    for method, plan in ((exact_plan, exact), (doubled_plan, doubled), (doubled_plan_every_rotation, every), (quick_plan, quick)):
        if method is quick_plan and longest > QUICK:
            continue
        room = bytes([170] * (RECORD * len(plan) + 5))
        answer, written = method(n, cells, room)
        same("the checker", check_plan(n, cells, written[:-5]), answer)
        same("the tail", written[-5:], room[-5:])
        same("too little room", method(n, cells, room[: len(plan) * RECORD - 1]), (Answer(5, len(plan)), room[: len(plan) * RECORD - 1])) if plan else None
        same("read back", read_plan(n, written[:-5])[1], [(hold, outputs + [IDLE] * (PORTS - n)) for hold, outputs in plan])
        moved = sum(1 for k, (_, outputs) in enumerate(plan) if k == 0 or outputs != plan[k - 1][1])
        same("length", plan_length(n, written[:-5], 7).length, total_hold(plan) + 7 * moved)


def move_laws(rng, n):
    """What §18.5 promises of a random plan: it grants the same, and there and back it is the same bytes."""
    records = [(rng.choice([1, 7, 65_535]), rng.sample([*range(n), *[IDLE] * n], n)) for _ in range(rng.randint(0, 5))]
    for edition, other, again in ((FIRST, SECOND, MOVABLE), (MOVABLE, FIRST, FIRST)):
        plan = b"".join(record_bytes(hold, n, outputs, edition) for hold, outputs in records)
        answer, moved = move_plan(n, plan, bytes(len(records) * other.record), edition, other)
        same("moved", answer, Answer(records=len(records), total=total_hold(records)))
        same("moved grants", grants(n, read_plan(n, moved, other)[1]), grants(n, records))
        same("there and back", move_plan(n, moved, bytes(len(plan)), again, edition), (answer, plan))


def join_laws(rng, n):
    """What §12 promises of a random plan of few settings."""
    settings = [rng.sample(range(n), n) + [IDLE] * (PORTS - n) for _ in range(3)] + [[IDLE] * PORTS]
    records = [(rng.choice([1, 7, 32_768, 65_535]), rng.choice(settings)) for _ in range(rng.randint(0, 30))]
    joined = join_list(records)
    same("joined grants", grants(n, joined), grants(n, records))
    same("joined total", total_hold(joined), total_hold(records))
    same("joined twice", join_list(joined), joined)
    same("no longer", len(joined) <= len(records), True)
    same("each setting once but for records of 65,535", all(hold == 65_535 for (hold, a), (_, b) in zip(joined, joined[1:]) if a == b), True)
    same("first appearances", [list(o) for o in dict.fromkeys(tuple(o) for _, o in joined)], [list(o) for o in dict.fromkeys(tuple(o) for _, o in records)])
    plan = b"".join(record_bytes(hold, n, outputs) for hold, outputs in records)
    room = bytes([170] * (RECORD * len(joined) + 5))
    answer, written = join_plan(n, plan, room)
    same("the joined plan reads back", read_plan(n, written[:-5]), (None, joined))
    same("the tail", written[-5:], room[-5:])
    same("joined again", join_plan(n, written[:-5], room), (answer, written))


def console_laws(rng, n):
    """What §23 promises of two random plans, slot by slot, and of a batch that is stopped after each of its records."""
    plans = [[(rng.randint(1, 4), rng.sample(range(n), n)) for _ in range(rng.randint(0, 4))] for _ in range(2)]
    tonight, standby = (b"".join(record_bytes(hold, n, outputs) for hold, outputs in plan) for plan in plans)
    night, over = ([(which, k * RECORD) for k, (hold, _) in enumerate(plan) for _ in range(hold)] for which, plan in enumerate(plans, 1))
    for slot in range(len(night) + 2 * len(over) + 2):
        part = in_force(n, tonight, standby, slot)
        after = [over[(slot - len(night)) % len(over)]] if over else []
        same("in force", [(part.plan, part.start)] if part.data else [], night[slot : slot + 1] or after)
        same("nothing in force", part.answer.code, 0 if part.data else 14)
    asked, wished = random_demand(rng, n, 9, 0.7), random_demand(rng, n, 9, 0.3)
    for first in range(len(plans[0]) + 1):
        answer, about, new = carry_over(n, asked, tonight, first, wished, [7] * (n * n))
        useful = [min(pair) for pair in zip(asked, grants(n, plans[0][:first]))]
        same("carried", (answer, about), (Answer(), 0))
        same("the books balance", [a + w for a, w in zip(asked, wished)], [c + u for c, u in zip(new, useful)])


def rescue_laws(rng, n):
    """What §19 promises of a plan with some bytes changed."""
    cells = random_demand(rng, n, 9, 0.6)
    damaged = bytearray(b"".join(record_bytes(hold, n, outputs) for hold, outputs in exact_list(n, cells)))
    for _ in range(rng.randint(0, 3) if damaged else 0):
        damaged[rng.randrange(len(damaged))] = rng.randint(0, 255)
    damaged = bytes(damaged[: rng.choice([len(damaged), len(damaged) - len(damaged) % 5])])
    room, listed = bytes([170] * (2 * len(damaged) + RECORD * n * n)), bytes([170] * len(damaged))
    given = rescue(n, cells, damaged, room, listed)
    written = given.plan[: given.answer.records * RECORD]
    same("the checker takes the rescued plan", check_plan(n, cells, written), given.answer)
    same("rescued again", rescue(n, cells, written, written, b""), Rescued(given.answer, 0, 0, written, b""))
    records = [damaged[k : k + RECORD] for k in range(0, len(damaged) - RECORD + 1, RECORD)]
    kept = b"".join(record for record in records if well_formed(n, record))
    same("kept bytes", written[: len(kept)], kept)
    same("the numbers listed", [k for k, record in enumerate(records) if not well_formed(n, record)], [given.listed[4 * k] + 256 * given.listed[4 * k + 1] for k in range(given.dropped) if given.listed[4 * k + 2] < 7])


def grating_laws(n, cells):
    """What §13 promises of one demand."""
    longest, plan = longest_line(n, cells), grating_list(n, cells)
    same("grating records", len(plan) <= 2 * n, True)
    same("grating total", total_hold(plan) <= max(0, 2 * longest - 1), True)
    same("grating covers", all(granted >= asked for granted, asked in zip(grants(n, plan), cells)), True)
    answer, written = grating_doubled(n, cells, bytes([170] * (RECORD * 2 * n)))
    written = written[: answer.records * RECORD]
    same("grating empty slots", empty_slots(n, cells, plan), n * total_hold(plan) - sum(cells))
    same("the checker", check_plan(n, cells, written), answer._replace(longest=longest, empty=empty_slots(n, cells, plan)))
    counts, report = grating_report(n, written, bytes([170] * (2 * n + 3)))
    same("the report's counts", counts, answer)
    same("the report's tail", report[len(plan) :], bytes([170] * (2 * n + 3 - len(plan))))
    first = len(exact_list(n, [cell // -(-longest // n) for cell in cells])) if longest else 0
    same("the second part", all(number <= 2 - n % 2 for number in report[first : len(plan)]), True)
    same("a rotation", most_shared(n, [(i + 1) % n for i in range(n)]), n)
    same("all idle", most_shared(n, [IDLE] * n), 0)


def quiet_laws(n, cells, limit):
    """What §24 promises of one demand and one limit."""
    longest, plan, least = longest_line(n, cells), quiet_list(n, cells, limit), grating_least(n, cells, limit)
    same("quiet grants", grants(n, plan), list(cells))
    same("quiet records", len(plan) <= sum(cell > 0 for cell in cells), True)
    same("quiet limit", all(most_shared(n, outputs) <= limit for _, outputs in plan), True)
    same("least", least.total <= total_hold(plan), True)
    if longest:
        most = 2 * longest - 1 + (max(bands(n, cells)) - 1) // limit
        same("quiet total", total_hold(plan) <= most and total_hold(plan) < 3 * least.total, True)
    answer, written = grating_quiet(n, cells, limit, bytes([170] * (RECORD * len(plan) + 9)))
    same("the checker", check_plan(n, cells, written[: len(plan) * RECORD]), answer)
    same("no room", grating_quiet(n, cells, limit, b"")[0], Answer(5, len(plan)) if plan else answer)
    same("no limit", grating_quiet(n, cells, 0, b"")[0], Answer(17))


def shop_laws(n, cells, d):
    """What §21 promises of one demand."""
    tasks = shop_list(n, cells, d)
    asked = {(i, j): d + cells[i * n + j] for i in range(n) for j in range(n) if cells[i * n + j]}
    same("a task for each pair", sorted((task.input, task.output, task.end - task.start) for task in tasks), sorted((i, j, time) for (i, j), time in asked.items()))
    ins = [sum(time for (i, _), time in asked.items() if i == k) for k in range(n)]
    outs = [sum(time for (_, j), time in asked.items() if j == k) for k in range(n)]
    same("each end", all(task.end <= ins[task.input] + outs[task.output] - (task.end - task.start) for task in tasks), True)
    same("under twice the least", max((task.end for task in tasks), default=0) <= max(0, 2 * max(ins + outs) - 1), True)
    room = bytes([170] * (TASK * len(tasks) + 5))
    answer, written = shop_plan(n, cells, d, room)
    same("the tasks' tail", written[-5:], room[-5:])
    same("the tasks' reader", read_tasks(n, written[:-5]), answer)
    same("too little room for tasks", shop_plan(n, cells, d, room[: TASK * len(tasks) - 1])[0], Answer(5, len(tasks))) if tasks else None


def random_demand(rng, n, most, share):
    return [rng.randint(0, most) if rng.random() < share else 0 for _ in range(n * n)]


def selftest():
    examples()
    edges()
    second_edges()
    rng = random.Random(68)
    for _ in range(400):
        n = rng.choice([1, 2, 2, 3, 3, 4, 4, 5, 6, 7])
        cells = random_demand(rng, n, rng.choice([1, 2, 5, 40]), rng.choice([0.2, 0.5, 1.0]))
        laws(n, cells)
        grating_laws(n, cells)
        quiet_laws(n, cells, rng.choice([1, 1, 2, 3, n, n + 1, 2**64 - 1]))
        shop_laws(n, cells, rng.choice([0, 1, 3, LINE]))
    for n in (12, 16):
        cells = random_demand(rng, n, 9, 0.6)
        laws(n, cells)
        grating_laws(n, cells)
        shop_laws(n, cells, 2)
    for _ in range(400):
        join_laws(rng, rng.choice([1, 2, 3, 5, 8, 64]))
        move_laws(rng, rng.choice([1, 2, 3, 5, 8, 63, 64]))
        console_laws(rng, rng.choice([1, 2, 3, 5, 8, 64]))
        rescue_laws(rng, rng.choice([1, 2, 3, 5, 8]))
    print("the examples, the edges and the laws on 402 demands and 400 plans hold")


if __name__ == "__main__":
    selftest()
