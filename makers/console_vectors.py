"""The stored vectors of the console: the record in force at the slots where something changes, and what a stopped batch leaves to ask."""
import random

import plan_vectors as plans
import reference as ref
import tape
from record_vectors import changed, damages, join, sound

MOST = 2**64 - 1
BEFORE = 7  # what each lent cell holds


def find_case(name, n, tonight, standby, slot):
    title = f"in force {name}, slot {slot}:"
    first = join(tonight)
    part = ref.in_force(n, first, join(standby), slot)
    records, more = divmod(len(first), ref.RECORD)
    steps = tape.lay((slot.to_bytes(8, "little"), 1), *tonight, *standby) + tape.step("i", more, n, records, title.encode())
    place = f" about {part.about} plan {part.plan} start {part.start} size {len(part.data)} sum {tape.checksum(part.data)}"
    return steps, f"{title}{tape.answer_text(part.answer)}{place}\n"


def carry_case(name, n, asked, parts, first, wished, lent=None):
    title = f"carry over {name}, first {first}:"
    cells = [BEFORE] * (len(asked) if lent is None else lent)
    answer, about, after = ref.carry_over(n, asked, join(parts), first, wished, cells)
    head = first.to_bytes(8, "little") + len(asked).to_bytes(2, "little") + len(wished).to_bytes(2, "little")
    steps = tape.lay((head, 1)) + tape.lay_cells(asked) + tape.lay_cells(wished) + tape.lay(*parts)
    text = f"{title}{tape.answer_text(answer)} about {about}\n" + "".join(f" {cell}" for cell in after) + "\n"
    return steps + tape.step("c", 0, n, len(cells), title.encode()), text


def held(n, *holds):
    return [(ref.record_bytes(hold, n, [(i + k) % n for i in range(n)]), 1) for k, hold in enumerate(holds)]


def slots():
    """Each slot around a change, and the last of 64 bits."""
    tonight, standby = held(3, 3, 1, 300), held(3, 2, 5)
    for slot in (0, 2, 3, 4, 303, 304, 305, 306, 310, 311, 312, 318, MOST - 1, MOST):
        yield find_case("two plans", 3, tonight, standby, slot)
    for slot in (0, 1, 2, 6, 7, MOST):
        yield find_case("nothing tonight", 3, [], standby, slot)
    for slot in (0, 303, 304, MOST):
        yield find_case("no standby", 3, tonight, [], slot)
    yield find_case("neither", 3, [], [], 0)
    yield find_case("neither", 3, [], [], MOST)
    for slot in (6, 7, 13, 14):
        yield find_case("equal plans", 3, standby, standby, slot)
    long = [(ref.record_bytes(65_535, 64, list(range(64))), 8_192)]
    total = 8_192 * 65_535
    for slot in (0, 65_534, 65_535, total - 1, total, MOST):
        yield find_case("8,192 records of hold 65,535", 64, long, held(64, 9), slot)
        yield find_case("8,192 records on standby", 64, held(64, 9), long, slot)


def lookups_refused():
    fine, torn = (sound(3), 2), (sound(3)[:9], 1)
    bad = (changed(sound(3), 0, 0, 0), 1)
    for n in (0, 65, 256):
        yield find_case(f"N = {n}, both torn", n, [torn], [torn], 0)
    for name, change in damages(3):
        yield find_case(f"tonight {name}", 3, [fine, (change(sound(3)), 1)], [bad], 0)
        yield find_case(f"standby {name}", 3, [fine], [fine, (change(sound(3)), 1)], 0)
    yield find_case("tonight torn", 3, [fine, torn], [fine], 0)
    yield find_case("standby torn", 3, [fine], [fine, torn], 0)
    yield find_case("standby torn, past tonight", 3, [fine], [torn], 9)
    yield find_case("tonight of 8,193", 3, [(sound(3), 8_193)], [bad], 0)
    yield find_case("standby of 8,193", 3, [], [bad, (sound(3), 8_192)], 0)


def carried():
    rng = random.Random(13)
    for n in (1, 2, 3, 8):
        cells, wished = plans.dense(rng, n, 9), plans.dense(rng, n, 4)
        plan = [(ref.record_bytes(hold, n, outputs), 1) for hold, outputs in ref.exact_list(n, cells)]
        for first in (0, 1, len(plan) // 2, len(plan)):
            yield carry_case(f"N = {n}, the exact plan", n, cells, plan, first, wished)
    yield carry_case("more than asked", 2, [1, 0, 0, 5], held(2, 3), 1, [0, 2, 0, 0])
    yield carry_case("a wish of 1 stays 1", 2, [0] * 4, [], 0, [1, 0, 0, 1])
    yield carry_case("a line of 65,535", 2, [65_535, 0, 0, 9], held(2, 3), 1, [3, 0, 0, 0])
    yield carry_case("N = 64", 64, [3] * 4_096, held(64, 2, 9), 2, [1] * 4_096)
    yield carry_case("8,192 records", 1, [65_535], [(ref.record_bytes(7, 1, [0]), 8_192)], 8_192, [9])


def carries_refused():
    fine, torn = (sound(3), 2), (sound(3)[:9], 1)
    bad = (changed(sound(3), 0, 0, 0), 1)
    row, column = [65_535, 1, 0, 0, 0, 0, 0, 0, 0], [0, 0, 40_000, 0, 0, 40_000, 0, 0, 0]
    for n in (0, 65, 256):
        yield carry_case(f"N = {n}, 2, 9", n, [0] * 9, [torn], 5, [0] * 8)
    yield carry_case("2 of the demand", 3, row[:8], [torn], 5, row, 9)
    yield carry_case("2 of the wishes", 3, row, [torn], 5, row[:8])
    yield carry_case("2 of the new cells", 3, row, [torn], 5, row, 10)
    for name, change in damages(3):
        yield carry_case(f"the plan {name}", 3, row, [fine, (change(sound(3)), 1)], 1, row)
    yield carry_case("9", 3, row, [fine, torn], 5, row)
    yield carry_case("10", 3, row, [(sound(3), 8_193)], 9_999, row)
    yield carry_case("11 before 15", 3, row, [fine, bad], 4, row)
    for first in (3, 65_536, 2**32, MOST):
        yield carry_case("15 before 3", 3, row, [fine], first, row)
    yield carry_case("15 of no plan", 3, [0] * 9, [], 1, [0] * 9)
    yield carry_case("3 of the demand, the wishes too", 3, column, [fine], 2, row)
    yield carry_case("3 of the wishes", 3, [0] * 9, [fine], 2, column)
    yield carry_case("3 of the new demand", 3, [0, 40_000, 0, 0, 0, 0, 0, 0, 0], [fine], 0, [0, 0, 25_536, 0, 0, 0, 0, 0, 0])
    yield carry_case("3 of the new demand, an output", 3, [0, 40_000, 0, 0, 0, 0, 0, 0, 0], [fine], 0, [0, 0, 0, 0, 25_536, 0, 0, 0, 0])


def cases():
    return [*slots(), *lookups_refused(), *carried(), *carries_refused()]
