"""The stored vectors of rescue: each reason alone and each two in one record, every byte of a record changed, tails, the most records in and out, and each refusal."""
import random

import plan_vectors as plans
import reference as ref
import tape
from record_vectors import changed, damages, join, sound


def rescue_case(name, n, cells, parts, room=None, entries=None, more=0):
    """Rescues into room for so many records, and bytes more, and so many entries; by default just enough for both."""
    title = f"rescue {name}:"
    damaged = join(parts)
    ample = ref.rescue(n, cells, damaged, bytes(ref.RECORD * (ref.RECORDS + 1)), bytes(4 * (ref.RECORDS + 1)))
    room = ample.answer.records if room is None else room
    size = 4 * (ample.dropped if entries is None else entries) + more
    lent, listed = bytes([tape.BLANK] * (ref.RECORD * room + more)), bytes([tape.BLANK] * size)
    given = ref.rescue(n, cells, damaged, lent, listed)
    head = len(cells).to_bytes(2, "little") + size.to_bytes(2, "little")
    steps = tape.lay((head, 1)) + tape.lay_cells(cells) + tape.lay(*parts) + tape.step("v", more, n, room, title.encode())
    text = f"{title}{tape.answer_text(given.answer)} added {given.added} dropped {given.dropped} sum {tape.checksum(given.plan)} sum {tape.checksum(given.listed)}\n"
    shown = ref.read_plan(n, given.plan[: given.answer.records * ref.RECORD])[1] if 0 < given.answer.records <= 6 else []
    return steps, text + "".join(ref.record_line(hold, outputs[:n]) + "\n" for hold, outputs in shown)


def reasons(n):
    """(reason, change) that make a sound record of n ports break one rule."""
    yield 1, lambda r: changed(r, 0, 0, 0)
    yield 2, lambda r: changed(r, 2, n + 1)
    yield 3, lambda r: changed(r, 3, 2)
    yield 4, lambda r: changed(r, 5, n)
    yield 5, lambda r: changed(r, 6, r[4])
    yield 6, lambda r: changed(r, 67, 0)


DEMAND = [4, 0, 1, 0, 2, 0, 1, 3, 0]


def damaged_records():
    good = sound(3)
    for one, spoil in reasons(3):
        yield rescue_case(f"reason {one} alone", 3, DEMAND, [(good, 1), (spoil(good), 1), (good, 1)])
        for other, more in reasons(3):
            if one < other:
                yield rescue_case(f"reasons {one} and {other}", 3, DEMAND, [(more(spoil(good)), 1)])
    for name, change in damages(3):
        yield rescue_case(f"a record with {name}", 3, DEMAND, [(good, 1), (change(good), 1)], more=3)
    full, cell = sound(64), plans.one_cell(64, 63, 63, 5)
    for at in range(ref.RECORD):
        yield rescue_case(f"byte {at} changed", 3, DEMAND, [(changed(good, at, good[at] ^ 3), 1)])
        yield rescue_case(f"N = 64, byte {at} changed", 64, cell, [(changed(full, at, full[at] ^ 1), 1)])
    idle = ref.record_bytes(9, 3, [ref.IDLE] * 3)
    yield rescue_case("idle twice is kept", 3, DEMAND, [(idle, 1), (good, 1)])


def whole_files():
    rng = random.Random(9)
    good = sound(3)
    for tail in (1, 2, 3, 4, 67):
        yield rescue_case(f"a tail of {tail} only", 3, DEMAND, [(good[:tail], 1)])
        yield rescue_case(f"a tail of {tail}", 3, DEMAND, [(good, 2), (good[:tail], 1)])
    yield rescue_case("all bad", 3, DEMAND, [(changed(good, 3, 1), 5)])
    yield rescue_case("all bad and a tail", 3, DEMAND, [(changed(good, 3, 1), 5), (good[:9], 1)])
    yield rescue_case("no record", 3, DEMAND, [])
    yield rescue_case("nothing asked", 3, [0] * 9, [(good, 3)])
    for n in (1, 2, 3, 8, 13):
        cells = plans.dense(rng, n, 9)
        exact = [(ref.record_bytes(hold, n, outputs), 1) for hold, outputs in ref.exact_list(n, cells)]
        yield rescue_case(f"N = {n}, none bad and covering", n, cells, exact)
        yield rescue_case(f"N = {n}, none bad and short", n, cells, exact[1:])
        holes = [(changed(record, 2, 0), 1) if k % 3 == 1 else (record, 1) for k, (record, _) in enumerate(exact)]
        yield rescue_case(f"N = {n}, every third bad", n, cells, holes, more=5)


def the_most():
    good = ref.record_bytes(65_535, 2, [1, 0])
    bad = changed(good, 3, 9)
    asked, one, both = [0, 9, 9, 0], [1, 0, 0, 0], [1, 0, 0, 2]
    yield rescue_case("8,192 records", 2, asked, [(good, 8_192)])
    yield rescue_case("8,192 records and a tail", 2, asked, [(good, 8_192), (good[:1], 1)], 8_193, 1)
    yield rescue_case("8,193 records", 2, asked, [(good, 8_193)], 8_193, 0)
    yield rescue_case("8,191 records and a tail", 2, asked, [(good, 8_191), (good[:1], 1)])
    yield rescue_case("8,192 out", 2, one, [(good, 4_000), (bad, 1), (good, 4_191)])
    yield rescue_case("8,193 out", 2, [3, 1, 1, 2], [(good, 8_192)], 8_193, 0)
    yield rescue_case("8,193 out, before 5 and 16", 2, one, [(good, 8_192)], 0, 0)
    yield rescue_case("8,192 dropped", 2, both, [(bad, 8_192)])
    yield rescue_case("8,192 dropped, one entry short", 2, both, [(bad, 8_192)], 2, 8_191)


def refused():
    good = sound(3)
    bad, torn = (changed(good, 0, 0, 0), 2), (good[:5], 1)
    row, column = [65_535, 1, 0, 0, 0, 0, 0, 0, 0], [0, 0, 40_000, 0, 0, 40_000, 0, 0, 0]
    for n in (0, 65, 256):
        yield rescue_case(f"N = {n}, 2", n, [0] * 8, [torn], 0, 0)
    yield rescue_case("2, 10", 3, row[:8], [(good, 8_193)], 0, 0)
    yield rescue_case("3 of an input, 10", 3, row, [(good, 8_193)], 0, 0)
    yield rescue_case("3 of an output, 16", 3, column, [bad], 9, 0)
    for room in (0, 1, 2):
        yield rescue_case(f"room for {room}, a list of nothing", 3, DEMAND, [(good, 1), bad, torn], room, 0, 3)
    for entries in (0, 1, 2):
        yield rescue_case(f"a list of {entries}", 3, DEMAND, [(good, 1), bad, torn], 9, entries, 3)
    yield rescue_case("a list of 3", 3, DEMAND, [(good, 1), bad, torn], 9, 3, 3)


def cases():
    return [*damaged_records(), *whole_files(), *the_most(), *refused()]
