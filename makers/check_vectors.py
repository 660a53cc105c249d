"""The stored vectors of the checker and of the length: every code in its place, several faults at once, and the largest numbers."""
import random

import plan_vectors as plans
import reference as ref
import tape
from record_vectors import called, changed, join, sound

METHODS = [
    ("exact", ref.exact_list),
    ("doubled", ref.doubled_list),
    ("every rotation", ref.doubled_list_every_rotation),
    ("quick", ref.quick_list),
]


def check_case(name, n, cells, parts, edition=ref.FIRST):
    letter, word = called("k", "check", edition)
    title = f"{word} {name}:"
    answer = ref.check_plan(n, cells, join(parts), edition)
    steps = tape.lay_cells(cells) + tape.lay(*parts) + tape.step(letter, 0, n, len(cells), title.encode())
    return steps, f"{title}{tape.answer_text(answer)}\n"


def length_case(name, n, parts, d, edition=ref.FIRST):
    letter, word = called("l", "length", edition)
    title = f"{word} {name}, d = {d}:"
    answer = ref.plan_length(n, join(parts), d, edition)
    return tape.lay(*parts) + tape.step(letter, 0, n, d, title.encode()), f"{title}{tape.answer_text(answer)}\n"


def rotations(n, hold, count=None, edition=ref.FIRST):
    """Settings that join every pair once, or the first so many of them."""
    return [(ref.record_bytes(hold, n, [(i + k) % n for i in range(n)], edition), 1) for k in range(n if count is None else count)]


def planned(method, n, cells, edition=ref.FIRST):
    return [(ref.record_bytes(hold, n, outputs, edition), 1) for hold, outputs in method(n, cells)]


def passing():
    """Plans of each planner, and plans from elsewhere, that pass."""
    rng = random.Random(3)
    for n in (1, 2, 3, 5, 8):
        cells = plans.dense(rng, n, 9)
        for word, method in METHODS:
            yield check_case(f"N = {n}, the {word} plan", n, cells, planned(method, n, cells))
    yield check_case("N = 64, rotations", 64, [3] * 4_096, rotations(64, 3))
    yield check_case("N = 64, more than asked", 64, [3] * 4_096, rotations(64, 3) + rotations(64, 65_535, 9))
    yield check_case("nothing asked, no plan", 4, [0] * 16, [])
    yield check_case("nothing asked, an idle record", 4, [0] * 16, [(ref.record_bytes(7, 4, [255] * 4), 1)])
    yield check_case("a pair in parts", 2, [5, 0, 0, 0], [(ref.record_bytes(1, 2, [0, 255]), 3), (ref.record_bytes(2, 2, [0, 1]), 1)])
    yield check_case("a line of 65,535", 2, [65_535, 0, 0, 65_535], rotations(2, 65_535, 1))
    yield check_case("8,192 records", 1, [65_535], [(ref.record_bytes(8, 1, [0]), 8_191), (ref.record_bytes(7, 1, [0]), 1)])
    yield check_case("8,192 records of hold 65,535", 2, [9, 0, 0, 9], [(ref.record_bytes(65_535, 2, [0, 1]), 8_192)])


def uncovered():
    """Code 13: the first cell, in cell order, that is granted less than asked."""
    one = [(ref.record_bytes(4, 3, [0, 1, 2]), 1), (ref.record_bytes(2, 3, [1, 2, 0]), 1)]
    yield check_case("no plan", 2, [0, 0, 0, 1], [])
    yield check_case("one slot short", 3, [4, 2, 0, 0, 5, 2, 2, 0, 4], one)
    yield check_case("two pairs short", 3, [4, 3, 0, 0, 4, 2, 2, 0, 5], one)
    yield check_case("first and last cell short", 3, [5, 0, 0, 0, 0, 0, 0, 0, 5], one)
    yield check_case("just covered", 3, [4, 2, 0, 0, 4, 2, 2, 0, 4], one)
    yield check_case("covered the other way round", 2, [0, 3, 0, 0], [(ref.record_bytes(3, 2, [255, 0]), 1)])
    yield check_case("idle is no output", 2, [0, 1, 0, 0], [(ref.record_bytes(9, 2, [255, 255]), 1)])
    yield check_case("8,192 records, one slot short", 1, [65_535], [(ref.record_bytes(8, 1, [0]), 8_191), (ref.record_bytes(6, 1, [0]), 1)])
    yield check_case("last record decides", 2, [7, 0, 0, 0], [(ref.record_bytes(6, 2, [0, 1]), 1), (ref.record_bytes(1, 2, [1, 255]), 1)])
    yield check_case("N = 64, last pair short", 64, [1] * 4_095 + [2], rotations(64, 1))
    yield check_case("N = 64, a rotation left out", 64, [1] * 4_096, rotations(64, 1, 63))


def refused():
    """Each code with the faults that come after it, so that their order is seen."""
    bad, torn = (changed(sound(3), 0, 0, 0), 1), (sound(3)[:9], 1)
    many = (sound(3), 8_193)
    over = [65_535, 1, 0, 0, 0, 0, 0, 0, 0]
    column = [0, 0, 40_000, 0, 0, 40_000, 0, 0, 0]
    for n in (0, 65, 256):
        yield check_case(f"N = {n}, 2, 3, 9, 11", n, over[:5], [bad, torn])
        yield check_case(f"N = {n} alone", n, [0] * 9, [(sound(3), 1)])
    yield check_case("2, 3, 9, 11", 3, over[:8], [bad, torn])
    yield check_case("2, 10", 3, [0] * 10, [many])
    yield check_case("2 alone", 3, [], [(sound(3), 1)])
    yield check_case("3 input, 9, 11", 3, over, [bad, torn])
    yield check_case("3 output, 10", 3, column, [many])
    yield check_case("3 input before output", 3, [40_000, 0, 0, 40_000, 0, 0, 0, 65_535, 1], [bad])
    yield check_case("3 of cells 2^32 - 1", 3, [2**32 - 1] * 9, [(sound(3), 1)])
    yield check_case("9, 10, 11", 3, [9] * 9, [bad, many, torn])
    yield check_case("9, 11, 13", 3, [9] * 9, [bad, torn])
    yield check_case("9 of a tail alone", 3, [0] * 9, [torn])
    yield check_case("10, 11, 13", 3, [9] * 9, [bad, (sound(3), 8_192)])
    yield check_case("10 alone", 1, [0], [(sound(1), 8_193)])
    yield check_case("11 at the first, 13", 3, [9] * 9, [bad, (sound(3), 2), bad])
    yield check_case("11 in the middle, 13", 3, [9] * 9, [(sound(3), 2), (sound(4), 1), bad])
    yield check_case("11 at the last", 3, [0] * 9, [(sound(3), 2), (changed(sound(3), 67, 0), 1)])
    yield check_case("11 at the last of 8,192", 3, [0] * 9, [(sound(3), 8_191), (changed(sound(3), 3, 1), 1)])


def lengths():
    three = [(sound(4, k), 1) for k in range(3)]
    for d in (0, 1, 65_535):
        yield length_case("an empty plan", 4, [], d)
        yield length_case("one record", 1, [(ref.record_bytes(5, 1, [0]), 1)], d)
        yield length_case("three records", 4, three, d)
        yield length_case("an equal setting twice", 1, [(ref.record_bytes(5, 1, [0]), 1), (ref.record_bytes(4, 1, [0]), 1)], d)
        yield length_case("8,192 records of hold 65,535", 2, [(ref.record_bytes(65_535, 2, [0, 1]), 8_192)], d)
    yield length_case("idle records", 3, [(ref.record_bytes(2, 3, [255] * 3), 2)], 10)
    bad, torn = (changed(sound(3), 0, 0, 0), 1), (sound(3)[:9], 1)
    for n in (0, 65, 256):
        yield length_case(f"N = {n}, 9, 11", n, [bad, torn], 3)
    yield length_case("9, 10, 11", 3, [bad, (sound(3), 8_193), torn], 3)
    yield length_case("9, 11", 3, [bad, torn], 3)
    yield length_case("10, 11", 3, [(sound(3), 8_192), bad], 3)
    yield length_case("10 alone", 3, [(sound(3), 8_193)], 0)
    yield length_case("11 at the first and the last", 3, [bad, (sound(3), 1), bad], 3)
    yield length_case("11 in the middle", 3, [(sound(3), 1), (sound(4), 1), (sound(3), 1)], 3)
    yield length_case("11 at the last", 3, [(sound(3), 2), bad], 65_535)


def cases():
    return [*passing(), *uncovered(), *refused(), *lengths()]
