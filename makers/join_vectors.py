"""The stored vectors of joining: settings that repeat in a row and across gaps, sums at and over 65,535, and every code in its place."""
import random

import reference as ref
import tape
from plan_vectors import lines
from record_vectors import called, changed, join, sound

IDLE = ref.IDLE
ROOM = 278_783  # all the room that the program can lend


def join_case(name, n, parts, records=None, more=0, edition=ref.FIRST):
    """Joins a plan into room for so many records, by default as many as were read, and some bytes."""
    letter, word = called("j", "join", edition)
    title = f"{word} {name}:"
    plan = join(parts)
    room = len(plan) // edition.record if records is None else records
    assert room * edition.record + more <= ROOM
    answer, buffer = ref.join_plan(n, plan, bytes([tape.BLANK] * (room * edition.record + more)), edition)
    return tape.lay(*parts) + tape.step(letter, more, n, room, title.encode()), lines(title, n, answer, buffer, edition)


def held(n, *records, edition=ref.FIRST):
    """Records given as (hold, outputs), or (hold, outputs, times)."""
    return [(ref.record_bytes(record[0], n, record[1], edition), record[2] if len(record) > 2 else 1) for record in records]


def joins():
    a, b, idle = [0, 1], [1, 0], [IDLE, IDLE]
    yield join_case("an empty plan", 3, [])
    yield join_case("one record", 2, held(2, (7, a)))
    yield join_case("nothing repeats", 2, held(2, (7, a), (5, b), (3, idle)))
    yield join_case("twice in a row", 2, held(2, (7, a), (5, a)))
    yield join_case("across a gap", 2, held(2, (7, a), (5, b), (3, a)))
    yield join_case("in order of first appearance", 2, held(2, (7, b), (5, a), (3, b), (2, a), (1, idle), (1, b)))
    yield join_case("all idle joined like others", 2, held(2, (7, idle), (5, a), (3, idle)))
    yield join_case("one output apart", 3, held(3, (1, [0, 1, 2]), (2, [0, 1, IDLE]), (4, [0, 1, 2]), (8, [0, 1, IDLE]), (16, [IDLE, 1, 2])))
    yield join_case("P8's plan", 1, held(1, (5, [0]), (4, [0])))
    for n in (1, 3, 64):
        setting = list(range(n))
        yield join_case(f"N = {n}, one setting 8,192 times, hold 1", n, held(n, (1, setting, 8_192)), 2)
        yield join_case(f"N = {n}, one setting 4,096 times, hold 65,535", n, held(n, (65_535, setting, 4_096)))
        yield join_case(f"N = {n}, one setting 8,192 times, hold 65,535", n, held(n, (65_535, setting, 8_192)), 4_096)


def sums():
    """Sums at and over 65,535."""
    a, b = [0, 1], [1, 0]
    yield join_case("65,534 and 1", 2, held(2, (65_534, a), (1, a)))
    yield join_case("65,535 and 1", 2, held(2, (65_535, a), (1, a)))
    yield join_case("65,535 twice", 2, held(2, (65_535, a), (65_535, a)))
    yield join_case("65,535 twice, across a gap", 2, held(2, (65_535, a), (9, b), (65_535, a)))
    yield join_case("65,535 twice and 1", 2, held(2, (65_535, a, 2), (1, a)))
    yield join_case("1 and 65,535 twice", 2, held(2, (1, a), (65_535, a, 2)))
    yield join_case("32,768 four times", 2, held(2, (32_768, a), (1, b), (32_768, a, 3)))


def random_plans():
    rng = random.Random(11)
    for n in (1, 2, 5, 16, 63, 64):
        few = [rng.sample(range(n), n) for _ in range(4)] + [[IDLE] * n]
        plan = held(n, *[(rng.choice([1, 300, 65_535]), rng.choice(few)) for _ in range(40)])
        yield join_case(f"N = {n}, 40 records of five settings", n, plan, more=31)


def rooms():
    """Code 5, and what is left untouched."""
    plan = held(2, (65_535, [0, 1]), (4, [1, 0]), (65_535, [0, 1]), (2, [0, 1]))
    for records, more in ((4, 0), (4, 67), (5, 3), (9, 200), (3, 67), (3, 0), (1, 0), (0, 0), (0, 67)):
        yield join_case(f"four records into room for {records} and {more} bytes", 2, plan, records, more)
    yield join_case("nothing into no room", 2, [], 0)
    apart = held(9, *[(k + 1, [*((i + k) % 9 for i in range(8)), IDLE if k < 9 else (8 + k) % 9]) for k in range(18)])
    yield join_case("18 settings that differ in one output, into 17", 9, apart * 2, 17, 67)
    yield join_case("18 settings that differ in one output", 9, apart * 2, 18, 1)
    yield join_case("300 settings", 12, many(300), 300, 5)


def many(count):
    """So many random settings, and the first few of them again."""
    rng = random.Random(12)
    plan = held(12, *[(k + 1, rng.sample(range(12), 12)) for k in range(count)])
    return plan + plan[:20]


def refused():
    """Each code with the faults that come after it."""
    bad, torn, many = (changed(sound(3), 0, 0, 0), 1), (sound(3)[:9], 1), (sound(3), 8_193)
    for n in (0, 65, 256):
        yield join_case(f"N = {n}, 9, 11, 5", n, [bad, torn], 0)
    yield join_case("9, 10, 11, 5", 3, [bad, many, torn], 0)
    yield join_case("9, 11, 5", 3, [bad, torn], 0)
    yield join_case("10, 11, 5", 3, [(sound(3), 8_192), bad], 0)
    yield join_case("10 alone", 3, [many], 4_096)
    yield join_case("11, 5", 3, [(sound(3), 2), bad], 0)
    yield join_case("11 at the first and the last", 3, [bad, (sound(3), 1), bad])
    yield join_case("11 in the middle", 3, [(sound(3), 1), (sound(4), 1), (sound(3), 1)])
    yield join_case("11 at the last of 8,192", 3, [(sound(3), 8_191), (changed(sound(3), 3, 1), 1)], 4_096)
    yield join_case("11 for one equal setting with a later output", 3, [(sound(3), 1), (changed(sound(3), 67, 0), 1)])


def cases():
    return [*joins(), *sums(), *random_plans(), *rooms(), *refused()]
