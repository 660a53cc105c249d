"""The stored vectors of the second edition's records, plans and wish lists: the edges of N, each way of damage, the other edition's byte,
the most records and one more, buffers a byte short, and every code in its place."""
import random
from functools import partial

import check_vectors
import join_vectors
import plan_vectors as plans
import record_vectors
import reference as ref
import wish_vectors
from record_vectors import changed, damages, harmless
from wish_vectors import record as wish

SECOND = ref.SECOND
IDLE = ref.IDLE
EDGES = (1, 64, 65, 127, 128)  # where a label has one word or two, and the largest N
NO_PORTS = (0, 129, 255, 256)
MOST = SECOND.records

read, write, sound = (partial(call, edition=SECOND) for call in (record_vectors.read_case, record_vectors.write_case, record_vectors.sound))
check, length, rotations = (partial(call, edition=SECOND) for call in (check_vectors.check_case, check_vectors.length_case, check_vectors.rotations))
join, held = (partial(call, edition=SECOND) for call in (join_vectors.join_case, join_vectors.held))


def first_to(n, output):
    """A record that joins input 0 alone."""
    return ref.record_bytes(1, n, [output], SECOND)


# ---- Records


def reads():
    for n in EDGES:
        yield read(f"N = {n}, sound", n, [(sound(n, k), 1) for k in range(4)])
        yield read(f"N = {n}, all idle", n, [(ref.record_bytes(65_535, n, [IDLE] * n, SECOND), 1)])
        if n < 128:
            yield read(f"N = {n}, output N", n, [(sound(n), 1), (first_to(n, n), 1)])
            yield read(f"N = {n}, a later output 0", n, [(sound(n), 1), (changed(sound(n), 4 + n, 0), 1)])
        yield read(f"N = {n}, the last output of all", n, [(first_to(n, n - 1), 1)])
    yield read("an empty plan", 100, [])
    for n in (3, 100):
        for name, change in [*damages(n, SECOND), *harmless(n)]:
            yield read(f"N = {n}, {name}, middle of three", n, [(sound(n), 1), (change(sound(n, 1)), 1), (sound(n, 2), 1)])
    for name, outputs in (("0 and 64", [0, 64]), ("64 twice", [64, 64]), ("1 and 65 and 1", [1, 65, 1]), ("63, 64, 127", [63, 64, 127]), ("127 first and last", [127, *[IDLE] * 126, 127])):
        yield read(f"N = 128, outputs {name}", 128, [(ref.record_bytes(9, 128, outputs, SECOND), 1)])
    for output in (128, 129, 192, 254):
        yield read(f"N = 128, output {output}", 128, [(sound(128), 1), (first_to(128, output), 1)])
    for tail in (1, 4, 68, 131):
        yield read(f"a tail of {tail}", 70, [(sound(70), 2), (sound(70)[:tail], 1)])
        yield read(f"only a tail of {tail}", 70, [(sound(70)[:tail], 1)])
    for n in NO_PORTS:
        yield read(f"N = {n}", n, [(changed(sound(4), 2, n % 256), 2)])
        yield read(f"N = {n} and a tail", n, [(sound(4), 1), (b"\0", 3)])
    for count in (8_192, 8_193, MOST):
        yield read(f"{count:,} records", 2, [(sound(2), count)], 2)
    yield read(f"{MOST + 1:,} records", 2, [(sound(2), MOST + 1)])
    yield read(f"{MOST + 1:,} records and a tail", 2, [(sound(2), MOST + 1), (b"\0", 1)])
    yield read(f"{MOST + 1:,} records for N = 0", 0, [(sound(2), MOST + 1)])


def writes():
    for n in EDGES:
        yield write(f"N = {n}", n, 65_535 // n, sound(n)[4:], 134)
        yield write(f"N = {n}, a byte short", n, 1, sound(n)[4:], 131)
    for n in (5, 100):
        for name, change in [*damages(n, SECOND), *harmless(n)]:
            record = change(sound(n))
            if record[2:4] == sound(n)[2:4]:  # a writer is not handed these two bytes
                yield write(f"N = {n}, {name}", n, record[0] + 256 * record[1], record[4:], 200)
    for output in range(128, 255):
        yield write(f"N = 128, output {output}", 128, 1, first_to(128, output)[4:], 132)
    for n in NO_PORTS:
        yield write(f"N = {n}", n, 1, sound(4)[4:], 132)
        yield write(f"N = {n}, hold 0, no room", n, 0, sound(4)[4:], 0)
    for room in (0, 1, 68, 131, 132, 133, 255):
        yield write(f"room of {room} bytes", 66, 258, sound(66)[4:], room)
    yield write("no room and hold 0", 66, 0, sound(66)[4:], 131)


# ---- The byte and the records of the other edition


def other_edition():
    """The first edition's byte in the second and the second's in the first: by every call that reads, alone and behind a sound record."""
    for edition, byte in ((SECOND, 0), (SECOND, 1), (SECOND, 3), (ref.FIRST, 2)):
        good = record_vectors.sound(3, edition=edition)
        for where, parts in (("alone", []), ("behind a sound record", [(good, 1)])):
            parts = [*parts, (changed(good, 3, byte), 1)]
            yield record_vectors.read_case(f"the byte {byte}, {where}", 3, parts, edition=edition)
            yield check_vectors.check_case(f"the byte {byte}, {where}", 3, [0] * 9, parts, edition)
            yield check_vectors.length_case(f"the byte {byte}, {where}", 3, parts, 1, edition)
            yield join_vectors.join_case(f"the byte {byte}, {where}", 3, parts, edition=edition)
    for edition, other, count in ((ref.FIRST, SECOND, 17), (SECOND, ref.FIRST, 33)):
        record = record_vectors.sound(3, edition=other)
        yield check_vectors.length_case("one record of the other edition", 3, [(record, 1)], 1, edition)
        yield check_vectors.length_case(f"{count} records of the other edition", 3, [(record, count)], 1, edition)


# ---- Checker and length


def checks():
    rng = random.Random(128)
    for n in EDGES:
        straight, short = held(n, (3, list(range(n)))), plans.diagonal(n, 3)
        yield check(f"N = {n}, the diagonal", n, plans.diagonal(n, 3), straight)
        yield check(f"N = {n}, more than asked", n, plans.diagonal(n, 2), held(n, (1, list(range(n)), 3), (9, [*range(1, n), 0])))
        yield check(f"N = {n}, last pair short", n, [*short[:-1], 4], straight)
        yield check(f"N = {n}, first pair short", n, [4, *short[1:]], straight)
        yield check(f"N = {n}, nothing asked, no plan", n, [0] * n**2, [])
    yield check("N = 128, every rotation", 128, [3] * 128**2, rotations(128, 3))
    yield check("N = 128, the last rotation left out", 128, [3] * 128**2, rotations(128, 3, 127))
    for word, method in check_vectors.METHODS:
        cells = plans.sparse(rng, 70, 3, 0.04)
        yield check(f"N = 70, the {word} plan", 70, cells, check_vectors.planned(method, 70, cells, SECOND))
    idle, lit = ref.record_bytes(1, 1, [IDLE], SECOND), ref.record_bytes(65_535, 128, list(range(128)), SECOND)
    for count in (8_192, 8_193, MOST):
        yield check(f"{count:,} records", 1, [0], [(idle, count)])
        yield check(f"{count:,} records, one slot short", 1, [count + 1], [(first_to(1, 0), count)])
    yield check(f"N = 128, {MOST:,} records of hold 65,535", 128, plans.diagonal(128, 9), [(lit, MOST)])


def refused_checks():
    """Each code with the faults that come after it."""
    bad, torn, many = (changed(sound(3), 0, 0, 0), 1), (sound(3)[:131], 1), (sound(3), MOST + 1)
    over = [65_535, 1, 0, 0, 0, 0, 0, 0, 0]
    for n in NO_PORTS:
        yield check(f"N = {n}, 2, 3, 9, 11", n, over[:5], [bad, torn])
    yield check("N = 129 alone", 129, [0] * 16_641, [(changed(sound(4), 2, 129), 1)])
    yield check("N = 128, a cell too few", 128, [0] * 16_383, [])
    yield check("N = 65, the cells of 64", 65, [0] * 4_096, [(sound(65), 1)])
    yield check("2, 10", 3, [0] * 10, [many])
    yield check("3 of input 127, 9, 11", 128, [0] * 16_256 + [512] * 128, [bad, torn])
    yield check("3 of output 127, 11", 128, ([0] * 127 + [512]) * 128, [bad])
    yield check("3, 10", 3, over, [many])
    yield check("9, 10, 11", 3, [9] * 9, [bad, many, torn])
    yield check("9, 11, 13", 3, [9] * 9, [bad, torn])
    yield check("10, 11, 13", 3, [9] * 9, [bad, (sound(3), MOST)])
    yield check("10 alone", 1, [0], [(sound(1), MOST + 1)])
    yield check("11 at the first, 13", 3, [9] * 9, [bad, (sound(3), 2), bad])
    yield check(f"11 at the last of {MOST:,}", 3, [0] * 9, [(sound(3), MOST - 1), (changed(sound(3), 131, 0), 1)])
    for output in (128, 129, 191, 192, 254):
        yield check(f"N = 128, output {output}", 128, [0] * 16_384, [(first_to(128, output), 1)])


def lengths():
    for n in EDGES:
        four = [(sound(n, k), 1) for k in range(4)]
        for d in (0, 1, 65_535):
            yield length(f"N = {n}, four records", n, four, d)
        yield length(f"N = {n}, an equal setting twice", n, held(n, (5, list(range(n))), (4, list(range(n)))), 7)
    straight, crossed = list(range(128)), [*range(126), 127, 126]
    yield length("N = 128, the last two crossed", 128, held(128, (5, straight), (4, crossed)), 7)
    yield length("an empty plan", 128, [], 65_535)
    pair = b"".join(record for record, _ in held(128, (65_535, straight), (65_535, crossed)))
    yield length(f"N = 128, {MOST:,} records of hold 65,535, mirrors always moved", 128, [(pair, MOST // 2)], 65_535)
    yield length(f"N = 128, {MOST:,} records of hold 65,535, mirrors never moved", 128, held(128, (65_535, straight, MOST)), 65_535)
    for output in range(128, 255):
        yield length(f"N = 128, output {output}", 128, [(first_to(128, output), 1)], 1)
    for i in range(64, 128):
        yield length(f"N = 64, output {i} not idle", 64, [(changed(sound(64), 4 + i, i - 64), 1)], 1)
    bad, torn = (changed(sound(3), 0, 0, 0), 1), (sound(3)[:1], 1)
    for n in NO_PORTS:
        yield length(f"N = {n}, 9, 11", n, [bad, torn], 3)
    yield length("9, 10, 11", 3, [bad, (sound(3), MOST + 1), torn], 3)
    yield length("9, 11", 3, [bad, torn], 3)
    yield length("10, 11", 3, [(sound(3), MOST), bad], 3)
    yield length("10 alone", 3, [(sound(3), MOST + 1)], 0)
    yield length("8,193 records", 3, [(sound(3), 8_193)], 2)
    yield length("11 at the first and the last", 3, [bad, (sound(3), 1), bad], 3)


# ---- Joining


def joins():
    rng = random.Random(129)
    for n in EDGES:
        a, b = list(range(n)), [(i + 1) % n for i in range(n)]
        yield join(f"N = {n}, across a gap", n, held(n, (7, a), (5, b), (3, a)), more=131)
        yield join(f"N = {n}, 65,535 twice and 1, across a gap", n, held(n, (65_535, a), (9, b), (65_535, a), (1, a)))
        if n > 1:
            yield join(f"N = {n}, the last output apart", n, held(n, (1, a), (2, [*a[:-1], IDLE]), (4, a)))
            few = [rng.sample(range(n), n) for _ in range(4)] + [[IDLE] * n]
            yield join(f"N = {n}, 40 records of five settings", n, held(n, *[(rng.choice([1, 300, 65_535]), rng.choice(few)) for _ in range(40)]), more=31)
        yield join(f"N = {n}, {MOST:,} records of hold 1", n, held(n, (1, a, MOST)), 1)
    a, b = list(range(128)), [*range(126), 127, 126]
    yield join("N = 128, the last two crossed", 128, held(128, (1, a), (2, b), (4, a), (8, b)))
    yield join("2,048 records of 65,535", 2, held(2, (65_535, [1, 0], 2_048)))
    yield join(f"{MOST:,} records of hold 65,535, room for 2,048", 2, held(2, (65_535, [1, 0], MOST)), 2_048)
    yield join("8,193 records", 2, held(2, (1, [1, 0], 8_192), (1, [0, 1])), 2)
    plan = held(66, (65_535, list(range(66))), (4, [IDLE] * 66), (65_535, list(range(66))), (2, list(range(66))))
    for records, more in ((4, 0), (4, 131), (5, 3), (3, 131), (3, 0), (1, 0), (0, 0), (0, 131), (7, 68)):
        yield join(f"four records into room for {records} and {more} bytes", 66, plan, records, more)
    yield join("nothing into no room", 128, [], 0)


def refused_joins():
    bad, torn = (changed(sound(3), 0, 0, 0), 1), (sound(3)[:131], 1)
    for n in NO_PORTS:
        yield join(f"N = {n}, 9, 11, 5", n, [bad, torn], 0)
    yield join("9, 10, 11, 5", 3, [bad, (sound(3), MOST + 1), torn], 0)
    yield join("9, 11, 5", 3, [bad, torn], 0)
    yield join("10, 11, 5", 3, [(sound(3), MOST), bad], 0)
    yield join("10 alone", 3, [(sound(3), MOST + 1)], 4)
    yield join("11, 5", 3, [(sound(3), 2), bad], 0)
    yield join(f"11 at the last of {MOST:,}", 3, [(sound(3), MOST - 1), (changed(sound(3), 3, 0), 1)], 4)
    for output in (128, 254):
        yield join(f"N = 128, output {output}", 128, [(first_to(128, output), 1)])


# ---- Wish lists


def lists():
    """(name, N, cells lent, the list's bytes)."""
    nan, below, above = 0x7FC00000, 0x80000001, 0x477FFF01
    for n in EDGES:
        line = b"".join(wish(n - 1, j, j + 0.5) for j in range(n)) + b"".join(wish(i, n - 1, i) for i in range(n - 1))
        yield f"N = {n}, the last input and the last output", n, n**2, line
        yield f"N = {n}, none", n, n**2, b""
        yield f"N = {n}, a port not below N", n, n**2, wish(0, 0, 1.0) + wish(n - 1, n, 1.0)
        yield f"N = {n}, the last pair again", n, n**2, line + wish(n - 1, n - 1, 3.0)
        yield f"N = {n}, a cell too few", n, n**2 - 1, line
        yield f"N = {n}, a cell too many", n, n**2 + 1, line
        yield f"N = {n}, a byte short", n, n**2, line[:-1]
    for j in (0, 1, 63):
        yield f"N = 128, outputs {j} and {j + 64} of one input", 128, 16_384, wish(5, j, 1.0) + wish(5, j + 64, 2.0) + wish(69, j, 3.0)
        yield f"N = 128, outputs {j} and {j + 64}, the second again", 128, 16_384, wish(5, j, 1.0) + wish(5, j + 64, 2.0) + wish(5, j + 64, 2.0)
    for code, bits in ((6, nan), (7, below), (8, above)):
        yield f"N = 128, {code} at the last pair", 128, 16_384, wish(127, 127, 2.0) + wish(127, 126, bits=bits)
    yield "N = 128, 11 before 12", 128, 16_384, wish(127, 127, 2.0) + wish(127, 127, 2.0, spare=1)
    yield "N = 65, every pair", 65, 4_225, b"".join(wish(i, j, (i * 65 + j) % 1_000) for i in range(65) for j in range(65))
    for n in NO_PORTS:
        yield f"N = {n}", n, min(n * n, 16_641), wish(0, 0, 1.0)
        yield f"N = {n}, 2, 9", n, 3, wish(0, 0, 1.0)[:3]


def listed():
    return [wish_vectors.list_case(n, lent, data, SECOND, f"second wishes {name}:") for name, n, lent, data in lists()]


def cases():
    return [*reads(), *writes(), *other_edition(), *checks(), *refused_checks(), *lengths(), *joins(), *refused_joins(), *listed()]
