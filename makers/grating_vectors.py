"""The stored vectors of the grating calls: demands and plans of every shape, N odd and even, the edges, and every refusal."""
import random

import plan_vectors as plans
import reference as ref
import tape
from record_vectors import changed, join, sound

PRINTED = 128  # reports of up to so many records are printed, and so much room has the report of a plan that was written
LARGEST = bytes([tape.BLANK] * (ref.RECORD * 128))


def reported(n, plan, room):
    """The lines of a report: what it answers, and its numbers where they are few."""
    answer, report = ref.grating_report(n, plan, bytes([tape.BLANK] * room))
    text = f"{tape.answer_text(answer)} sum {tape.checksum(report)}\n"
    if answer.records <= PRINTED:
        text += "".join(f" {number}" for number in report[: answer.records]) + "\n"
    return text


def report_case(name, n, parts, room):
    title = f"report {name}:"
    steps = tape.lay(*parts) + tape.step("f", 0, n, room, title.encode())
    return steps, title + reported(n, join(parts), room)


def plan_case(name, n, cells, room, more=0):
    """One call of the planner, and the report of the plan that it wrote."""
    title = f"grating {name}:"
    answer, buffer = ref.grating_doubled(n, cells, bytes([tape.BLANK] * (room * ref.RECORD + more)))
    steps = tape.lay_cells(cells) + tape.step("g", more, n, room, title.encode())
    text = f"{title}{tape.answer_text(answer)} sum {tape.checksum(buffer)}\n"
    written = buffer[: answer.records * ref.RECORD]
    if answer.records <= plans.SHORT and not answer.code:
        text += "".join(ref.record_line(hold, outputs[:n]) + "\n" for hold, outputs in ref.read_plan(n, written)[1])
    return steps, f"{text}reported:{reported(n, written, PRINTED)}"


def fitting(name, n, cells, spare, more):
    """The call with just the records of room that the plan has, and some to spare."""
    return plan_case(name, n, cells, ref.grating_doubled(n, cells, LARGEST)[0].records + spare, more)


PAGE = [7, 2, 0, 0, 1, 0, 6, 1, 2, 0, 0, 0, 7, 1, 2, 0, 1, 2, 7, 0, 2, 1, 0, 0, 7]  # the example of docs/GRATING.md


def demands():
    """(name, N, cells) of every demand that is planned: the doubled plan's own, and more of N odd and even."""
    yield "docs/GRATING.md", 5, PAGE
    yield from plans.doubled_demands()
    rng = random.Random(6)
    for n in (1, 2, 7, 32, 63, 64):
        yield f"N = {n} remainders alone", n, [rng.randint(0, 1) for _ in range(n * n)]
        yield f"N = {n} one pair", n, plans.one_cell(n, n // 2, n // 3, n * 9 + 5)
        yield f"N = {n} mixed", n, plans.dense(rng, n, 999 if n < 9 else 65_535 // (n * 2))
    for n in (31, 63):
        yield f"N = {n} equal cells of 3", n, [3] * (n * n)
        yield f"N = {n} permutation", n, plans.permutation(rng, n, 700)


def rotations(n, hold=1):
    return [(ref.record_bytes(hold, n, [(i + k) % n for i in range(n)]), 1) for k in range(n)]


def anti_rotations(n, hold=1):
    return [(ref.record_bytes(hold, n, [(k - i) % n for i in range(n)]), 1) for k in range(n)]


def reports():
    rng = random.Random(4)
    for n in (1, 2, 3, 8, 9, 63, 64):
        yield report_case(f"N = {n}, rotations", n, rotations(n), n)
        yield report_case(f"N = {n}, anti-rotations", n, anti_rotations(n, 65_535), n + 1)
        yield report_case(f"N = {n}, idle", n, [(ref.record_bytes(2, n, [255] * n), 3)], 3)
        mixed = []
        for _ in range(9):
            outputs = list(range(n))
            rng.shuffle(outputs)
            mixed.append((ref.record_bytes(rng.randint(1, 900), n, [j if rng.random() < 0.7 else 255 for j in outputs]), 1))
        yield report_case(f"N = {n}, any settings", n, mixed, 12)
    yield report_case("an input idle, two share", 4, [(ref.record_bytes(1, 4, [1, 2, 255, 3]), 1)], 1)
    yield report_case("around the end", 5, [(ref.record_bytes(1, 5, [3, 4, 0, 2, 1]), 1)], 1)
    yield report_case("an empty plan", 4, [], 0)
    yield report_case("an empty plan, room", 4, [], 9)
    yield report_case("8,192 records", 3, [(sound(3), 8_192)], 8_192)
    yield report_case("8,192 records, a byte to spare", 3, [(sound(3), 8_192)], 8_193)


def refused_reports():
    """Each code with those that come after it, so that their order is seen."""
    bad, torn = (changed(sound(3), 0, 0, 0), 1), (sound(3)[:9], 1)
    for n in (0, 65, 256):
        yield report_case(f"N = {n}, 9, 11, 5", n, [bad, torn], 0)
        yield report_case(f"N = {n} alone", n, [(sound(3), 1)], 4)
    yield report_case("9, 10, 11, 5", 3, [bad, (sound(3), 8_193), torn], 0)
    yield report_case("9, 11, 5", 3, [bad, torn], 0)
    yield report_case("10, 11, 5", 3, [bad, (sound(3), 8_192)], 0)
    yield report_case("10 alone", 3, [(sound(3), 8_193)], 8_448)
    yield report_case("11, 5", 3, [(sound(3), 2), bad], 0)
    yield report_case("11 at the last", 3, [(sound(3), 2), bad], 9)
    yield report_case("no room", 3, [(sound(3), 1)], 0)
    yield report_case("a byte too few", 3, [(sound(3), 5)], 4)
    yield report_case("8,191 bytes for 8,192 records", 3, [(sound(3), 8_192)], 8_191)


def cases():
    made = [*reports(), *refused_reports()]
    made += [fitting(name, n, cells, k % 2, k % 3 * 34) for k, (name, n, cells) in enumerate(demands())]
    return made + [plan_case(*refusal) for refusal in refused_plans()]


def refused_plans():
    """Every refusal of the planner, and several faults at once."""
    yield "N of 0", 0, [], 4
    yield "N of 65", 65, [0] * 4_225, 4
    yield "N of 65, cells over", 65, [65_536] * 3, 0
    yield "N of 256", 256, [1], 4
    yield "no cells", 2, [], 4
    yield "a cell too few", 3, [1] * 8, 9
    yield "a cell too many", 3, [1] * 10, 9
    yield "cells too few and over", 2, [2**32 - 1] * 3, 0
    yield "one cell of 65,536", 1, [65_536], 2
    yield "input 1 of 65,536", 3, [0, 0, 0, 65_535, 0, 1, 0, 0, 0], 9
    yield "output 2 of 65,536", 3, [0, 0, 1, 0, 0, 65_534, 0, 0, 1], 9
    yield "both inputs", 2, [65_535, 65_535, 65_535, 65_535], 0
    yield "N of 64, input 63 over", 64, [0] * 4_032 + [1_024] * 64, 0
    yield "no room", 2, [2, 1, 1, 2], 0
    yield "a byte too few", 4, plans.diagonal(4, 5), 4, 67
    yield "room for the first part alone", 4, plans.diagonal(4, 5), 1, 67
    yield "room for all", 4, plans.diagonal(4, 5), 5
    yield "no room is needed", 4, [0] * 16, 0
    yield "no room is needed, some is lent", 4, [0] * 16, 1, 9
