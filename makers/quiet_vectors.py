"""The stored vectors of the quiet plan and of the least total: limits from 1 to 2^64 - 1, N odd and even, the edges, every refusal."""
import random

import grating_vectors as grating
import plan_vectors as plans
import reference as ref
import tape

MOST = 2**64 - 1


def plan_case(name, n, cells, limit, room, more=0):
    """One call of the planner, and the report of the plan that it wrote."""
    title = f"quiet {name}, L = {limit}:"
    answer, buffer = ref.grating_quiet(n, cells, limit, bytes([tape.BLANK] * (room * ref.RECORD + more)))
    steps = tape.lay_limit(limit, cells) + tape.step("u", more, n, room, title.encode())
    text = f"{title}{tape.answer_text(answer)} sum {tape.checksum(buffer)}\n"
    written = buffer[: answer.records * ref.RECORD]
    if answer.records <= plans.SHORT and not answer.code:
        text += "".join(ref.record_line(hold, outputs[:n]) + "\n" for hold, outputs in ref.read_plan(n, written)[1])
    return steps, f"{text}reported:{grating.reported(n, written, grating.PRINTED)}"


def least_case(name, n, cells, limit):
    title = f"least {name}, L = {limit}:"
    steps = tape.lay_limit(limit, cells) + tape.step("y", 0, n, 0, title.encode())
    return steps, f"{title}{tape.answer_text(ref.grating_least(n, cells, limit))}\n"


def demands():
    """(name, N, cells) of every demand that is planned."""
    yield "docs/GRATING.md", 5, grating.PAGE
    yield "three ports", 3, [3, 1, 0, 0, 2, 2, 1, 0, 2]
    rng = random.Random(28)
    for n in (1, 2, 7, 8):
        yield f"N = {n} nothing", n, [0] * (n * n)
        yield f"N = {n} one pair", n, plans.one_cell(n, n // 2, n // 3, 65_535)
        yield f"N = {n} diagonal", n, plans.diagonal(n, 9)
        yield f"N = {n} equal cells", n, [3] * (n * n)
        yield f"N = {n} mixed", n, plans.dense(rng, n, 99)
    for n in (63, 64):
        yield f"N = {n} diagonal", n, plans.diagonal(n, 5)


def limits(n):
    """1, 2, 3, N, over N, and the largest, each once."""
    return sorted({1, 2, 3, n, n + 1, MOST})


def planned(name, n, cells, limit, k):
    """With the room that the plan takes, one record less, or as much as the cells that are not zero."""
    records = len(ref.quiet_list(n, cells, limit))
    asked = sum(cell > 0 for cell in cells)
    return plan_case(name, n, cells, limit, [records, max(records - 1, 0), max(asked - 1, records), asked][k % 4], k % 3 * 34)


def large():
    """More of the largest switches: few, since their cells fill the tape."""
    rng = random.Random(29)
    for n, limit in ((63, 1), (64, 2)):
        cells = [cell if rng.random() < 0.05 else 0 for cell in plans.dense(rng, n, 400)]
        yield f"N = {n} sparse", n, cells, limit
        yield f"N = {n} permutation", n, plans.permutation(rng, n, 700), limit


def refusals():
    """Every refusal, and several faults at once: the demand before the limit, the limit before the room."""
    for limit in (0, 1):
        yield "N of 0", 0, [], limit, 4
        yield "N of 65", 65, [0] * 4_225, limit, 4
        yield "N of 256", 256, [1], limit, 4
        yield "a cell too few", 3, [1] * 8, limit, 9
        yield "a cell too many", 3, [1] * 10, limit, 9
        yield "one cell of 65,536", 1, [65_536], limit, 2
        yield "output 2 of 65,536", 3, [0, 0, 1, 0, 0, 65_534, 0, 0, 1], limit, 9
    yield "a limit of 0", 2, [1, 2, 3, 4], 0, 9
    yield "a limit of 0 and no room", 2, [1, 2, 3, 4], 0, 0
    yield "a limit of 0 and nothing asked", 2, [0] * 4, 0, 0
    yield "a byte too few", 4, plans.diagonal(4, 5), 1, 3, 67
    yield "just the room", 4, plans.diagonal(4, 5), 1, 4
    yield "no room is needed", 4, [0] * 16, 1, 0


def cases():
    made = []
    for name, n, cells in demands():
        for k, limit in enumerate(limits(n)):
            made += [planned(name, n, cells, limit, k + n), least_case(name, n, cells, limit)]
    made += [planned(name, n, cells, limit, k) for k, (name, n, cells, limit) in enumerate(large())]
    for refusal in refusals():
        made += [plan_case(*refusal), least_case(*refusal[:4])]
    return made
