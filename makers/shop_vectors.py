"""The stored vectors of the open shop: demands and switching times of every kind, schedules sound and damaged in each way, and every refusal."""
import random

import plan_vectors as plans
import reference as ref
import tape

LARGEST = 4_096  # the most tasks that a plan can have
SHORT = 12  # schedules of up to so many tasks are printed


# ---- The planner


def plan_case(name, n, cells, d, room, more=0):
    """One call of the planner, and what the reader says of the tasks that it wrote."""
    title = f"shop {name}:"
    answer, buffer = ref.shop_plan(n, cells, d, bytes([tape.BLANK] * (room * ref.TASK + more)))
    steps = tape.lay((d.to_bytes(2, "little"), 1)) + tape.lay_cells(cells) + tape.step("o", more, n, room, title.encode())
    written = buffer[: answer.records * ref.TASK]
    text = f"{title}{tape.answer_text(answer)} sum {tape.checksum(buffer)}\n"
    if answer.records <= SHORT:
        text += "".join(f" {r[0]} {r[1]} {number(r, 4)} {number(r, 8)}\n" for r in records(written))
    return steps, f"{text}read again:{tape.answer_text(ref.read_tasks(n, written))}\n"


def records(written):
    return [written[k : k + ref.TASK] for k in range(0, len(written), ref.TASK)]


def number(record, at):
    return int.from_bytes(record[at : at + 4], "little")


def fitting(name, n, cells, d, spare=0, more=0):
    """The call with just the room that the plan needs, and some to spare."""
    return plan_case(name, n, cells, d, sum(1 for cell in cells if cell) + spare, more)


PAGE = [3, 2, 0, 1, 0, 2, 4, 0, 2, 1, 0, 3, 1, 0, 2, 2]  # the example of docs/SHOP.md


def demands():
    """(name, N, cells, d) of every demand that is planned."""
    yield "docs/SHOP.md", 4, PAGE, 1
    for d in (0, 1, 65_535):
        yield f"N = 1, d = {d}", 1, [5], d
        yield f"N = 1, nothing asked, d = {d}", 1, [0], d
        yield f"N = 2, several finish at once, d = {d}", 2, [4, 4, 4, 4], d
        yield f"N = 2, one waits for its output, d = {d}", 2, [1, 0, 3, 0], d
        yield f"N = 2, one waits for its input, d = {d}", 2, [1, 3, 0, 0], d
        yield f"N = 3, the lowest is taken, d = {d}", 3, [2, 2, 2, 1, 1, 1, 3, 3, 3], d
    for n in (1, 2, 3, 5, 15, 63, 64):
        for d in (0, 65_535):
            yield f"N = {n}, every cell 65,535 / N, d = {d}", n, [65_535 // n] * (n * n), d
        yield f"N = {n}, one line full", n, plans.one_line(n, n - 1, 65_535, False), 3
        yield f"N = {n}, one column full", n, plans.one_line(n, 0, 65_535, True), 0
    rng = random.Random(11)
    for n in (2, 3, 4, 7, 16, 33):
        yield f"N = {n}, diagonal", n, plans.diagonal(n, 9), 2
        yield f"N = {n}, triangle", n, plans.triangle(n, 5), 1
        yield f"N = {n}, staircase", n, plans.staircase(n, 3), 0
        yield f"N = {n}, sparse", n, plans.sparse(rng, n, 900, 0.2), 65_535
    for n in (2, 3, 7, 16, 63, 64):
        yield f"N = {n}, dense", n, plans.dense(rng, n, 65_535 // (2 * n)), rng.choice((0, 1, 9))
    for n in (2, 3, 7, 33, 64):
        yield f"N = {n}, small times, many finish at once", n, plans.dense(rng, n, 2), rng.choice((0, 1))


def refused_plans():
    """Every refusal, and several faults at once."""
    for n in (0, 65, 256):
        yield f"N of {n}", n, [0] * min(n * n, 4_225), 1, 4
    yield "N of 65, cells over", 65, [65_536] * 3, 1, 0
    yield "no cells", 2, [], 1, 4
    yield "a cell too few", 3, [1] * 8, 1, 9
    yield "a cell too many and over", 2, [65_536] * 5, 1, 0
    yield "one cell of 65,536", 1, [65_536], 0, 2
    yield "one cell of 65,535, d on top", 1, [65_535], 65_535, 2
    yield "input 1 of 65,536", 3, [0, 0, 0, 65_535, 0, 1, 0, 0, 0], 1, 9
    yield "output 2 of 65,536", 3, [0, 0, 1, 0, 0, 65_534, 0, 0, 1], 1, 9
    yield "a line over and no room", 2, [65_535, 65_535, 65_535, 65_535], 1, 0
    yield "no room", 2, [2, 1, 1, 2], 1, 0
    yield "a byte too few", 2, [2, 1, 1, 2], 1, 3, 11
    yield "room for all", 2, [2, 1, 1, 2], 1, 4
    yield "no room is needed", 4, [0] * 16, 1, 0
    yield "no room is needed, some is lent", 4, [0] * 16, 1, 1, 9
    yield "N of 64, a task too few", 64, [1] * 4_096, 1, LARGEST - 1, 11


# ---- The reader


def read_case(name, n, parts):
    """One call of the reader; parts are tasks, or bytes as they are."""
    title = f"tasks {name}:"
    data = b"".join(ref.task_bytes(part) if isinstance(part, ref.Task) else part for part in parts)
    return tape.lay((data, 1)) + tape.step("a", 0, n, 0, title.encode()), title + tape.answer_text(ref.read_tasks(n, data)) + "\n"


T = ref.Task
SOUND = [T(0, 0, 0, 4), T(1, 1, 0, 9), T(2, 2, 3, 5), T(2, 0, 5, 6), T(0, 2, 6, 7)]  # N = 3, with a gap and one touching another


def faults():
    """(name, the fourth record) of each fault by itself."""
    yield "input N", T(3, 0, 5, 6)
    yield "input 255", T(255, 0, 5, 6)
    yield "output N", T(2, 3, 5, 6)
    yield "output 255", T(2, 255, 5, 6)
    yield "the first zero byte", ref.task_bytes(T(2, 0, 5, 6), (1, 0))
    yield "the second zero byte", ref.task_bytes(T(2, 0, 5, 6), (0, 128))
    yield "no time at all", T(2, 0, 5, 5)
    yield "end before start", T(2, 0, 5, 4)
    yield "starts before the one in front", T(2, 2, 2, 3)
    yield "overlaps on its input, the one in front", T(2, 0, 4, 6)
    yield "overlaps on its output, an earlier one", T(2, 1, 8, 9)
    yield "overlaps on its input, an earlier one", T(1, 0, 8, 9)
    yield "ends where another does", T(1, 0, 5, 9)
    yield "the same pair at one time", T(1, 1, 4, 20)


def reads():
    top = 2**32 - 1
    yield "sound", 3, SOUND
    yield "none", 3, []
    yield "one", 1, [T(0, 0, 0, 1)]
    yield "a pair twice, at times apart", 1, [T(0, 0, 0, 4), T(0, 0, 4, 5), T(0, 0, 9, 10)]
    yield "touching on the input", 2, [T(0, 0, 0, 4), T(0, 1, 4, 5)]
    yield "touching on the output", 2, [T(0, 1, 0, 4), T(1, 1, 4, 5)]
    yield "starts at no finish", 2, [T(0, 0, 7, 8), T(1, 1, 9, 10)]
    yield "equal starts, outputs rising", 4, [T(3, 0, 2, 3), T(1, 1, 2, 9), T(0, 3, 2, 4)]
    yield "equal starts, outputs falling", 4, [T(3, 1, 2, 3), T(1, 0, 2, 9)]
    yield "the latest end is not the last", 3, [T(0, 0, 0, 99), T(1, 1, 1, 2)]
    yield "the largest times", 64, [T(63, 63, 0, top - 1), T(0, 0, top - 1, top), T(63, 63, top - 1, top)]
    yield "a start at the largest time", 64, [T(63, 63, top, top)]
    for name, record in faults():
        yield f"{name}, alone", 3, [*SOUND[:3], record]
        yield f"{name}, first", 3, [record, *SOUND]
        yield f"{name}, then another fault", 3, [*SOUND[:3], record, T(9, 9, 9, 9)]
    yield "equal starts and outputs", 3, [T(0, 1, 2, 3), T(2, 1, 2, 3)]
    yield "the first of two faults", 3, [*SOUND[:2], T(3, 0, 1, 2), T(1, 1, 0, 9)]
    far = [T(0, 0, 0, 5_000), *[T(1 + k % 63, 1 + k % 63, k, k + 1) for k in range(400)]]
    yield "an overlap on the input with a record far before", 64, [*far, T(0, 1, 4_999, 5_001)]
    yield "an overlap on the output with a record far before", 64, [*far, T(1, 0, 4_999, 5_001)]
    yield "touching a record far before", 64, [*far, T(0, 0, 5_000, 5_001)]
    for n in (0, 65, 256):
        yield f"N of {n}", n, SOUND
        yield f"N of {n}, torn and bad", n, [T(9, 9, 9, 9), b"torn"]
    for size in (1, 4, 11):
        yield f"torn, {size} bytes more", 3, [*SOUND, bytes(size)]
        yield f"torn, {size} bytes alone", 3, [bytes(size)]
    yield "torn and bad", 3, [T(9, 9, 9, 9), *SOUND, b"torn"]
    yield "ports of a larger switch", 2, SOUND


def cases():
    made = [read_case(*read) for read in reads()]
    made += [fitting(*demand, k % 2, k % 3 * 5) for k, demand in enumerate(demands())]
    return made + [plan_case(*refusal) for refusal in refused_plans()]
