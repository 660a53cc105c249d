"""The stored vectors of the planners: demands of every shape, edges, and every refusal."""
import random

import reference as ref
import tape

PLANNERS = {
    "x": ("exact", ref.exact_plan),
    "d": ("doubled", ref.doubled_plan),
    "e": ("every rotation", ref.doubled_plan_every_rotation),
    "q": ("quick", ref.quick_plan),
}
LARGEST = bytes([tape.BLANK] * (ref.RECORD * 4_096))  # all the room that the program can lend
SHORT = 6  # plans of up to so many records are printed


def case(letter, name, n, cells, room, more=0):
    """One call of a planner: its steps and its lines."""
    word, planner = PLANNERS[letter]
    answer, buffer = planner(n, cells, bytes([tape.BLANK] * (room * ref.RECORD + more)))
    return written(letter, f"{word} {name}:", n, cells, room, more, answer, buffer)


def fitting(letter, name, n, cells, spare, more):
    """The call with just the records of room that the plan has, and some to spare."""
    word, planner = PLANNERS[letter]
    answer, buffer = planner(n, cells, LARGEST)
    if answer.code:
        raise ValueError(f"{word} {name} is refused: {answer}")
    room = answer.records + spare
    buffer = buffer[: answer.records * ref.RECORD] + bytes([tape.BLANK] * (spare * ref.RECORD + more))
    return written(letter, f"{word} {name}:", n, cells, room, more, answer, buffer)


def written(letter, title, n, cells, room, more, answer, buffer):
    """The steps and the lines of a call whose answer and buffer are known."""
    steps = tape.lay_cells(cells) + tape.step(letter, more, n, room, title.encode())
    return steps, lines(title, n, answer, buffer)


def lines(title, n, answer, buffer, edition=ref.FIRST):
    """What is printed of a call that writes a plan: its answer, a checksum of the lent buffer, and where they are few the first edition's records."""
    text = f"{title}{tape.answer_text(answer)} sum {tape.checksum(buffer)}\n"
    if answer.records <= SHORT and not answer.code and edition == ref.FIRST:
        text += "".join(ref.record_line(hold, outputs[:n]) + "\n" for hold, outputs in ref.read_plan(n, buffer[: answer.records * ref.RECORD])[1])
    return text


# ---- Demands


def diagonal(n, value):
    return [value if i == j else 0 for i in range(n) for j in range(n)]


def permutation(rng, n, value):
    outputs = list(range(n))
    rng.shuffle(outputs)
    return [value if outputs[i] == j else 0 for i in range(n) for j in range(n)]


def staircase(n, step):
    """Cells that grow along both sides: many different holds."""
    return [step * (i + j) for i in range(n) for j in range(n)]


def triangle(n, value):
    return [value if j <= i else 0 for i in range(n) for j in range(n)]


def dense(rng, n, most):
    return [rng.randint(0, most) for _ in range(n * n)]


def sparse(rng, n, most, share):
    return [rng.randint(1, most) if rng.random() < share else 0 for _ in range(n * n)]


def one_line(n, k, value, column):
    """One line of the given sum, spread over its cells as evenly as it goes."""
    share = [value // n + (1 if m < value % n else 0) for m in range(n)]
    return [share[i if column else j] if (j if column else i) == k else 0 for i in range(n) for j in range(n)]


def one_cell(n, i, j, value):
    return [value if (a, b) == (i, j) else 0 for a in range(n) for b in range(n)]


def shapes(n, rng):
    """Demands of N ports by name, each line at most 65,535."""
    top = 65_535 // n
    yield "zero", [0] * (n * n)
    yield "equal cells of 1", [1] * (n * n)
    yield "diagonal", diagonal(n, 65_535)
    yield "input line of 65,535", one_line(n, n - 1, 65_535, False)
    yield "output line of 65,535", one_line(n, n // 2, 65_535, True)
    yield "permutation", permutation(rng, n, 700)
    yield "two permutations", [a + b for a, b in zip(permutation(rng, n, 3), permutation(rng, n, 5))]
    yield "staircase", staircase(n, 1)
    yield "triangle", triangle(n, 2)
    yield "sparse", sparse(rng, n, min(top, 900), 0.2)
    yield "dense", dense(rng, n, top)


SMALL = [  # the demands of the small plans (§15)
    ("P1", 2, [2, 1, 1, 2]),
    ("P4", 2, [3, 0, 1, 0]),
    ("P6", 3, [1, 0, 1, 0, 1, 1, 1, 1, 0]),
    ("P8", 1, [5]),
    ("P9", 4, diagonal(4, 5)),
    ("P10", 1, [0]),
    ("T = 4 at N = 4", 4, diagonal(4, 4)),
    ("T = 5 at N = 4, one cell", 4, one_cell(4, 2, 1, 5)),
    ("T = 4 at N = 4, spread", 4, [1] * 16),
    ("T = 5 at N = 4, spread", 4, [1, 1, 1, 1, 1, 1, 1, 2, 2, 1, 1, 1, 1, 2, 1, 1]),
]


def small_shapes(n, rng):
    """The shapes of larger N whose plans the plain reference makes soon."""
    for name, cells in shapes(n, rng):
        if name not in ("dense", "sparse"):
            yield name, cells
    yield "sparse", sparse(rng, n, 40, 0.08)
    yield "dense of 0 to 2", dense(rng, n, 2)


def demands():
    """(name, N, cells) of every demand that is planned."""
    rng = random.Random(1)
    for name, n, cells in SMALL:
        yield name, n, cells
    for n in (1, 2, 3, 5, 8):
        for name, cells in shapes(n, rng):
            yield f"N = {n} {name}", n, cells
    for n in (16, 33):
        for name, cells in small_shapes(n, rng):
            yield f"N = {n} {name}", n, cells
    yield "N = 16 dense", 16, dense(rng, 16, 4_000)
    yield "N = 33 dense", 33, dense(rng, 33, 1_985)
    for name, cells in small_shapes(64, rng):
        if name not in ("staircase", "triangle"):
            yield f"N = 64 {name}", 64, cells
    yield "N = 64 dense of 0 to 15", 64, dense(rng, 64, 15)


def exact_demands():
    yield from demands()
    yield from scarce()


def doubled_demands():
    """The exact plan's demands, and one whose exact plan the plain reference does not make soon."""
    yield from exact_demands()
    yield "N = 64 dense", 64, dense(random.Random(3), 64, 1_180)


def every_demands():
    """Some of the doubled plan's demands, of each N the first few: what the rules share is in the first part."""
    seen = {}
    for name, n, cells in doubled_demands():
        seen[n] = seen.get(n, 0) + 1
        if n < 16 or seen[n] <= 5 or name == "N = 64 dense":
            yield name, n, cells


def scarce():
    """(name, N, cells) of demands that never leave a setting to choose by the lowest output alone."""
    yield "stranded input", 3, [1, 1, 0, 1, 0, 1, 1, 0, 0]
    yield "chain of moves", 5, [1, 1, 0, 0, 0, 0, 1, 1, 0, 0, 0, 0, 1, 1, 0, 0, 0, 0, 1, 1, 1, 0, 0, 0, 1]
    yield "last input decides", 4, [2, 1, 0, 0, 0, 2, 1, 0, 0, 0, 2, 1, 1, 0, 0, 2]
    yield "hold of 65,535", 2, [65_535, 0, 0, 65_535]
    yield "one slot less", 2, [65_534, 1, 1, 65_534]


def refusals(letter):
    """Every refusal of a planner, and several faults at once."""
    limit = 1_024 if letter == "q" else 65_535
    make = lambda name, n, cells, room, more=0: case(letter, name, n, cells, room, more)
    yield make("N of 0", 0, [], 4)
    yield make("N of 0, one cell, no room", 0, [9], 0)
    yield make("N of 65", 65, [0] * 4_225, 4)
    yield make("N of 65, cells over", 65, [65_536] * 3, 0)
    yield make("N of 256", 256, [1], 4)
    yield make("N of 65,535", 65_535, [], 4)
    yield make("no cells", 2, [], 4)
    yield make("a cell too few", 3, [1] * 8, 9)
    yield make("a cell too many", 3, [1] * 10, 9)
    yield make("cells too few and over", 2, [2**32 - 1] * 3, 0)
    yield make("N of 64, a cell too few", 64, [0] * 4_095, 4)
    yield make("one cell of 65,536", 1, [65_536], 2)
    yield make("input 1 of 65,536", 3, [0, 0, 0, 65_535, 0, 1, 0, 0, 0], 9)
    yield make("output 2 of 65,536", 3, [0, 0, 1, 0, 0, 65_534, 0, 0, 1], 9)
    yield make("output 0 before output 1", 2, [40_000, 30_000, 40_000, 20_000], 0)
    yield make("both inputs", 2, [65_535, 65_535, 65_535, 65_535], 0)
    yield make("input 2 and output 0", 3, [65_535, 0, 0, 1, 0, 0, 0, 65_535, 1], 0)
    yield make("cells of 2^32 - 1", 5, [2**32 - 1] * 25, 0)
    yield make("last cell of 2^32 - 1", 8, [0] * 63 + [2**32 - 1], 0)
    yield make("a line whose sum is 2^32", 2, [2**31, 2**31, 0, 0], 4)
    yield make("N of 64, input 63 over", 64, [0] * 4_032 + [1_024] * 64, 0)
    yield make("N of 64, output 63 over", 64, ([0] * 63 + [1_024]) * 64, 0)
    yield make("no room", 2, [2, 1, 1, 2], 0)
    yield make("a byte too few", 2, [2, 1, 1, 2], 1, 67)
    yield make("a record too few", 3, [1, 0, 1, 0, 1, 1, 1, 1, 0], 1)
    yield make("room to spare", 3, [1, 0, 1, 0, 1, 1, 1, 1, 0], 8, 5)
    yield make("no room is needed", 4, [0] * 16, 0)
    yield make("no room is needed, some is lent", 4, [0] * 16, 1, 9)
    yield make("the largest line and too little room", 2, [limit, 0, 0, limit], 0, 67)
    if letter == "d":
        yield make("room for the first part alone", 4, diagonal(4, 5), 1, 67)
        yield make("room for the one rotation held", 4, diagonal(4, 5), 2)
        yield make("no rotation is held, a record too few", 4, [3] * 16, 3, 67)
        yield make("no rotation is held, room for all", 4, [3] * 16, 4)
        yield make("2N records, one too few", 4, [2] * 4 + [1] * 4 + [0] * 8, 7, 67)
        yield make("2N records, room for all", 4, [2] * 4 + [1] * 4 + [0] * 8, 8)
        yield make("the largest remainder in the last pair", 3, [3, 0, 0, 0, 4, 0, 0, 0, 5], 9)
    if letter == "e":
        yield make("room for the first part alone", 4, diagonal(4, 5), 1, 67)
        yield make("a rotation too few", 4, diagonal(4, 5), 4, 67)
        yield make("room for all rotations", 4, diagonal(4, 5), 5)
        yield make("2N records, one too few", 4, [3] * 16, 7)
        yield make("2N records, room for all", 4, [3] * 16, 8)
    if letter == "q":
        yield make("T of 1,025", 1, [1_025], 4)
        yield make("T of 1,025 in one output and no room", 2, [1_000, 0, 25, 0], 0)
        yield make("T of 65,535", 2, [0, 65_535, 0, 0], 0)
        yield make("T of 65,536", 2, [0, 65_536, 0, 0], 0)
        yield make("T of 1,024 and no room", 1, [1_024], 0)


def quick_demands():
    """(name, N, cells) with T of at most 1,024."""
    rng = random.Random(2)
    for name, n, cells in SMALL:
        yield name, n, cells
    yield from scarce_quick()
    for n in (1, 2, 3, 5, 8, 16, 33, 64):
        top = 1_024 // n
        yield f"N = {n} zero", n, [0] * (n * n)
        yield f"N = {n} equal cells of 1", n, [1] * (n * n)
        yield f"N = {n} diagonal of 9", n, diagonal(n, 9)
        yield f"N = {n} permutation", n, permutation(rng, n, 4)
        yield f"N = {n} triangle", n, triangle(n, 1)
        yield f"N = {n} input line of 1,024", n, one_line(n, n - 1, 1_024, False)
        yield f"N = {n} output line of 1,024", n, one_line(n, n // 2, 1_024, True)
        yield f"N = {n} sparse", n, sparse(rng, n, min(top, 9), 0.3)
        yield f"N = {n} dense", n, dense(rng, n, min(top, 40 if n < 16 else 3))


def scarce_quick():
    yield "far longer than T", 8, wasteful()
    yield "highest inputs first", 3, [0, 0, 2, 0, 2, 0, 2, 0, 0]


def wasteful():
    """A demand of N = 8, T = 7 whose quick cover is far longer than T, found by a seeded search."""
    rng, best, most = random.Random(7), None, 0
    for _ in range(300):
        cells = [0] * 64
        for _ in range(40):
            i, j = rng.randrange(8), rng.randrange(8)
            if sum(cells[i * 8 : i * 8 + 8]) < 7 and sum(cells[j::8]) < 7:
                cells[i * 8 + j] += 1
        records = len(ref.quick_list(8, cells))
        if ref.longest_line(8, cells) == 7 and records > most:
            best, most = cells, records
    return best


DEMANDS = {"x": exact_demands, "d": doubled_demands, "e": every_demands, "q": quick_demands}


def cases():
    made = []
    for letter in DEMANDS:
        for k, (name, n, cells) in enumerate(DEMANDS[letter]()):
            made.append(fitting(letter, name, n, cells, spare=k % 2, more=k % 3 * 34))
        made += refusals(letter)
    return made
