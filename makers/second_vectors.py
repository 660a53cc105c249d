"""The stored vectors of the second edition's planners: the edges of N, demands of each shape, refusals, and buffers a byte short."""
import reference as ref
import tape
from plan_vectors import diagonal, lines, one_cell, one_line

PLANNERS = {
    "X": ("exact", ref.exact_plan),
    "D": ("doubled", ref.doubled_plan),
    "E": ("every rotation", ref.doubled_plan_every_rotation),
    "Q": ("quick", ref.quick_plan),
}
MOST = 2_048  # records of all the room that the program can lend
SIZE = ref.SECOND.record


def case(letter, name, n, cells, room, more=0):
    """One call of a planner: its steps and its line."""
    word, planner = PLANNERS[letter]
    answer, buffer = planner(n, cells, bytes([tape.BLANK] * (room * SIZE + more)), ref.SECOND)
    return written(letter, word, name, n, cells, room, more, answer, buffer)


def written(letter, word, name, n, cells, room, more, answer, buffer):
    title = f"second {word} {name}:"
    steps = tape.lay_cells(cells) + tape.step(letter, more, n, room, title.encode())
    return steps, lines(title, n, answer, buffer, ref.SECOND)


def fitting(letter, name, n, cells, more):
    """The call with just the room that the plan takes and some bytes, and the call with one byte less than that room."""
    word, planner = PLANNERS[letter]
    answer, buffer = planner(n, cells, bytes([tape.BLANK] * (MOST * SIZE)), ref.SECOND)
    if answer.code:
        raise ValueError(f"second {word} {name} is refused: {answer}")
    records = answer.records
    buffer = buffer[: records * SIZE] + bytes([tape.BLANK] * more)
    yield written(letter, word, name, n, cells, records, more, answer, buffer)
    if records:
        lacking = bytes([tape.BLANK] * (records * SIZE - 1))
        yield written(letter, word, name + ", a byte short", n, cells, records - 1, SIZE - 1, ref.Answer(5, records), lacking)


def turned(n, k, value):
    """The pairs of rotation k ask for `value`."""
    return [value if j == (i + k) % n else 0 for i in range(n) for j in range(n)]


def shapes(n, most):
    """(name, cells) of demands whose lines are at most `most`; of the largest N only those whose plans the plain reference makes soon."""
    yield "zero", [0] * (n * n)
    yield "diagonal", diagonal(n, most)
    yield "rotation", turned(n, 5, 7)
    yield "three rotations and a cell", [sum(pair) for pair in zip(turned(n, 2, 3), turned(n, 64, 5), turned(n, 40, 6), one_cell(n, 0, n // 2, 2))]
    yield "last cell", one_cell(n, n - 1, n - 1, most // 64)
    if n <= 65:
        yield "input line", one_line(n, n - 1, most // 4, False)
        yield "output line", one_line(n, n // 2, most // 4, True)


def refusals(letter):
    make = lambda name, n, cells, room, more=0: case(letter, name, n, cells, room, more)
    yield make("N of 0", 0, [], 4)
    yield make("N of 129", 129, [0] * 16_641, 4)
    yield make("N of 129, cells over", 129, [65_536] * 3, 0)
    yield make("N of 65,535", 65_535, [], 4)
    yield make("N of 128, a cell too few", 128, [0] * 16_383, 4)
    yield make("N of 65, the cells of 64", 65, [1] * 4_096, 99)
    yield make("N of 128, input 127 over", 128, [0] * 16_256 + [512] * 128, 0)
    yield make("N of 128, output 127 over", 128, ([0] * 127 + [512]) * 128, 0)
    yield make("N of 65, output 64 over", 65, [0] * 64 + [65_536] + [0] * 4_160, 0)
    yield make("no room", 2, [2, 1, 1, 2], 0)
    yield make("room for records of the first edition", 2, [2, 1, 1, 2], 1, 4)
    if letter == "Q":
        yield make("T of 1,025", 65, one_cell(65, 64, 0, 1_025), 4)


def cases():
    made = []
    for letter in PLANNERS:
        for n in (1, 64, 65, 127, 128):
            for k, (name, cells) in enumerate(shapes(n, 1_024 if letter == "Q" else 65_535)):
                made += fitting(letter, f"N = {n} {name}", n, cells, more=k % 3 * 66)
        made += refusals(letter)
    return made
