"""The stored vectors of the move between the editions, each moved back: the edges of N, each way of damage, the most records and one more,
buffers a byte short, and every code in its place."""
import random

import reference as ref
import tape
from record_vectors import changed, damages, harmless, join, sound

IDLE = ref.IDLE
ROOM = 1_081_599  # all the room that the program can lend
BACK = 139_264  # and for the way back


class Way:
    """A move: its letter and name, the edition of what it reads, and that of what it writes; the way back reads what it wrote."""

    def __init__(self, letter, word, source, target, back):
        self.letter, self.word, self.source, self.target, self.back = letter, word, source, target, back


WAYS = (Way("2", "to second", ref.FIRST, ref.SECOND, ref.MOVABLE), Way("1", "to first", ref.MOVABLE, ref.FIRST, ref.FIRST))


def move_case(way, name, n, parts, records=None, more=0):
    """Moves a plan into room for so many records, by default as many as there are, and bytes more; and back into as many bytes as were read."""
    title = f"{way.word} {name}:"
    plan = join(parts)
    room = len(plan) // way.source.record if records is None else records
    assert room * way.target.record + more <= ROOM
    answer, buffer = ref.move_plan(n, plan, bytes([tape.BLANK] * (room * way.target.record + more)), way.source, way.target)
    written = buffer[: answer.records * way.target.record]
    again, returned = ref.move_plan(n, written, bytes([tape.BLANK] * min(len(plan), BACK)), way.back, way.source)
    text = f"{title}{tape.answer_text(answer)} sum {tape.checksum(buffer)}\nand back:{tape.answer_text(again)} sum {tape.checksum(returned)}\n"
    return tape.lay(*parts) + tape.step(way.letter, more, n, room, title.encode()), text


def moved(way):
    rng = random.Random(8)
    good = lambda n, k=0: sound(n, k, way.source)
    for n in (1, 2, 63, 64):
        yield move_case(way, f"N = {n}, sound", n, [(good(n, k), 1) for k in range(4)])
        yield move_case(way, f"N = {n}, all idle", n, [(ref.record_bytes(65_535, n, [IDLE] * n, way.source), 2)], more=9)
        some = [(rng.randint(1, 65_535), rng.sample([*range(n), *[IDLE] * n], n)) for _ in range(9)]
        yield move_case(way, f"N = {n}, nine records", n, [(ref.record_bytes(hold, n, outputs, way.source), 1) for hold, outputs in some], more=n)
    yield move_case(way, "an empty plan", 64, [])
    yield move_case(way, "an empty plan, room for two", 64, [], 2, 1)
    for name, change in harmless(7):
        yield move_case(way, f"N = 7, {name}", 7, [(good(7), 1), (change(good(7, 1)), 1)])
    for records, more in ((3, 0), (3, 67), (3, 131), (4, 1), (2, 67), (2, 131), (1, 0), (0, 0), (0, 67)):
        if more < way.target.record:
            yield move_case(way, f"three records into room for {records} and {more} bytes", 64, [(good(64), 3)], records, more)
    yield move_case(way, "8,192 records", 64, [(good(64), 8_192)], more=5)
    yield move_case(way, "8,192 records, a byte short", 64, [(good(64), 8_192)], 8_191, way.target.record - 1)
    most = BACK // way.source.record
    yield move_case(way, f"{most:,} records of hold 65,535, the most that are moved back", 2, [(ref.record_bytes(65_535, 2, [1, 0], way.source), most)])
    yield move_case(way, f"{most + 1:,} records, one more than are moved back", 2, [(good(2), most + 1)])


def refused(way):
    """Each code with the faults that come after it; N and the records of the second edition that the first has no room for."""
    good = lambda n, k=0: sound(n, k, way.source)
    size, byte = way.source.record, way.source.byte
    bad, torn = (changed(good(3), 0, 0, 0), 1), (good(3)[: size - 1], 1)
    for n in (0, 65, 127, 128, 129, 255, 256):
        record = ref.record_bytes(1, n % 256, [IDLE], way.source)
        yield move_case(way, f"N = {n}", n, [(record, 2)])
        yield move_case(way, f"N = {n}, 9, 11, 5", n, [bad, torn], 0)
    for name, change in damages(7, way.source):
        yield move_case(way, f"N = 7, {name}", 7, [(good(7), 1), (change(good(7, 1)), 1)])
    for other in {0, 1, 2, 3} - {byte}:
        yield move_case(way, f"the byte {other}", 7, [(changed(good(7), 3, other), 1)])
    for output in (64, 65, 127, 128, 254):
        yield move_case(way, f"N = 64, output {output}", 64, [(ref.record_bytes(1, 64, [output], way.source), 1)])
    for tail in (1, 4, 64, size - 1):
        yield move_case(way, f"a tail of {tail}", 7, [(good(7), 2), (good(7)[:tail], 1)])
    yield move_case(way, "9, 10, 11, 5", 3, [bad, (good(3), 8_193), torn], 0)
    yield move_case(way, "9, 11, 5", 3, [bad, torn], 0)
    yield move_case(way, "10, 11, 5", 3, [(good(3), 8_192), bad], 0)
    yield move_case(way, "8,193 records", 3, [(good(3), 8_193)], 8_192)
    yield move_case(way, "32,768 records", 3, [(good(3), 32_768)], 0)
    yield move_case(way, "11, 5", 3, [(good(3), 2), bad], 0)
    yield move_case(way, "11 at the last of 8,192", 3, [(good(3), 8_191), (changed(good(3), size - 1, 0), 1)], 0)
    yield move_case(way, "a plan of the other edition", 3, [(sound(3, 0, way.target), 1)])


def cases():
    return [case for way in WAYS for maker in (moved, refused) for case in maker(way)]
