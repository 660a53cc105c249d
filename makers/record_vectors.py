"""The stored vectors of plan records: plans sound and damaged in each way, opened and read step by step, and records written."""
import reference as ref
import tape

IDLE = ref.IDLE
STICKY = 3  # steps that are made from the end, or from a record that is not well formed, on


def join(parts):
    """The plan that parts, pairs of bytes and how often, lay."""
    return b"".join(data * times for data, times in parts)


def called(letter, word, edition):
    """A call's letter and its word in a case's name: the second edition's letters are capitals."""
    return (letter.upper(), f"second {word}") if edition == ref.SECOND else (letter, word)


def read_case(name, n, parts, steps=None, edition=ref.FIRST):
    """Opens a plan and makes steps, by default up to the last record and then some more."""
    letter, word = called("r", "read", edition)
    title = f"{word} {name}:"
    answer, reader = ref.open_plan(n, join(parts), edition)
    text = f"{title}{tape.answer_text(answer)}\n"
    made, stuck = 0, 0
    while made != steps and stuck != STICKY:
        given, reader = ref.step(reader)
        stuck += given.kind != "record"
        made += 1
        text += f"{step_words(given)} hold {given.hold} sum {tape.checksum(given.outputs)}\n"
    return tape.lay(*parts) + tape.step(letter, 0, n, made, title.encode()), text


def step_words(given):
    return f"malformed {given.place}" if given.kind == "malformed" else given.kind


def write_case(name, n, hold, outputs, room, edition=ref.FIRST):
    """Writes one record into a lent buffer of so many bytes."""
    letter, word = called("w", "write", edition)
    title = f"{word} {name}:"
    answer, buffer = ref.write_record(n, hold, outputs, bytes([tape.BLANK] * room), edition)
    text = f"{title}{tape.answer_text(answer)} sum {tape.checksum(buffer)}\n"
    return tape.lay((bytes(outputs), 1)) + tape.step(letter, room, n, hold, title.encode()), text


# ---- Sound records, and ways to damage one


def sound(n, k=0, edition=ref.FIRST):
    """A well-formed record: a rotation, with every third input idle."""
    outputs = [IDLE if i % 3 == 2 and n > 1 else (i + k) % n for i in range(n)]
    return ref.record_bytes(257 * k + 1, n, outputs, edition)


def changed(record, at, *values):
    return record[:at] + bytes(values) + record[at + len(values) :]


def damages(n, edition=ref.FIRST):
    """(name, change) of each way in which a record of N ports, N at least 3 and below the edition's most, is not well formed."""
    last = edition.record - 1
    yield "hold 0", lambda r: changed(r, 0, 0, 0)
    yield "N one more", lambda r: changed(r, 2, n + 1)
    yield "N one less", lambda r: changed(r, 2, n - 1)
    yield "N of 0", lambda r: changed(r, 2, 0)
    yield "spare byte 1", lambda r: changed(r, 3, 1)
    yield "spare byte 255", lambda r: changed(r, 3, 255)
    yield "first output N", lambda r: changed(r, 4, n)
    yield "last output N", lambda r: changed(r, 3 + n, n)
    yield "output 254", lambda r: changed(r, 4, 254)
    yield "output twice", lambda r: changed(r, 4, 0, 0)
    yield "first output again last", lambda r: changed(changed(r, 4, 1), 3 + n, 1)
    yield "later output 0", lambda r: changed(r, 4 + n, 0)
    yield "last byte not idle", lambda r: changed(r, last, edition.width - 1)
    yield "last byte 254", lambda r: changed(r, last, 254)


def harmless(n):
    """(name, change) of what looks like damage and is none."""
    yield "hold of 256", lambda r: changed(r, 0, 0, 1)
    yield "hold of 65,535", lambda r: changed(r, 0, 255, 255)
    yield "two idle", lambda r: changed(r, 4, IDLE, IDLE)
    yield "all idle", lambda r: changed(r, 4, *[IDLE] * n)


def reads():
    for n in (1, 2, 5, 63, 64):
        yield read_case(f"N = {n}, sound", n, [(sound(n, k), 1) for k in range(4)])
    yield read_case("an empty plan", 7, [])
    for n in (3, 7):
        for name, change in [*damages(n), *harmless(n)]:
            for where, k in (("first", 0), ("middle", 1), ("last", 2)):
                records = [sound(n, m) for m in range(3)]
                records[k] = change(records[k])
                yield read_case(f"N = {n}, {name}, {where} of three", n, [(record, 1) for record in records])
    for name, at, value in (("output 64", 4, 64), ("output twice", 5, sound(64)[4]), ("hold 0", 0, 0), ("N of 63", 2, 63), ("two idle", 4, IDLE)):
        yield read_case(f"N = 64, {name}", 64, [(sound(64), 1), (changed(sound(64), at, value), 1)])
    yield read_case("two damaged records", 4, [(sound(4), 2), (changed(sound(4), 3, 9), 1), (changed(sound(4), 0, 0), 1)])
    yield read_case("a record of another N first", 4, [(sound(5), 1), (sound(4), 1)])
    for tail in (1, 4, 67):
        yield read_case(f"a tail of {tail}", 4, [(sound(4), 2), (sound(4)[:tail], 1)])
        yield read_case(f"only a tail of {tail}", 4, [(sound(4)[:tail], 1)])
    yield read_case("a tail after a damaged record", 4, [(changed(sound(4), 0, 0), 1), (b"\0", 1)])
    for n in (0, 65, 255, 256, 65_535):
        yield read_case(f"N = {n}", n, [(changed(sound(4), 2, n % 256), 2)])
        yield read_case(f"N = {n} and a tail", n, [(sound(4), 1), (b"\0", 3)])
    yield read_case("8,192 records", 2, [(sound(2), 8_192)], 2)
    yield read_case("8,193 records", 2, [(sound(2), 8_193)])
    yield read_case("8,193 records and a tail", 2, [(sound(2), 8_193), (b"\0", 1)])
    yield read_case("8,193 records for N = 0", 0, [(sound(2), 8_193)])


def writes():
    for n in (1, 2, 5, 63, 64):
        yield write_case(f"N = {n}", n, 65_535 // n, sound(n)[4:], 70)
    for name, change in [*damages(5), *harmless(5)]:
        record = change(sound(5))
        if record[2:4] != sound(5)[2:4]:
            continue  # a writer is not handed these two bytes
        yield write_case(f"N = 5, {name}", 5, record[0] + 256 * record[1], record[4:], 100)
    for n in (0, 65, 255, 256):
        yield write_case(f"N = {n}", n, 1, sound(4)[4:], 68)
        yield write_case(f"N = {n}, hold 0, no room", n, 0, sound(4)[4:], 0)
    for room in (0, 1, 67, 68, 69, 255):
        yield write_case(f"room of {room} bytes", 4, 258, sound(4)[4:], room)
    yield write_case("no room and hold 0", 4, 0, sound(4)[4:], 67)


def cases():
    return [*reads(), *writes()]
