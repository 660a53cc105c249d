"""The stored vectors of the lister: lists that are planned, every refusal, and lists longer than what is read."""
import random
import struct

import reference as ref
import tape


def case(name, stdin):
    title = f"list {name}:\n"
    return tape.lay((stdin, 1)) + tape.step("t", follow=title.encode()), title + ref.lister(stdin)


def wish(i, j, slots, spare=0):
    """A wish record for a number that binary32 holds exactly."""
    return ref.wish_record(i, j, int.from_bytes(struct.pack("<f", slots), "little"), spare)


def wishes(n, cells):
    """The wish list of a whole demand."""
    return b"".join(wish(k // n, k % n, cell) for k, cell in enumerate(cells))


NAN, INFINITE, BELOW, ABOVE = 0x7FC00001, 0xFF800000, 0x80000001, 0x477FFF01  # bits of wishes that are refused


def plans():
    """Lists that are planned."""
    rng = random.Random(8)
    example = wish(0, 0, 2) + wish(0, 1, 1) + wish(1, 0, 0.5) + wish(1, 1, 1.5)
    yield case("the specification's example", example)
    yield case("its records the other way round", b"".join(example[k : k + 8] for k in (24, 16, 8, 0)))
    yield case("one wish", wish(0, 0, 7))
    yield case("one wish of zero", wish(0, 0, 0))
    yield case("all zero, N = 3, one minus zero", wish(2, 0, 0) + ref.wish_record(0, 1, 0x80000000))
    yield case("the smallest wish", ref.wish_record(1, 0, 1))
    yield case("the largest wish", wish(0, 0, 65_535))
    yield case("an output without wishes", wish(0, 2, 3) + wish(1, 0, 0.25))
    yield case("N by an input", wish(5, 0, 1))
    yield case("N by an output", wish(0, 5, 1))
    yield case("N = 16, one wish", wish(15, 15, 4))
    yield case("N = 16, all pairs", wishes(16, [rng.randint(0, 3) for _ in range(256)]))
    yield case("N = 16, all pairs zero", wishes(16, [0] * 256))
    yield case("N = 16, a long plan", wishes(16, [rng.randint(0, 4_000) for _ in range(256)]))
    yield case("N = 6", wishes(6, [rng.randint(0, 900) / 4 for _ in range(36)]))
    yield case("a line of 65,535", wish(0, 0, 65_534) + wish(1, 0, 1))


def refusals():
    """Each code that the lister can give, and which of two is given first."""
    yield case("nothing", b"")
    for size in range(1, 8):
        yield case(f"{size} bytes", wish(0, 0, 2)[:size])
    yield case("N = 17 by an input", wish(0, 0, 1) + wish(16, 0, 1))
    yield case("N = 17 by an output", wish(0, 16, 1) + wish(0, 0, 1))
    yield case("N = 256", wish(3, 255, 1))
    yield case("N = 17 and a tail", wish(16, 0, 1) + b"\0")
    yield case("N = 17, a NaN and a spare byte", ref.wish_record(0, 0, NAN, 1) + wish(16, 0, 1))
    yield case("N by a faulty record", ref.wish_record(4, 2, NAN) + wish(0, 0, 1))
    yield case("input 0 over", wish(0, 0, 65_535) + wish(0, 1, 1))
    yield case("input 2 over", wish(2, 0, 40_000) + wish(2, 1, 25_536))
    yield case("output 1 over", wish(0, 1, 65_535) + wish(2, 1, 0.125))
    yield case("input 1 and output 0 over", wish(0, 0, 65_535) + wish(1, 0, 65_535) + wish(1, 1, 65_535))
    yield case("a NaN", wish(0, 0, 1) + ref.wish_record(1, 0, NAN))
    yield case("an infinity", ref.wish_record(1, 0, INFINITE))
    yield case("below zero", wish(0, 0, 1) + wish(0, 1, 1) + ref.wish_record(1, 0, BELOW))
    yield case("above 65,535", wish(0, 0, 1) + ref.wish_record(1, 0, ABOVE))
    yield case("a tail of one byte", wish(0, 0, 1) + b"\0")
    yield case("a tail and a NaN before it", ref.wish_record(0, 0, NAN) + wish(1, 1, 1)[:7])
    yield case("a spare byte", wish(0, 0, 1) + wish(0, 1, 1, 1))
    yield case("the other spare byte", wish(0, 0, 1) + wish(0, 1, 1, 256))
    yield case("a spare byte, named, a NaN", wish(0, 0, 1) + ref.wish_record(0, 0, NAN, 1))
    yield case("named twice", wish(0, 0, 1) + wish(1, 1, 1) + wish(0, 0, 1))
    yield case("named twice, the first a zero", wish(0, 0, 0) + wish(0, 0, 1))
    yield case("named twice, a NaN", wish(0, 0, 1) + ref.wish_record(0, 0, NAN))
    yield case("two faults, the first counts", ref.wish_record(0, 0, ABOVE) + ref.wish_record(1, 1, BELOW))
    yield case("a line over and a fault", wish(0, 0, 65_535) + wish(0, 1, 65_535) + ref.wish_record(1, 1, BELOW))


def long_lists():
    """Only the first 4,096 bytes count; 512 records must name a pair twice."""
    pairs = wishes(16, [k % 5 for k in range(256)])
    yield case("512 records", pairs + pairs)
    yield case("512 records and a byte", pairs + pairs + b"\0")
    yield case("512 records and a port of 200", pairs + pairs + wish(200, 0, 1))
    yield case("512 records, the last a port of 200", pairs + pairs[:-8] + wish(200, 0, 1))
    yield case("a NaN at record 255, 600 records", pairs[:-8] + ref.wish_record(15, 15, NAN) + pairs + pairs[:704])
    yield case("the same record 1,000 times", wish(0, 0, 1) * 1_000)


def cases():
    return [*plans(), *refusals(), *long_lists()]
