"""The stored vectors of wishes: patterns of 32 bits, and wish lists sound and faulty in each way."""
import random
import struct
from fractions import Fraction

import reference as ref
import tape
from record_vectors import called

BEFORE = 7  # what a lent cell holds before the call
FEW = 4_096  # so many cells are printed, and of more a checksum


# ---- one wish


def bits_of(number):
    """The pattern of a number that a binary32 holds exactly."""
    bits = struct.unpack("<I", struct.pack("<f", number))[0]
    assert ref.value(bits) == Fraction(number)
    return bits


def patterns():
    """Both zeros, subnormals, each side of whole numbers, NaNs of all kinds, infinities, powers of two, and random patterns."""
    sign, quiet = 0x80000000, 0x00400000
    infinity, smallest_normal = 0x7F800000, 0x00800000
    table = [0x00000000, 0x80000000, 0x00000001, 0x3F800000, 0x3FC00000, 0x477FFF00, 0x477FFF01, 0x80000001, 0x7FC00000, 0x7F800000, 0xFF800000]
    subnormal = [0, 1, 2, 3, 0x3FFFFF, 0x400000, 0x7FFFFE, 0x7FFFFF, smallest_normal, smallest_normal + 1]
    whole = [0.5, 1, 1.5, 2, 3, 4, 127, 128, 255, 256, 257, 511, 512, 1023, 1024, 4095, 4096, 32767, 32768, 65533, 65534, 65534.5, 65535, 65536, 2 ** 24, 2 ** 31, 2 ** 32, 2 ** 64]
    sides = [bits_of(w) + d for w in whole for d in (-1, 0, 1)]
    payloads = [1, 2, 0x155555, 0x2AAAAA, 0x3FFFFF]
    nans = [infinity | q | p for q in (0, quiet) for p in payloads] + [infinity | quiet]
    powers = [e << 23 for e in range(1, 255, 11)]
    some = random.Random(754)
    anything = [some.getrandbits(32) for _ in range(60)]
    in_range = [bits_of(some.randrange(0, 65536)) + some.randrange(-2, 3) for _ in range(30)]
    small = [some.randrange(0x3C000000, 0x44000000) for _ in range(30)]
    plus = subnormal + sides + nans + [infinity, infinity - 1] + powers
    minus = subnormal + sides[:12] + sides[-6:] + nans + [infinity, infinity - 1]
    return table + plus + [sign | b for b in minus] + anything + in_range + small


# ---- a list of wishes


def record(i, j, number=None, bits=None, spare=0, spare_too=0):
    return struct.pack("<BBBBI", i, j, spare, spare_too, bits_of(number) if bits is None else bits)


def lists():
    """Cases (n, how many cells are lent, the list's bytes)."""
    nan, plus_infinity, minus_infinity, least_below, too_much = 0x7FC00000, 0x7F800000, 0xFF800000, 0x80000001, 0x477FFF01
    good = record(0, 0, 2.0) + record(0, 1, 1.0) + record(1, 0, 0.5) + record(1, 1, 1.5)
    one = record(1, 0, 3.25)
    cases = [
        # valid: the example of §14.7, none named, one named, zero and minus zero named, the largest, the smallest
        (2, 4, good), (2, 4, b""), (1, 1, b""), (3, 9, record(1, 2, 7.0)), (2, 4, record(0, 0, 0.0) + record(1, 1, bits=0x80000000)),
        (1, 1, record(0, 0, 65535.0)), (1, 1, record(0, 0, bits=1)), (3, 9, record(2, 1, 255.5) + record(1, 2, 256.25) + record(2, 2, 65534.5)),
        # code 1 and code 2, with and without what comes later
        (0, 0, b""), (0, 4, good), (65, 4, b""), (300, 16, good), (256, 1, one[:3]), (2, 3, good), (2, 5, good), (2, 0, b""), (3, 4, good[:7]), (64, 64, b""),
        # code 9: the whole records are its place, whatever is in them
        (2, 4, good[:-1]), (2, 4, good + b"\0"), (2, 4, good[:7]), (2, 4, good[:1]), (2, 4, record(9, 9, bits=nan) + b"\1"),
        # code 11: a port not below n, a spare byte
        (2, 4, one + record(2, 0, 1.0)), (2, 4, one + record(0, 2, 1.0)), (2, 4, record(0, 0, 1.0, spare=1)), (2, 4, record(0, 0, 1.0, spare_too=128)),
        (8, 64, record(7, 7, 1.0) + record(8, 0, 1.0)), (2, 4, record(255, 255, 1.0)),
        # code 12: at once, later, for a pair with no slots, not for the pair turned round
        (2, 4, one + one), (2, 4, good + record(0, 1, 9.0)), (2, 4, record(1, 1, 0.0) + record(1, 1, 0.0)), (2, 4, record(0, 1, 1.0) + record(1, 0, 2.0)),
        (8, 64, record(7, 7, 1.0) + record(7, 6, 1.0) + record(6, 7, 1.0) + record(7, 7, 1.0)),
        # codes 6, 7 and 8
        (2, 4, one + record(0, 0, bits=nan)), (2, 4, one + record(0, 0, bits=plus_infinity)), (2, 4, one + record(0, 0, bits=minus_infinity)), (2, 4, record(0, 0, bits=0xFFFFFFFF)),
        (2, 4, one + record(0, 0, bits=least_below)), (2, 4, one + record(0, 0, -1.0)), (2, 4, one + record(0, 0, bits=too_much)), (2, 4, record(0, 0, 2.0 ** 40)),
        # several at once: the first faulty record, and there the first of 11, 12, 6, 7, 8
        (2, 4, one + record(1, 0, bits=nan)), (2, 4, one + record(1, 0, bits=nan, spare=1)), (2, 4, one + record(1, 0, bits=least_below)), (2, 4, one + record(1, 0, bits=too_much)),
        (2, 4, record(0, 0, bits=too_much) + record(5, 0, 1.0)), (2, 4, record(0, 0, 1.0) + record(0, 1, bits=least_below) + record(0, 0, 1.0)), (2, 4, record(2, 0, bits=nan) + one + one),
    ]
    some = random.Random(12)
    for n in (3, 5, 64):
        pairs = [(i, j) for i in range(n) for j in range(n)]
        some.shuffle(pairs)
        cases.append((n, n * n, b"".join(record(i, j, some.randrange(0, 4 * ref.LINE) / 4) for i, j in pairs[:n * n])))
    return cases


# ---- what is stored


def pattern_case():
    """All patterns in one call, a line each; a finite one has the value that Python's own floats give it."""
    marks = patterns()
    assert len(marks) >= 200
    for bits in marks:
        wish = ref.value(bits)
        assert wish is None or wish == Fraction(struct.unpack("<f", struct.pack("<I", bits))[0])
    words = b"".join(struct.pack("<I", bits) for bits in marks)
    return tape.lay((words, 1)) + tape.step("b"), "".join("%08x %d %d\n" % (bits, *ref.wish_slots(bits)) for bits in marks)


def list_case(n, lent, data, edition=ref.FIRST, title=""):
    """One list, and every lent cell after it."""
    answer, cells = ref.read_wishes(n, data, [BEFORE] * lent, edition)
    after = "".join(f" {cell}" for cell in cells) if lent <= FEW else f" sum {tape.checksum(cells)}"
    return tape.lay((data, 1)) + tape.step(called("s", "", edition)[0], 0, n, lent, title.encode()), f"{title}{tape.answer_text(answer)}\n{after}\n"


def cases():
    return [pattern_case(), *[list_case(*given) for given in lists()]]
