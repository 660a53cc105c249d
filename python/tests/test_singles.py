"""Numbers to binary32: up to the next and never down, against the definition by exact fractions over the whole grid."""
import random
import unittest
from decimal import Decimal
from fractions import Fraction

import cases

from chordvenus import singles

REF = cases.FIRST


def least_not_below(number):
    """The bits of the least binary32 that is not below a number above zero, by bisection over all of them in order."""
    low, high = 0, 0x7F7F_FFFF
    while low < high:
        middle = (low + high) // 2
        if REF.value(middle) >= number:
            high = middle
        else:
            low = middle + 1
    return low


class Singles(unittest.TestCase):
    def test_up_and_never_down(self):
        rng = random.Random(31)
        for _ in range(1_500):
            digits = rng.randint(1, 12)
            text = f"{rng.randrange(10**digits)}.{rng.randrange(10**digits)}e{rng.randint(-50, 12)}"
            number = Fraction(Decimal(text))
            if number == 0:
                continue
            due = least_not_below(number)
            for given in (text, Decimal(text), number):
                self.assertEqual(singles.bits_of(given), due, text)
            self.assertGreaterEqual(REF.value(due), number)
            self.assertEqual(singles.single(text).exact, REF.value(due) == number, text)
            self.assertEqual(singles.bits_of(float(number)), least_not_below(Fraction(float(number))), text)

    def test_every_binary32_stays(self):
        rng = random.Random(32)
        for bits in [1, 2, 0x7F_FFFF, 0x80_0000, 0x7F7F_FFFF, *(rng.randrange(0x7F80_0000) for _ in range(1_000))]:
            value = singles.value_of(bits)
            self.assertEqual(singles.single(value), (bits, True))
            self.assertEqual(singles.single(str(Decimal(value))), (bits, True))
            self.assertEqual(singles.bits_of(Fraction(value) - Fraction(1, 10**60)), bits, value)
            above = singles.bits_of(Fraction(value) + Fraction(1, 10**60))
            self.assertEqual(above, min(bits + 1, 0x7F7F_FFFF), value)

    def test_edges(self):
        for text, bits in [("0", 0), ("-0", 2**31), ("-0.0e9", 2**31), ("1e-60", 1), ("1e-9999999999999", 1), ("-1e-60", 2**31 | 1),
                           ("1e60", 0x7F7F_FFFF), ("1e99999999999999", 0x7F7F_FFFF), ("-1e99", 0xFF7F_FFFF), ("nan", 0x7FC0_0000), ("NaN", 0x7FC0_0000),
                           ("inf", 0x7F80_0000), ("-Infinity", 0xFF80_0000), ("65535", 0x477F_FF00), ("65535.00001", 0x477F_FF01), (".5", 0x3F00_0000),
                           ("5.", 0x40A0_0000), ("+2", 0x4000_0000), ("0" * 5_000 + "2", 0x4000_0000), ("2." + "0" * 5_000 + "1", 0x4000_0001)]:  # fmt: skip
            self.assertEqual(singles.bits_of(text), bits, text[:30])
        for number in (-1e-60, Fraction(-1, 10**60)):
            self.assertEqual(singles.bits_of(number), 2**31 | 1)
        for text in ("", " 1", "1 ", "1_000", "0x1", "1,5", "one", "1e", "e1", ".", "--1", "\u0661"):
            self.assertFalse(singles.is_number(text), text)
            with self.assertRaises(ValueError):
                singles.bits_of(text)

    def test_many_at_once(self):
        rng = random.Random(33)
        edges = [3.4028234663852886e38, 3.40282350e38, 3.4028235677973366e38, 3.5e38, 1e-46, 7e-46, 1.4e-45, float("inf"), -0.1, -2.0]
        numbers = [rng.choice([rng.random() * 100, rng.randint(0, 70_000), 2.0 ** rng.uniform(-152, 128), 0.1, 2.5, 1e40, -1e-50, 0]) for _ in range(3_000)] + edges
        self.assertEqual(list(singles.bits_of_all(numbers)), [singles.bits_of(number) for number in numbers])
        self.assertEqual(list(singles.bits_of_all(["0.1", Fraction(1, 3)])), [singles.bits_of("0.1"), singles.bits_of(Fraction(1, 3))])

    def test_no_wish_shrinks(self):
        """As slots, no wish is worth less than the number that was written, and none of whole slots is worth more."""
        rng = random.Random(34)
        for _ in range(1_500):
            text = f"{rng.randint(2, 65_000)}.{rng.randrange(10**9):09d}"
            code, slots = REF.wish_slots(singles.bits_of(text))
            self.assertTrue(code == 0 and slots >= Fraction(Decimal(text)), text)
        for slots in range(2, 65_536, 7):
            self.assertEqual(REF.wish_slots(singles.bits_of(str(slots))), (0, slots))


if __name__ == "__main__":
    unittest.main()
