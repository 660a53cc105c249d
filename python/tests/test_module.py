"""The module as people use it: every form of wishes, numpy where it is there, files, editions, and arguments that are no good."""
import io
import os
import subprocess
import sys
import tempfile
import unittest
from decimal import Decimal
from fractions import Fraction

import cases

import chordvenus as cv
from chordvenus import _library as lib
from chordvenus import arrays

DUE = [[2, 2], [2, 3]]


class Wishes(unittest.TestCase):
    def test_forms(self):
        triples = [(0, 0, 2.0), (0, 1, 1), (1, 0, Fraction(1, 2)), (1, 1, Decimal("2.25"))]
        forms = [
            triples,
            tuple(triples),
            iter(triples),
            (triple for triple in triples),
            {(i, j): slots for i, j, slots in triples},
            [[2.0, 1], ["0.5", 2.25]],
            ([2.0, 1], [0.5, 2.25]),
            cv.demand(triples),
        ]
        for form in forms:
            self.assertEqual(cv.demand(form).rows(), DUE)

    def test_ports(self):
        self.assertEqual(cv.demand([(0, 0, 2)], ports=3).ports, 3)
        self.assertEqual(cv.demand([], ports=2).rows(), [[0, 0], [0, 0]])
        self.assertEqual(cv.demand([("a", "x", 3), ("b", "x", 4)]).rows(), [[3, 0], [4, 0]])
        with self.assertRaisesRegex(cv.Malformed, "wish 0, from input 0 to output 300, names an output that is not there: they are 0 to 2"):
            cv.demand([(0, 300, 2)], ports=3)
        with self.assertRaisesRegex(cv.Malformed, "wish 0, from input -1 to output 0, names an input that is not there"):
            cv.demand([(-1, 0, 2)], ports=3)
        for ports in (0, 129, 2**64, 2**64 + 2, -1):
            with self.assertRaises(cv.BadPorts):
                cv.demand([(0, 0, 2)], ports=ports)
        with self.assertRaisesRegex(cv.BadPorts, "N is 65, and this edition has 1 to 64 ports"):
            cv.demand([(64, 0, 2)], edition="first")

    def test_no_good(self):
        for wishes, words in (
            ([[1, 2], [3]], "row 1 of the array has 1 cells"),
            ([[0, 0, 2], [0, 1, 3]], "triples are tuples, not lists"),
            ([(0, 0)], "a wish is input, output and slots"),
            ([("a", 0, 1), (0, 0, 1)], "names or numbers, not both"),
            ([(0, 0, "two")], "'two' is no number"),
        ):
            with self.assertRaisesRegex(ValueError, words):
                cv.demand(wishes)
        for wishes in ([(0.5, 0, 1)], [(None, 0, 1)], [(True, 0, 1)]):
            with self.assertRaises(TypeError):
                cv.demand(wishes)
        with self.assertRaisesRegex(ValueError, "a cell is 0 to 4,294,967,295, not -1"):
            cv.cells([[-1]])
        with self.assertRaisesRegex(TypeError, "a cell is a whole number, not 1.5"):
            cv.cells([[1.5]])

    def test_demand(self):
        d = cv.cells([[3, 0], [1, 0]])
        self.assertEqual((d.longest, d.asked, d[1, 0], d.ports), (4, 4, 1, 2))
        self.assertEqual(len({d, cv.cells([[3, 0], [1, 0]]), cv.cells([[3, 0], [1, 1]])}), 2)
        with self.assertRaises(IndexError):
            d[2, 0]
        self.assertNotEqual(d, "a demand")


class Plans(unittest.TestCase):
    def setUp(self):
        self.plan = cv.plan(cv.cells([[3, 0, 1], [1, 0, 2], [0, 5, 0]]))

    def test_sequence(self):
        plan = self.plan
        self.assertEqual([plan[k] for k in range(len(plan))], list(plan))
        self.assertEqual(plan[-1], list(plan)[-1])
        self.assertEqual([s.hold for s in plan], plan.holds.tolist())
        for k, setting in enumerate(plan):
            self.assertEqual([255 if j is None else j for j in setting.outputs], plan.outputs[k].tolist())
        with self.assertRaises(IndexError):
            plan[len(plan)]
        self.assertEqual(sum(plan.holds.tolist()), plan.total)

    def test_files(self):
        with tempfile.TemporaryDirectory() as folder:
            path = os.path.join(folder, "a.plan")
            self.plan.save(path)
            again = cv.load(path)
            self.assertEqual(again, self.plan)
            self.assertEqual((again.longest, again.empty, again.demand), (None, None, None))
            self.assertEqual(os.path.getsize(path), 68 * len(self.plan))
        empty = cv.plan(cv.cells([[0]]))
        self.assertEqual(cv.Plan.from_bytes(b"", ports=1), empty)
        with self.assertRaisesRegex(ValueError, "give ports"):
            cv.load(io.BytesIO(b""))

    def test_joined_keeps_its_counts(self):
        joined = cv.join(self.plan)
        self.assertEqual((joined.longest, joined.empty, joined.demand), (self.plan.longest, self.plan.empty, self.plan.demand))

    def test_grating_counts(self):
        plan = cv.plan(self.plan.demand, "grating")
        self.assertEqual((plan.records, plan.longest, plan.total, plan.empty), cv.check(self.plan.demand, plan))

    def test_no_good(self):
        for words, wrong in (
            ("there is no method 'best'", lambda: cv.plan([[1]], "best")),
            ("a quiet plan takes a limit", lambda: cv.plan([[1]], "quiet")),
            ("only a quiet plan takes a limit", lambda: cv.plan([[1]], limit=2)),
            ("an edition is 1 or 2", lambda: cv.plan([[1]], edition=3)),
            ("grating plans are of the first edition alone", lambda: cv.plan([[1]], "grating", edition=2)),
            ("the switching time is 0 to 65,535, not 65,536", lambda: cv.length(self.plan, 65_536)),
            ("the slot is 0 to", lambda: cv.in_force(self.plan, self.plan, 2**64)),
            ("the slot is 0 to", lambda: cv.in_force(self.plan, self.plan, -1)),
            ("the number of first records is", lambda: cv.carry_over(self.plan.demand, self.plan, -1, self.plan.demand)),
        ):
            with self.assertRaisesRegex(ValueError, words):
                wrong()
        with self.assertRaises(TypeError):
            cv.length(self.plan, 1.5)

    def test_in_force(self):
        seen = []
        for slot in range(self.plan.total):
            seen.append(cv.in_force(self.plan, b"", slot).record)
        due = [k for k, setting in enumerate(self.plan) for _ in range(setting.hold)]
        self.assertEqual(seen, due)
        with self.assertRaisesRegex(cv.NothingInForce, "tonight's plan is over before slot 6"):
            cv.in_force(self.plan, b"", 6)
        with self.assertRaisesRegex(cv.Malformed, "record 0 of the standby plan is not well formed: its hold is 0") as caught:
            cv.in_force(self.plan, bytes(68), 0)
        self.assertEqual(caught.exception.about, "standby")

    def test_words_of_carry_over(self):
        d, plan = self.plan.demand, self.plan
        with self.assertRaisesRegex(cv.WrongCells, "the demand has 3 ports, and the new wishes have 2"):
            cv.carry_over(d, plan, 0, cv.cells([[0, 0], [0, 0]]))
        with self.assertRaisesRegex(cv.FirstOver, f"the batch stopped after 99 records, and its plan has {len(plan)}"):
            cv.carry_over(d, plan, 99, d)
        large = cv.cells([[65_535, 0, 0], [0, 0, 0], [0, 0, 0]])
        with self.assertRaisesRegex(cv.LineTooLong, "input 0 is left with more than 65,535 slots once the new wishes are added") as caught:
            cv.carry_over(d, plan, 0, large)
        self.assertEqual((caught.exception.about, caught.exception.side, caught.exception.place), ("sum", "input", 0))

    def test_editions(self):
        for name in ("cv2_wishes", "cv2_exact", "cv2_check", "cv2_length", "cv_to_first"):
            if not lib.has(name):
                self.skipTest(f"the library has no {name} yet")
        wide = cv.plan([(0, 99, 3)])
        self.assertEqual((wide.edition, wide.ports, len(wide.data)), (2, 100, 132 * len(wide)))
        self.assertEqual(cv.Plan.from_bytes(wide.data), wide)
        named = cv.plan(self.plan.demand, edition="second")
        self.assertEqual((named.edition, list(named)), (2, list(self.plan)))
        self.assertEqual(cv.move(named), self.plan)
        self.assertEqual(cv.check(self.plan.demand, named), cv.check(self.plan.demand, self.plan))


class Numpy(unittest.TestCase):
    def setUp(self):
        self.numpy = arrays.numpy()
        if self.numpy is None:
            self.skipTest("numpy is not there")

    def test_taken(self):
        for kind in ("f4", "f8", "i4", "u1", "i8", "O"):
            array = self.numpy.array([[2, 1], [0, 3]], dtype=kind)
            self.assertEqual(cv.demand(array).rows(), [[2, 2], [0, 3]])
            self.assertEqual(cv.cells(array.astype("i8")).rows(), [[2, 1], [0, 3]])
        with self.assertRaisesRegex(ValueError, "two dimensions"):
            cv.demand(self.numpy.zeros(4))
        with self.assertRaisesRegex(ValueError, "not square"):
            cv.demand(self.numpy.zeros((2, 3)))
        wishes = [(self.numpy.int64(0), self.numpy.uint8(1), self.numpy.float32(2.5))]
        self.assertEqual(cv.demand(wishes).rows(), [[0, 3], [0, 0]])
        with self.assertRaises(cv.NotFinite):
            cv.demand(self.numpy.array([[float("nan")]]))

    def test_given(self):
        plan = cv.plan([[2, 1], [0, 3]])
        self.assertIsInstance(plan.holds, self.numpy.ndarray)
        self.assertEqual((plan.outputs.shape, plan.outputs.dtype), ((len(plan), 2), self.numpy.uint8))
        self.assertEqual(plan.demand.cells.tolist(), plan.demand.rows())
        self.assertEqual(self.numpy.asarray(plan.demand).tolist(), plan.demand.rows())
        self.assertIsInstance(cv.report(plan), self.numpy.ndarray)


class WithoutNumpy(unittest.TestCase):
    def test_without(self):
        """Where numpy is not there, arrays of the standard library are read the same way."""
        program = (
            "import sys; sys.modules['numpy'] = None; sys.path.insert(0, sys.argv[1]); import chordvenus as cv;"
            "p = cv.plan([[2, 1], [0, 3]]); print(p.holds.tolist(), [row.tolist() for row in p.outputs], p.outputs[0][1],"
            "[row.tolist() for row in p.demand.cells], cv.report(p).tolist())"
        )
        ran = subprocess.run([sys.executable, "-c", program, str(cases.ROOT / "python")], capture_output=True, text=True, check=True)
        plan = cv.plan([[2, 1], [0, 3]])
        rows = [row.tolist() for row in plan.outputs]
        due = (plan.holds.tolist(), rows, rows[0][1], plan.demand.rows(), cv.report(plan).tolist())
        self.assertEqual(ran.stdout, " ".join(map(str, due)) + "\n")


if __name__ == "__main__":
    unittest.main()
