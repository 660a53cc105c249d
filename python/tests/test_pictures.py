"""The stored pictures: their bars, measured, sum to what is granted; and every colour can be told from the others and read on."""
import importlib.machinery
import importlib.util
import itertools
import random
import unittest
from xml.etree import ElementTree

import cases

import chordvenus as cv
from chordvenus import _library as lib
from chordvenus import pictures

STORED = cases.ROOT / "docs" / "pictures"
# What the three kinds of colour-blindness leave of red, green and blue (Machado, Oliveira and Fernandes 2009, in full).
BLIND = {
    "protanopia": ((0.152286, 1.052583, -0.204868), (0.114503, 0.786281, 0.099216), (-0.003882, -0.048116, 1.051998)),
    "deuteranopia": ((0.367322, 0.860646, -0.227968), (0.280085, 0.672501, 0.047413), (-0.011820, 0.042940, 0.968881)),
    "tritanopia": ((1.255528, -0.076749, -0.178779), (-0.078411, 0.930809, 0.147602), (0.004733, 0.691367, 0.303900)),
}


def maker():
    """python/pictures as a module."""
    loader = importlib.machinery.SourceFileLoader("pictures_maker", str(cases.ROOT / "python" / "pictures"))
    module = importlib.util.module_from_spec(importlib.util.spec_from_loader("pictures_maker", loader))
    loader.exec_module(module)
    return module


MAKER = maker()


class Measured:
    """A picture read back: its bars by kind, measured in slots from their widths, and its marks."""

    def __init__(self, text):
        self.root = ElementTree.fromstring(text)
        self.scale = float(self.root.get("data-scale"))

    def bars(self, *kinds):
        """Slots by (row, port), summed from the bars' widths; no two bars of a row meet."""
        sums, spans = {}, {}
        for bar in self.root.iter("{http://www.w3.org/2000/svg}rect"):
            if bar.get("class") in ("used", "empty", "switching"):
                x, width = float(bar.get("x")), float(bar.get("width"))
                spans.setdefault(bar.get("data-row"), []).append((x, x + width))
                if bar.get("class") in kinds:
                    pair = int(bar.get("data-row")), int(bar.get("data-port"))
                    sums[pair] = sums.get(pair, 0) + width / self.scale
        for row in spans.values():
            row.sort()
            assert all(a[1] <= b[0] + 1e-6 for a, b in zip(row, row[1:])), "two bars of a row overlap"
        return {pair: slots for pair, slots in sums.items() if slots}

    def all(self, kind):
        return [element for element in self.root.iter() if element.get("class") == kind]


def whole(cells, n):
    """Cells that are not 0, by (input, output)."""
    return {(k // n, k % n): slots for k, slots in enumerate(cells) if slots}


class Pictures(unittest.TestCase):
    def plan_is_measured(self, plan, text):
        picture = Measured(text)
        grants = whole(cases.FIRST.grants(plan.ports, [(s.hold, [255 if j is None else j for j in s.outputs]) for s in plan]), plan.ports)
        self.assertEqual(picture.bars("used", "empty"), grants)
        self.assertEqual(sum(picture.bars("empty").values()), plan.empty)
        asked = whole([cell for row in plan.demand.rows() for cell in row], plan.ports)
        self.assertEqual(picture.bars("used"), asked)
        settings = [s.outputs for s in plan]
        moves = sum(k == 0 or settings[k] != settings[k - 1] for k in range(len(settings)))
        self.assertEqual(len(picture.all("move")), moves)
        self.assertEqual(cv.length(plan, 1) - plan.total, moves)

    def test_stored_plan(self):
        stored = (STORED / "plan.svg").read_text("utf-8")
        plan = cv.plan(MAKER.batch())
        self.assertEqual(stored, MAKER.plan())
        self.plan_is_measured(plan, stored)

    def test_stored_schedule(self):
        stored = (STORED / "schedule.svg").read_text("utf-8")
        wishes, d = MAKER.batch(), MAKER.SWITCHING
        cells = [cell for row in wishes.rows() for cell in row]
        tasks = cases.FIRST.shop_list(wishes.ports, cells, d)
        data = b"".join(cases.FIRST.task_bytes(task) for task in tasks)
        due = cv.Schedule(wishes.ports, data, max(task.end for task in tasks), d, wishes)
        self.assertEqual(stored, cv.picture(due))
        picture = Measured(stored)
        carried = {(i, j): slots for (j, i), slots in picture.bars("used").items()}
        self.assertEqual(carried, whole(cells, wishes.ports))
        self.assertEqual(set(picture.bars("switching").values()), {d})
        if lib.has("cv_shop"):
            self.assertEqual(stored, MAKER.schedule())

    def test_stored_report(self):
        stored = (STORED / "report.svg").read_text("utf-8")
        self.assertEqual(stored, MAKER.report())
        picture, plan = Measured(stored), cv.plan(cv.cells(MAKER.GRATING), "grating")
        bars = sorted(picture.all("bar") + picture.all("over"), key=lambda bar: int(bar.get("data-record")))
        heights = [float(bar.get("height")) / picture.scale for bar in bars]
        self.assertEqual(heights, cv.report(plan).tolist())
        self.assertEqual([bar.get("class") == "over" for bar in bars], [height > MAKER.LIMIT for height in heights])
        (line,) = picture.all("limit")
        base = float(bars[0].get("y")) + float(bars[0].get("height"))
        self.assertEqual((base - float(line.get("y1"))) / picture.scale, MAKER.LIMIT)

    def test_random_plans(self):
        rng = random.Random(38)
        for _ in range(60):
            n = rng.randint(1, 9)
            cells = [rng.choice([0, 0, rng.randint(1, 30), rng.randint(1, 900)]) for _ in range(n * n)]
            for method in ("exact", "doubled", "grating"):
                plan = cv.plan(cases.made(n, cells), method)
                self.plan_is_measured(plan, plan.svg())

    def test_nothing(self):
        empty = cv.plan(cv.cells([[0, 0], [0, 0]]))
        self.assertEqual(Measured(empty.svg()).bars("used"), {})
        self.assertIn("</svg>", cv.report_picture(empty, 1))

    def test_names_are_escaped(self):
        plan = cv.plan([("<a> & b", '"x"', 3), ("c", "y", 2)])
        self.assertIn("&lt;a&gt; &amp; b", plan.svg())
        Measured(plan.svg())

    def test_text_is_readable(self):
        for colour in pictures.COLOURS:
            self.assertGreaterEqual(pictures.contrast(colour, pictures.ink_on(colour)), 4.5, colour)
        self.assertGreaterEqual(pictures.contrast(pictures.INK, pictures.PAPER), 7)

    def test_colours_are_told_apart(self):
        for name, matrix in {"none": ((1, 0, 0), (0, 1, 0), (0, 0, 1)), **BLIND}.items():
            seen = [lab(matrix, colour) for colour in pictures.COLOURS]
            for (a, one), (b, other) in itertools.combinations(zip(pictures.COLOURS, seen), 2):
                apart = sum((p - q) ** 2 for p, q in zip(one, other)) ** 0.5
                self.assertGreater(apart, 15, f"{name}: {a} and {b}")


def lab(matrix, colour):
    """A colour in CIE Lab as it is seen through a matrix over linear red, green and blue."""
    parts = [int(colour[k : k + 2], 16) / 255 for k in (1, 3, 5)]
    linear = [p / 12.92 if p <= 0.04045 else ((p + 0.055) / 1.055) ** 2.4 for p in parts]
    r, g, b = (min(1, max(0, sum(m * p for m, p in zip(row, linear)))) for row in matrix)
    xyz = (0.4124 * r + 0.3576 * g + 0.1805 * b) / 0.95047, 0.2126 * r + 0.7152 * g + 0.0722 * b, (0.0193 * r + 0.1192 * g + 0.9505 * b) / 1.08883
    x, y, z = (t ** (1 / 3) if t > 216 / 24389 else (24389 / 27 * t + 16) / 116 for t in xyz)
    return 116 * y - 16, 500 * (x - y), 200 * (y - z)


if __name__ == "__main__":
    unittest.main()
