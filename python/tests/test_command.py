"""The command as people run it: what it prints, its exit status, and that it never shows where in the module something failed."""
import contextlib
import csv
import io
import json
import os
import pathlib
import random
import subprocess
import sys
import tempfile
import unittest
from xml.etree import ElementTree

import cases

import chordvenus as cv
from chordvenus import _library as lib
from chordvenus import command

BATCH = str(cases.ROOT / "examples" / "batch.txt")
PROGRAM = [sys.executable, str(cases.ROOT / "python" / "bin" / "chordvenus")]
LISTED = b"".join(cases.FIRST.wish_record(*wish) for wish in ((0, 0, 0x40000000), (0, 1, 0x3F800000), (1, 0, 0x3F000000), (1, 1, 0x3FC00000)))
COMMANDS = ("plan", "check", "show", "join", "length", "report", "rescue", "move", "shop", "compare")


class Ran:
    """The command run in this process, with bytes for standard input."""

    def __init__(self, *words, given=b""):
        out, err, kept = io.BytesIO(), io.StringIO(), (sys.stdin, sys.stdout)
        sys.stdin, sys.stdout = io.TextIOWrapper(io.BytesIO(given)), io.TextIOWrapper(out)
        try:
            with contextlib.redirect_stderr(err):
                self.status = command.main(list(words))
            sys.stdout.flush()
        finally:
            shown = sys.stdout
            sys.stdin, sys.stdout = kept
        self.data, self.err = out.getvalue(), err.getvalue()
        shown.detach()

    @property
    def out(self):
        return self.data.decode("utf-8")


class Command(unittest.TestCase):
    def setUp(self):
        folder = tempfile.TemporaryDirectory()
        self.addCleanup(folder.cleanup)
        self.folder = pathlib.Path(folder.name)

    def file(self, name, data):
        path = self.folder / name
        path.write_bytes(data.encode() if isinstance(data, str) else data)
        return str(path)

    def done(self, *words, given=b""):
        ran = Ran(*words, given=given)
        self.assertEqual((ran.status, ran.err), (0, ""), words)
        return ran

    def refused(self, status, wanted, *words, given=b""):
        ran = Ran(*words, given=given)
        self.assertEqual((ran.status, ran.data), (status, b""), (words, ran.err))
        self.assertIn(wanted, ran.err)
        self.assertNotIn("Traceback", ran.err)
        return ran

    # ---- Plans

    def test_the_lister_byte_for_byte(self):
        due = cases.FIRST.lister(LISTED).encode()
        self.assertEqual(due, b"ports 2 longest 4 records 2 total 4 empty 0\n2 0 1\n2 1 0\n")
        self.assertEqual(self.done("plan", "--out", "lines", given=LISTED).data, due)
        ran = subprocess.run([*PROGRAM, "plan", "--out", "lines"], input=LISTED, capture_output=True)
        self.assertEqual((ran.returncode, ran.stdout, ran.stderr), (0, due, b""))

    def test_the_lister_on_lists(self):
        """On random lists the command prints what the lister prints; where the lister refuses, it refuses by the same code."""
        rng = random.Random(36)
        for _ in range(600):
            wishes = [(rng.randrange(5), rng.randrange(5), rng.choice([0, 0x3F800000, 0x40490FDB, 0x41200000, 0x477FFF00])) for _ in range(rng.randint(1, 8))]
            data = b"".join(cases.FIRST.wish_record(*wish) for wish in wishes)
            due = cases.FIRST.lister(data)
            ran = Ran("plan", "--in", "wishes", "--out", "lines", given=data)
            if due.startswith("refused"):
                self.assertEqual(ran.status, 1)
                self.assertIn(f"(code {due.split()[1]})", ran.err)
            else:
                self.assertEqual((ran.status, ran.out), (0, due))

    def test_table_csv_json(self):
        plan = cv.plan(cv.read_wishes(BATCH))
        self.assertEqual(self.done("plan", BATCH).out.splitlines()[0], "ports 6 longest 8 records 5 total 8 empty 9")
        rows = list(csv.reader(io.StringIO(self.done("plan", BATCH, "--out", "csv").out)))
        self.assertEqual(rows[0], ["record", "start", "hold", *"012345"])
        self.assertEqual([int(row[2]) for row in rows[1:]], plan.holds.tolist())
        said = json.loads(self.done("plan", BATCH, "--out", "json").out)
        self.assertEqual([tuple(s["outputs"]) for s in said["settings"]], [s.outputs for s in plan])
        self.assertEqual((said["total"], said["empty"], said["longest"], said["edition"]), (8, 9, 8, 1))
        named = self.done("plan", given=b"maser,A,3\ncaesium,B,2\n").out
        self.assertIn("record  hold  maser  caesium", named)

    def test_plan_file_check_join_check(self):
        for method in ("exact", "doubled", "every_rotation", "quick", "grating"):
            kept, joined = str(self.folder / "a.plan"), str(self.folder / "b.plan")
            self.done("plan", BATCH, "--method", method, "-o", kept)
            checked = self.done("check", BATCH, kept).out
            self.done("join", kept, "-o", joined)
            again = self.done("check", BATCH, joined).out
            counts = [dict(zip(words[0::2], words[1::2])) for words in (checked.split(), again.split())]
            for name in ("ports", "longest", "total", "empty"):
                self.assertEqual(counts[0][name], counts[1][name], method)
            self.assertLessEqual(int(counts[1]["records"]), int(counts[0]["records"]))
            self.assertEqual(cv.load(joined), cv.join(cv.load(kept)))
            shown = self.done("show", kept, "--wishes", BATCH).out
            self.assertEqual(shown, self.done("plan", BATCH, "--method", method).out)

    def test_length_and_report(self):
        kept = str(self.folder / "a.plan")
        self.done("plan", BATCH, "-o", kept)
        self.assertEqual(self.done("length", kept, "-d", "3").out, "length 23 records 5 total 8\n")
        self.assertEqual(json.loads(self.done("length", kept, "-d", "3", "--out", "json").out)["length"], 23)
        said = json.loads(self.done("report", kept, "--out", "json", "--limit", "3").out)
        self.assertEqual(said["report"], cv.report(cv.load(kept)).tolist())
        self.assertIn("over", self.done("report", kept, "--limit", "3").out)
        self.assertNotIn("over", self.done("report", kept, "--limit", "6").out)

    def test_pictures_are_written(self):
        kept = str(self.folder / "a.plan")
        self.done("plan", BATCH, "-o", kept)
        for words in (["plan", BATCH], ["show", kept, "--wishes", BATCH], ["report", kept, "--limit", "2"], ["join", kept]):
            picture = self.folder / "picture.svg"
            self.done(*words, "-o", str(picture))
            self.assertTrue(ElementTree.fromstring(picture.read_text("utf-8")).tag.endswith("svg"))

    def test_compare(self):
        wishes = cv.read_wishes(BATCH)
        said = json.loads(self.done("compare", BATCH, "-d", "3", "--out", "json").out)
        lengths = {}
        for row in said["methods"]:
            if row["refused"]:
                continue
            method, _, limit = row["method"].partition(" ")
            plan = cv.plan(wishes, method, limit=int(limit) if limit else None)
            lengths[row["method"]] = row["length"]
            self.assertEqual((row["records"], row["total"], row["empty"]), (plan.records, plan.total, plan.empty))
            self.assertEqual((row["length"], row["worst"]), (cv.length(plan, 3), max(cv.report(plan).tolist())))
            self.assertEqual(row["empty"], cv.check(wishes, plan).empty)
        self.assertGreaterEqual(len(lengths), 5)
        least = min(lengths.values())
        marked = {row["method"] for row in said["methods"] if row["shortest"]}
        self.assertEqual(marked, {method for method, length in lengths.items() if length == least})
        stars = [line.split()[1] for line in self.done("compare", BATCH, "-d", "3").out.splitlines() if line.startswith("*  ")]
        self.assertEqual(set(stars), {method.split()[0] for method in marked})
        long = self.done("compare", "-d", "1", given=b"0 0 2000\n").out
        self.assertIn("quick: the longest line has 2,000 slots, and the quick cover takes at most 1,024", long)

    def test_rescue(self):
        if not lib.has("cv_rescue"):
            self.skipTest("the library has no cv_rescue yet")
        plan = bytearray(cv.plan(cv.read_wishes(BATCH)).data)
        plan[68] = plan[69] = 0
        damaged, rescued = self.file("a.plan", bytes(plan)), str(self.folder / "b.plan")
        ran = Ran("rescue", BATCH, damaged, "-o", rescued)
        self.assertEqual((ran.status, ran.err), (0, "chordvenus: note: record 1 is dropped: its hold is 0\n"))
        self.done("check", BATCH, rescued)
        self.assertIn("dropped 1 added", Ran("rescue", BATCH, damaged).out)

    def test_move(self):
        if not lib.has("cv_to_second"):
            self.skipTest("the library has no cv_to_second yet")
        first, second, back = (str(self.folder / name) for name in ("a.plan", "b.plan", "c.plan"))
        self.done("plan", BATCH, "-o", first)
        self.done("move", first, "--to", "second", "-o", second)
        self.done("check", BATCH, second)
        self.done("move", second, "-o", back)
        self.assertEqual(pathlib.Path(first).read_bytes(), pathlib.Path(back).read_bytes())

    def test_shop(self):
        if not lib.has("cv_shop"):
            self.skipTest("the library has no cv_shop yet")
        said = json.loads(self.done("shop", BATCH, "-d", "2", "--out", "json").out)
        self.assertEqual(sum(task["end"] - task["start"] - 2 for task in said["tasks"]), cv.read_wishes(BATCH).asked)
        self.done("shop", BATCH, "-d", "2")

    # ---- What goes wrong

    def test_damaged_file_names_its_record(self):
        plan = cv.plan(cv.read_wishes(BATCH))
        for at, byte, words in ((68 * 2, 0, "its hold is 0"), (68 * 2 + 2, 7, "its number of ports is another"), (68 * 2 + 3, 9, "its fourth byte is wrong"),
                                (68 * 2 + 4, 6, "an output is out of range"), (68 * 2 + 4, 2, "an output stands twice"), (68 * 2 + 30, 0, "an input that is not there is not idle")):  # fmt: skip
            data = bytearray(plan.data)
            data[at] = byte
            name = self.file("a.plan", bytes(data))
            due = f"a.plan: refused (code 11): record 2 of the plan is not well formed: {words}"
            for words in (["show", name], ["join", name], ["length", name, "-d", "1"], ["report", name], ["check", BATCH, name]):
                self.refused(1, due, *words)
        torn = self.file("b.plan", plan.data[:-1])
        self.refused(1, "refused (code 9): the plan ends inside a record: 4 whole records and 67 bytes more", "show", torn)
        many = self.file("c.plan", cases.FIRST.record_bytes(1, 1, [255]) * 8_193)
        self.refused(1, "refused (code 10): the plan has more than 8,192 records", "show", many)

    def test_uncovered(self):
        kept = self.file("a.plan", cv.plan([("maser", "A", 2)]).data)
        wishes = self.file("w.csv", "maser,A,5\n")
        self.refused(1, "refused (code 13): input maser asks 5 slots of output A, and the plan grants 2", "check", wishes, kept)

    def test_bad_lines(self):
        name = self.file("w.csv", "input,output,slots\n0,0,2\n0,1,x\n")
        self.refused(1, f"chordvenus: {name}:3:5: 'x' is no number\n", "plan", name)
        self.refused(1, "chordvenus: standard input:2:1: refused (code 12): input 0 and output 0 are named before, on line 1\n", "plan", given=b"0 0 1\n0 0 1\n")
        self.refused(1, "standard input:1:5: refused (code 7): the wish -2 is less than 0", "plan", given=b"0 0 -2\n")
        self.refused(1, "refused (code 3): input 0 asks 131,070 slots in all, and a line has at most 65,535", "plan", given=b"0 0 65535\n0 1 65535\n")
        self.refused(1, "refused (code 4)", "plan", "--method", "quick", given=b"0 0 2000\n")
        self.refused(1, "refused (code 9): the wish list ends inside a record: 1 whole wishes and 3 bytes more", "plan", given=LISTED[:11])
        self.refused(1, "refused (code 1): N is 65, and this edition has 1 to 64 ports", "plan", "--edition", "first", "--ports", "65", given=b"0 0 1\n")
        self.refused(1, "refused (code 1): N is 129, and a switch has 1 to 128 ports", "plan", "--ports", "129", given=b"0 0 1\n")

    def test_nothing_given(self):
        self.refused(1, "standard input: it is empty: there is no wish", "plan")
        self.refused(1, "standard input: it is empty: a plan of no records", "show")
        self.assertEqual(self.done("plan", "--ports", "2", "--out", "lines").out, "ports 2 longest 0 records 0 total 0 empty 0\n")
        self.assertEqual(self.done("length", "--ports", "2", "-d", "9").out, "length 0 records 0 total 0\n")

    def test_files(self):
        self.refused(1, "no-such-file: No such file or directory", "plan", "no-such-file")
        self.refused(1, "Is a directory", "plan", str(self.folder))
        self.refused(1, "No such file or directory", "plan", BATCH, "-o", str(self.folder / "none" / "x"))
        with open("/dev/full", "wb") as full:
            ran = subprocess.run([*PROGRAM, "plan", BATCH], stdout=full, stderr=subprocess.PIPE)
        self.assertEqual((ran.returncode, ran.stderr), (1, b"chordvenus: standard output: No space left on device\n"))

    def test_reader_gone(self):
        kept = self.file("a.plan", cases.FIRST.record_bytes(1, 64, list(range(64))) * 8_000)
        ran = subprocess.Popen([*PROGRAM, "show", kept], stdout=subprocess.PIPE, stderr=subprocess.PIPE)
        ran.stdout.read(1)
        ran.stdout.close()
        self.assertEqual(ran.stderr.read(), b"")
        ran.stderr.close()
        ran.wait()

    def test_usage(self):
        for words in ([], ["nothing"], ["plan", "--method", "best"], ["plan", BATCH, "x"], ["plan", "--ports", "two"], ["plan", "--ports", "-1"], ["length", "x"],
                      ["length", "x", "-d", "65536"], ["check", "x"], ["check", "-", "-"], ["plan", "--method", "quiet"], ["plan", "--limit", "2"],
                      ["length", BATCH, "-d", "x"], ["plan", BATCH, "--out", "dropped"], ["compare", BATCH]):  # fmt: skip
            ran = self.refused(2, "", *words)
            self.assertTrue(ran.err, words)

    def test_help(self):
        self.assertIn("Exit status: 0 done; 1 refused", self.done("--help").out)
        self.assertIn("rounded up to the next one,\nnever down", self.done("--help").out)
        for name in COMMANDS:
            said = self.done(name, "--help").out
            self.assertIn(f"example:\n  chordvenus {name} ", said)

    def test_as_a_module(self):
        path = {**os.environ, "PYTHONPATH": str(cases.ROOT / "python")}
        ran = subprocess.run([sys.executable, "-m", "chordvenus", "plan", "--out", "lines"], input=LISTED, capture_output=True, env=path)
        self.assertEqual((ran.returncode, ran.stdout), (0, cases.FIRST.lister(LISTED).encode()))

    def test_rounded(self):
        ran = Ran("plan", "--out", "lines", given=b"0 0 2.1\n")
        self.assertEqual(ran.status, 0)
        self.assertIn("note: 1 number is no binary32 and rounded up to the next, never down; it is line 1: 2.1 is taken as 2.1000001430511475", ran.err)

    def test_any_files(self):
        """Whatever the bytes, the status is 0 or 1, and what is refused is refused in one line of words."""
        rng = random.Random(37)
        plan = cv.plan(cv.read_wishes(BATCH)).data
        for _ in range(400):
            data = bytearray(plan[: rng.randint(0, len(plan))])
            for _ in range(rng.randint(0, 3)):
                if data:
                    data[rng.randrange(len(data))] = rng.choice([0, 1, 2, 6, 64, 65, 129, 255])
            for words in (["show"], ["join", "--out", "csv"], ["length", "-d", "1"], ["report"], ["check", BATCH, "-"], ["plan"]):
                ran = Ran(*words, given=bytes(data))
                self.assertIn(ran.status, (0, 1))
                self.assertNotIn("a fault of this command", ran.err)
                if ran.status:
                    self.assertEqual(ran.data, b"")
                    self.assertRegex(ran.err, r"\Achordvenus: .+\n\Z")


if __name__ == "__main__":
    unittest.main()
