"""Every call against the independent reference, on seeded cases, codes and places included.

Of each four cases three go through the module's functions, as people call them; one goes through the declared call itself, with
buffers of any size, so that the codes for too little room are met too and the lent bytes behind the result are seen untouched.
"""
import random
import struct
import time
import unittest
from array import array
from ctypes import c_uint32

import cases
from cases import FIRST, SECOND, made

import chordvenus as cv
from chordvenus import _library as lib

CASES = 20_000
FIELDS = "code place side records longest total length empty added dropped about".split()
SIDES = {"": 0, "input": 1, "output": 2}


def numbers(answer):
    """An answer of the reference by the names of cv_answer, without what is 0."""
    if isinstance(answer, dict):
        return {name: number for name, number in answer.items() if number}
    given = answer._asdict()
    given["side"] = SIDES.get(given["side"], given["side"])
    return {name: given[name] for name in FIELDS if given.get(name)}


def rescued(n, cells, damaged, plan, listed):
    """A rescue by the reference: all numbers by their names, and both buffers afterwards."""
    given = FIRST.rescue(n, cells, damaged, plan, listed)
    answer = dict.fromkeys(FIELDS, 0)
    answer.update(numbers(given.answer), added=given.added, dropped=given.dropped)
    return answer, given.plan, given.listed


def of_struct(answer):
    return {name: getattr(answer, name) for name in FIELDS if getattr(answer, name)}


def tried(function, *arguments, **named):
    """What a function of the module gives: its result, or the numbers of its refusal."""
    try:
        return function(*arguments, **named), {}
    except cv.Refused as refused:
        told = {"code": refused.code, "place": refused.place, "side": {None: 0, "input": 1, "output": 2}[refused.side]}
        told["about"] = (None, "tonight", "standby", "plan", "demand", "wishes", "sum").index(refused.about)
        assert str(refused), "a refusal has words"
        return None, {name: number for name, number in told.items() if number}


def edition(ref):
    return 2 if ref is SECOND else 1


def prefix(ref):
    return "cv2_" if ref is SECOND else "cv_"


PLANNERS = {
    "exact": ("exact", "exact_plan"),
    "doubled": ("doubled", "doubled_plan"),
    "every_rotation": ("doubled_every_rotation", "doubled_plan_every_rotation"),
    "quick": ("quick", "quick_plan"),
    "grating": ("grating_doubled", "grating_doubled"),
}


class Compared(unittest.TestCase):
    """What the comparisons share; a call that the library does not have yet is skipped by name."""

    def compare(self, name, one, seed, count=CASES):
        """Runs `one` on so many seeds, with the number of the case."""
        if not lib.has(name):
            self.skipTest(f"the library has no {name} yet")
        began = time.monotonic()
        rng = random.Random(f"{name} {seed}")
        codes = {}
        for k in range(count):
            state = rng.getrandbits(64)
            code = one(random.Random(state), k)
            codes[code] = codes.get(code, 0) + 1
        took = time.monotonic() - began
        print(f"{name}: {count:,} cases, by code {dict(sorted(codes.items()))} ({took:.1f} s)", flush=True)

    def same(self, got, wanted, *what):
        if got != wanted:
            self.fail(f"{got!r} where the reference has {wanted!r}, for {what!r}")


class Demands(Compared):
    """Wishes, and every planner."""

    # ---- Wishes

    def test_wish(self):
        def one(rng, k):
            bits = rng.choice([rng.getrandbits(32), rng.getrandbits(23) | rng.randint(120, 145) << 23, rng.choice([0, 1, 2**31, 0x477FFF00, 0x477FFF01])])
            code, slots = FIRST.wish_slots(bits)
            self.same(of_struct(lib.call("cv_wish")(bits)), numbers({"code": code, "total": slots}), bits)
            return code

        self.compare("cv_wish", one, 1)

    def wishes(self, ref):
        def one(rng, k):
            n = cases.ports(rng, ref)
            count = rng.randint(0, 6)
            records = [self.wish(rng, n) for _ in range(count)]
            if records and rng.random() < 0.1:
                records[-1] = records[0]
            data = b"".join(records)
            if k % 4:
                lent = [0] * (n * n)
                answer, demand = ref.read_wishes(n, data, lent)
                got, refused = tried(self.by_list if k % 2 else self.by_triples, data, n, edition(ref))
                self.same(refused, {} if not answer.code else numbers(answer), n, data)
                if not answer.code:
                    self.same(got, made(n, demand), n, data)
                return answer.code
            data += bytes(rng.choice([0, 0, 0, 3]))
            lent = array("I", [7] * rng.choice([n * n, n * n, n * n + 1]))
            answer, demand = ref.read_wishes(n, data, lent.tolist())
            got = lib.call(prefix(ref) + "wishes")(n, data, len(data), lib.lent(lent, c_uint32), len(lent))
            self.same((of_struct(got), lent.tolist()), (numbers(answer), demand), n, data)
            return answer.code

        self.compare(prefix(ref) + "wishes", one, 2)

    @staticmethod
    def wish(rng, n):
        bits = struct.unpack("<I", struct.pack("<f", rng.choice([0, 0.5, 1, 2.25, 9, 65_535])))[0]
        if rng.random() < 0.1:
            bits = rng.choice([1, 2**31, 0x477FFF01, 0x7FC00000, 0xFF800000, 0x80000001])
        spare = rng.choice([0] * 30 + [1, 256])
        return struct.pack("<BBHI", rng.randrange(n or 1), rng.randrange((n or 1) + (rng.random() < 0.05)), spare, bits)

    @staticmethod
    def by_list(data, n, edition):
        return cv.of_wish_list(data, n, edition)

    @staticmethod
    def by_triples(data, n, edition):
        """The same wishes as triples of numbers; a record whose spare bytes are wrong has no triple and goes by the list."""
        if any(data[k + 2] or data[k + 3] for k in range(0, len(data), 8)):
            return cv.of_wish_list(data, n, edition)
        triples = [struct.unpack("<BBHf", data[k : k + 8]) for k in range(0, len(data), 8)]
        return cv.demand([(i, j, slots) for i, j, _, slots in triples], n, edition)

    def test_wishes(self):
        self.wishes(FIRST)

    def test_wishes_second(self):
        self.wishes(SECOND)

    # ---- Planners

    def planner(self, method, ref, seed):
        called, written = PLANNERS[method]
        name = prefix(ref) + called

        def one(rng, k):
            n, cells = cases.demand(rng, ref, 1_024 if method == "quick" else 65_535)
            if method == "quick" and max(cells, default=0) > 200 and max(cells) <= 1_024:
                cells = [min(cell, 200) for cell in cells]
            if k % 4:
                room = 2 * ref.longest_line(n, cells) if method == "quick" and cells else 16
                answer, buffer = getattr(ref, written)(n, cells, bytes(ref.RECORD * min(room, 2_100)))
                got, refused = tried(cv.plan, made(n, cells), method, edition=edition(ref))
                self.same(refused, numbers(answer) if answer.code else {}, n, cells)
                if not answer.code:
                    self.counted(got, answer, buffer[: answer.records * ref.RECORD], ref, method)
                return answer.code
            lent = array("I", cells + rng.choice([[], [], [], [1]]))
            memory = bytearray([170] * (ref.RECORD * rng.randint(0, 6) + rng.randint(0, 70)))
            answer, buffer = getattr(ref, written)(n, lent.tolist(), bytes(memory))
            got = lib.call(name)(n, lib.lent(lent, c_uint32), len(lent), lib.lent(memory), len(memory))
            self.same((of_struct(got), bytes(memory)), (numbers(answer), buffer), n, cells)
            return answer.code

        self.compare(name, one, seed)

    def counted(self, got, answer, data, ref, method):
        self.same((got.data, got.records, got.total, got.edition), (data, answer.records, answer.total, edition(ref)), method)
        if method != "grating":
            self.same((got.longest, got.empty), (answer.longest, answer.empty), method)

    def test_exact(self):
        self.planner("exact", FIRST, 3)

    def test_exact_second(self):
        self.planner("exact", SECOND, 3)

    def test_doubled(self):
        self.planner("doubled", FIRST, 4)

    def test_doubled_second(self):
        self.planner("doubled", SECOND, 4)

    def test_every_rotation(self):
        self.planner("every_rotation", FIRST, 5)

    def test_every_rotation_second(self):
        self.planner("every_rotation", SECOND, 5)

    def test_quick(self):
        self.planner("quick", FIRST, 6)

    def test_quick_second(self):
        self.planner("quick", SECOND, 6)

    def test_grating(self):
        self.planner("grating", FIRST, 7)

    def test_quiet(self):
        def one(rng, k):
            n, cells = cases.demand(rng, FIRST)
            limit = rng.choice([0, 1, 1, 2, 3, n, n + 1, 2**64 - 1])
            memory = bytearray([170] * (FIRST.RECORD * (16 if k % 4 else rng.randint(0, 6))))
            answer, buffer = FIRST.grating_quiet(n, cells, limit, bytes(memory))
            answer = numbers(answer)
            if k % 4:
                got, refused = tried(cv.plan, made(n, cells), "quiet", limit=limit)
                self.same(refused, answer if answer.get("code") else {}, n, cells, limit)
                if "code" not in answer:
                    data = buffer[: got.records * FIRST.RECORD]
                    self.same((got.data, got.records, got.total, got.longest, got.empty), (data, *(answer.get(name, 0) for name in ("records", "total", "longest", "empty"))), n)
                return answer.get("code", 0)
            lent = array("I", cells)
            got = lib.call("cv_grating_quiet")(n, lib.lent(lent, c_uint32), len(lent), limit, lib.lent(memory), len(memory))
            self.same((of_struct(got), bytes(memory)), (answer, buffer), n, cells, limit)
            return answer.get("code", 0)

        self.compare("cv_grating_quiet", one, 8)

    def test_least(self):
        def one(rng, k):
            n, cells = cases.demand(rng, FIRST)
            limit = rng.choice([0, 1, 1, 2, 3, n, 2**64 - 1])
            answer = numbers(FIRST.grating_least(n, cells, limit))
            if k % 4:
                got, told = tried(cv.least, made(n, cells), limit)
                self.same((got, told), (None, answer) if answer.get("code") else (answer.get("total", 0), {}), n, cells, limit)
            else:
                lent = array("I", cells)
                self.same(of_struct(lib.call("cv_grating_least")(n, lib.lent(lent, c_uint32), len(lent), limit)), answer, n, cells, limit)
            return answer.get("code", 0)

        self.compare("cv_grating_least", one, 9)

    def rooms(self, ref):
        def one(rng, k):
            n = rng.choice([0, 1, 2, 63, 64, 65, 127, 128, 129, 2**64 - 1, rng.randint(1, 128)])
            longest = rng.choice([0, 1, 1_024, 1_025, 65_535, 65_536, 2**64 - 1, rng.randint(0, 70_000)])
            method = rng.choice(["exact", "doubled", "quick"])
            answer = numbers(ref.sufficient(method, ref.PORTS, n, longest))
            got, told = tried(cv.room, n, longest, method, edition=edition(ref))
            self.same((got, told), (None, answer) if answer.get("code") else (answer.get("records", 0), {}), n, longest, method)
            return answer.get("code", 0)

        self.compare(prefix(ref) + "exact_room", one, 10)

    def test_room(self):
        self.rooms(FIRST)

    def test_room_second(self):
        self.rooms(SECOND)


class Plans(Compared):
    """Plans from anywhere, schedules, and the console."""

    # ---- Reading a plan

    def checks(self, ref):
        def one(rng, k):
            n, cells = cases.demand(rng, ref)
            data = cases.plan(rng, ref, n)
            if rng.random() < 0.7 and n and n <= 8 and not ref.read_plan(n, data)[0]:
                granted = ref.grants(n, ref.read_plan(n, data)[1])
                cells = [min(65_535 // n, max(0, cell - rng.choice([0, 0, 0, 1]))) for cell in granted]
                cells[rng.randrange(n * n)] += rng.random() < 0.3
            answer = ref.check_plan(n, cells, data)
            if k % 4:
                got, told = tried(cv.check, made(n, cells), data, edition=edition(ref))
                wanted = None if answer.code else (answer.records, answer.longest, answer.total, answer.empty)
                self.same((got, told), (wanted, numbers(answer) if answer.code else {}), n, cells, data)
            else:
                lent = array("I", cells)
                got = lib.call(prefix(ref) + "check")(n, lib.lent(lent, c_uint32), len(lent), data, len(data))
                self.same(of_struct(got), numbers(answer), n, cells, data)
            return answer.code

        self.compare(prefix(ref) + "check", one, 11)

    def test_check(self):
        self.checks(FIRST)

    def test_check_second(self):
        self.checks(SECOND)

    def lengths(self, ref):
        def one(rng, k):
            n = cases.ports(rng, ref)
            data, d = cases.plan(rng, ref, n), rng.choice([0, 1, 9, 65_535])
            answer = ref.plan_length(n, data, d)
            if k % 4:
                got, told = tried(cv.length, data, d, n, edition(ref))
                self.same((got, told), (None, numbers(answer)) if answer.code else (answer.length, {}), n, data, d)
            else:
                self.same(of_struct(lib.call(prefix(ref) + "length")(n, data, len(data), d)), numbers(answer), n, data, d)
            return answer.code

        self.compare(prefix(ref) + "length", one, 12)

    def test_length(self):
        self.lengths(FIRST)

    def test_length_second(self):
        self.lengths(SECOND)

    def joins(self, ref):
        def one(rng, k):
            n = cases.ports(rng, ref)
            data = cases.plan(rng, ref, n)
            if k % 4:
                answer, joined = ref.join_plan(n, data, bytes(len(data)))
                got, told = tried(cv.join, data, n, edition(ref))
                self.same(told, numbers(answer) if answer.code else {}, n, data)
                if not answer.code:
                    self.same((got.data, got.total), (joined[: answer.records * ref.RECORD], answer.total), n, data)
            else:
                memory = bytearray([170] * (ref.RECORD * rng.randint(0, 5) + rng.randint(0, 70)))
                answer, joined = ref.join_plan(n, data, bytes(memory))
                got = lib.call(prefix(ref) + "join")(n, data, len(data), lib.lent(memory), len(memory))
                self.same((of_struct(got), bytes(memory)), (numbers(answer), joined), n, data)
            return answer.code

        self.compare(prefix(ref) + "join", one, 13)

    def test_join(self):
        self.joins(FIRST)

    def test_join_second(self):
        self.joins(SECOND)

    def test_report(self):
        def one(rng, k):
            n = cases.ports(rng, FIRST)
            data = cases.plan(rng, FIRST, n)
            if k % 4:
                answer, report = FIRST.grating_report(n, data, bytes(len(data) // FIRST.RECORD))
                got, told = tried(cv.report, data, ports=n)
                self.same(told, numbers(answer) if answer.code else {}, n, data)
                if not answer.code:
                    self.same(got.tolist(), list(report), n, data)
            else:
                memory = bytearray([170] * rng.randint(0, 6))
                answer, report = FIRST.grating_report(n, data, bytes(memory))
                got = lib.call("cv_grating_report")(n, data, len(data), lib.lent(memory), len(memory))
                self.same((of_struct(got), bytes(memory)), (numbers(answer), report), n, data)
            return answer.code

        self.compare("cv_grating_report", one, 14)

    def reading(self, ref):
        """Opening, stepping and writing: the declared calls, which the module's Plan stands on."""

        def one(rng, k):
            n = cases.ports(rng, ref)
            data = cases.plan(rng, ref, n)
            answer, reader = ref.open_plan(n, data)
            self.same(of_struct(lib.call(prefix(ref) + "open")(n, data, len(data))), numbers(answer), n, data)
            at = rng.randint(0, 6)
            step = lib.call(prefix(ref) + "step_at")(n, data, len(data), at)
            given, _ = ref.step(reader._replace(at=at))
            place = given.place if given.kind == "malformed" else 0
            wanted = (["record", "end", "malformed"].index(given.kind), place, given.hold, bytes(given.outputs))
            self.same((step.kind, step.place, step.hold, bytes(step.outputs)), wanted, n, data, at)
            return answer.code

        self.compare(prefix(ref) + "step_at", one, 15)

    def test_reading(self):
        self.reading(FIRST)

    def test_reading_second(self):
        self.reading(SECOND)

    def writing(self, ref):
        def one(rng, k):
            n = cases.ports(rng, ref)
            outputs = bytearray(bytes(cases.outputs(rng, n) if 0 < n <= 8 else []).ljust(ref.PORTS, b"\xff")[: ref.PORTS])
            if rng.random() < 0.3:
                outputs[rng.choice([0, n - 1 if n else 0, n, ref.PORTS - 1]) % ref.PORTS] = rng.choice([0, 1, n % 256, 254, 255])
            hold = rng.choice([0, 1, 2, 65_535])
            memory = bytearray([170] * rng.choice([0, ref.RECORD - 1, ref.RECORD, ref.RECORD + 5]))
            answer, written = ref.write_record(n, hold, outputs, bytes(memory))
            got = lib.call(prefix(ref) + "write")(hold, n, bytes(outputs), lib.lent(memory), len(memory))
            self.same((of_struct(got), bytes(memory)), (numbers(answer), written), n, hold, outputs)
            return answer.code

        self.compare(prefix(ref) + "write", one, 16)

    def test_writing(self):
        self.writing(FIRST)

    def test_writing_second(self):
        self.writing(SECOND)

    def moves(self, name, source, target):
        of, to = (FIRST.FIRST, FIRST.SECOND) if source is FIRST else (FIRST.MOVABLE, FIRST.FIRST)

        def one(rng, k):
            n = cases.ports(rng, FIRST)
            data = cases.plan(rng, source, n)
            if k % 4:
                answer, moved = FIRST.move_plan(n, data, bytes(len(data) // source.RECORD * target.RECORD), of, to)
                got, told = tried(cv.move, data, edition(target), n)
                self.same(told, numbers(answer) if answer.code else {}, n, data)
                if not answer.code:
                    self.same((got.data, got.total, got.edition), (moved, answer.total, edition(target)), n, data)
            else:
                memory = bytearray([170] * (target.RECORD * rng.randint(0, 5) + rng.randint(0, 70)))
                answer, moved = FIRST.move_plan(n, data, bytes(memory), of, to)
                got = lib.call(name)(n, data, len(data), lib.lent(memory), len(memory))
                self.same((of_struct(got), bytes(memory)), (numbers(answer), moved), n, data)
            return answer.code

        self.compare(name, one, 17)

    def test_to_second(self):
        self.moves("cv_to_second", FIRST, SECOND)

    def test_to_first(self):
        self.moves("cv_to_first", SECOND, FIRST)

    def test_rescue(self):
        def one(rng, k):
            n, cells = cases.demand(rng, FIRST)
            data = cases.plan(rng, FIRST, n, damaged=0.8)
            if k % 4:
                room = bytes(FIRST.RECORD * (len(data) // FIRST.RECORD + 20))
                answer, plan, listed = rescued(n, cells, data, room, bytes(4 * (len(data) // FIRST.RECORD + 1)))
                got, told = tried(cv.rescue, made(n, cells), data)
                self.same(told, numbers(answer) if answer.get("code") else {}, n, cells, data)
                if not answer.get("code"):
                    self.same((got.plan.data, got.added), (plan[: answer["records"] * FIRST.RECORD], answer["added"]), n, cells, data)
                    entries = b"".join(bytes([d.record % 256, d.record // 256, d.reason, 0]) for d in got.dropped)
                    self.same(entries, listed[: 4 * answer["dropped"]], n, cells, data)
                    counts = (got.plan.records, got.plan.longest, got.plan.total, got.plan.empty)
                    self.same(counts, tuple(answer[name] for name in ("records", "longest", "total", "empty")), n, cells, data)
            else:
                lent, memory = array("I", cells), bytearray([170] * (FIRST.RECORD * rng.randint(0, 9)))
                listed = bytearray([170] * rng.randint(0, 20))
                answer, plan, entries = rescued(n, cells, data, bytes(memory), bytes(listed))
                got = lib.call("cv_rescue")(n, lib.lent(lent, c_uint32), len(lent), data, len(data), lib.lent(memory), len(memory), lib.lent(listed), len(listed))
                self.same((of_struct(got), bytes(memory), bytes(listed)), (numbers(answer), plan, entries), n, cells, data)
            return answer.get("code", 0)

        self.compare("cv_rescue", one, 18)

    # ---- The open shop

    def test_shop(self):
        def one(rng, k):
            n, cells = cases.demand(rng, FIRST)
            d = rng.choice([0, 1, 3, 65_535])
            lent, memory = array("I", cells), bytearray([170] * (12 * 16 if k % 4 else rng.randint(0, 130)))
            answer, after = FIRST.shop_plan(n, cells, d, bytes(memory))
            if k % 4:
                got, told = tried(cv.shop, made(n, cells), d)
                self.same(told, numbers(answer) if answer.code else {}, n, cells, d)
                if not answer.code:
                    self.same((got.data, got.records, got.total), (after[: 12 * answer.records], answer.records, answer.total), n, cells, d)
                return answer.code
            got = lib.call("cv_shop")(n, lib.lent(lent, c_uint32), len(lent), d, lib.lent(memory), len(memory))
            self.same((of_struct(got), bytes(memory)), (numbers(answer), after), n, cells, d)
            return answer.code

        self.compare("cv_shop", one, 19)

    def test_tasks(self):
        def one(rng, k):
            n, cells = cases.demand(rng, FIRST)
            tasks = [] if FIRST.refused_demand(n, cells) else FIRST.shop_list(n, cells, rng.choice([0, 1, 9]))
            records = [bytearray(FIRST.task_bytes(task)) for task in tasks]
            if records and rng.random() < 0.6:
                record = rng.choice(records)
                record[rng.randrange(12)] = rng.choice([0, 1, 2, 5, n % 256, 255])
            data = b"".join(records) + bytes(rng.choice([0] * 12 + [1, 11]))
            answer = numbers(FIRST.read_tasks(n, data))
            got, told = tried(cv.Schedule.from_bytes, data, n)
            self.same(told, answer if answer.get("code") else {}, n, data)
            if not answer.get("code"):
                self.same((got.records, got.total, got.data), (answer.get("records", 0), answer.get("total", 0), data), n, data)
            return answer.get("code", 0)

        self.compare("cv_tasks", one, 20)

    # ---- The console

    def test_in_force(self):
        def one(rng, k):
            n = cases.ports(rng, FIRST)
            tonight, standby = cases.plan(rng, FIRST, n), cases.plan(rng, FIRST, n)
            slot = rng.choice([0, 1, 2, rng.randint(0, 99_999), rng.getrandbits(63), 2**64 - 1])
            due = FIRST.in_force(n, tonight, standby, slot)
            answer, which, record = numbers({**numbers(due.answer), "about": due.about}), due.plan, due.start // FIRST.RECORD
            if k % 4:
                got, told = tried(cv.in_force, tonight, standby, slot, ports=n)
                self.same(told, answer, n, tonight, standby, slot)
                if not told:
                    self.same((got.plan, got.record), (["", "tonight", "standby"][which], record), n, tonight, standby, slot)
                return answer.get("code", 0)
            part = lib.call("cv_in_force")(n, tonight, len(tonight), standby, len(standby), slot)
            wanted = (answer, which, record * 68, 0 if answer else 68)
            self.same((of_struct(part.answer), part.plan, part.start, part.size), wanted, n, tonight, standby, slot)
            return answer.get("code", 0)

        self.compare("cv_in_force", one, 21)

    def test_carry_over(self):
        def one(rng, k):
            n, asked = cases.demand(rng, FIRST)
            wished = [rng.randint(0, 5) for _ in asked] if n <= 8 else list(asked)
            if wished and rng.random() < 0.05:
                wished[rng.randrange(len(wished))] = rng.choice([65_530, 65_536])
            data, first = cases.plan(rng, FIRST, n), rng.choice([0, 0, 1, 1, 2, 3, 2**64 - 1])
            if k % 4:
                answer, new = self.carried(n, asked, data, first, wished, [0] * (n * n))
                got, told = tried(cv.carry_over, made(n, asked), data, first, made(n, wished))
                self.same(told, answer, n, asked, data, first, wished)
                if not answer:
                    self.same(got, made(n, new), n, asked, data, first, wished)
            else:
                lent = [array("I", asked), array("I", wished), array("I", [7] * (n * n))]
                for cells in lent:
                    if rng.random() < 0.03:
                        cells.append(0)
                answer, new = self.carried(n, lent[0].tolist(), data, first, lent[1].tolist(), lent[2].tolist())
                held = [lib.lent(cells, c_uint32) for cells in lent]
                got = lib.call("cv_carry_over")(n, held[0], len(held[0]), data, len(data), first, held[1], len(held[1]), held[2], len(held[2]))
                self.same((of_struct(got), lent[2].tolist()), (answer, new), n, asked, data, first, wished)
            return answer.get("code", 0)

        self.compare("cv_carry_over", one, 22)

    @staticmethod
    def carried(*given):
        answer, about, cells = FIRST.carry_over(*given)
        return numbers({**numbers(answer), "about": about}), cells


class Larger(unittest.TestCase):
    """Each planner on a few demands of larger switches, both editions, and plans of as many records as are read."""

    def test_most_records(self):
        for ref in (FIRST, SECOND):
            if not lib.has(prefix(ref) + "length"):
                self.skipTest(f"the library has no {prefix(ref)}length yet")
            whole = ref.record_bytes(2, 3, [2, 255, 0]) * ref.RECORDS
            plan = cv.Plan.from_bytes(whole, 3, edition(ref))
            self.assertEqual((plan.records, plan.total, cv.length(plan, 5)), (ref.RECORDS, 2 * ref.RECORDS, 2 * ref.RECORDS + 5))
            self.assertEqual(list(cv.join(plan)), self.joined(2 * ref.RECORDS))
            with self.assertRaises(cv.TooManyRecords) as caught:
                cv.Plan.from_bytes(whole + whole[: ref.RECORD], 3, edition(ref))
            self.assertEqual(caught.exception.place, ref.RECORDS)

    @staticmethod
    def joined(total):
        holds = [65_535] * (total // 65_535) + ([total % 65_535] if total % 65_535 else [])
        return [(hold, (2, None, 0)) for hold in holds]

    def test_larger(self):
        rng = random.Random(23)
        for ref, sizes in ((FIRST, (8, 16, 33, 64)), (SECOND, (1, 64, 65, 100))):
            if not (lib.has(prefix(ref) + "exact") and lib.has(prefix(ref) + "check")):
                self.skipTest(f"the library has not all {prefix(ref)} calls yet")
            for n in sizes:
                cells = [rng.choice([0, 0, 0, rng.randint(1, 5)]) for _ in range(n * n)]
                for method, (_, written) in PLANNERS.items():
                    if method == "grating" and ref is SECOND:
                        continue
                    answer, buffer = getattr(ref, written)(n, cells, bytes(ref.RECORD * (n * n + 2_100)))
                    got = cv.plan(made(n, cells), method, edition=edition(ref))
                    self.assertEqual(got.data, buffer[: answer.records * ref.RECORD])
                    self.assertEqual(cv.check(made(n, cells), got), (got.records, got.longest, got.total, got.empty))


if __name__ == "__main__":
    unittest.main()
