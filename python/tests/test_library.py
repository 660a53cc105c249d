"""The declared calls against the header: every one is there, with the same arguments and the same answer."""
import ctypes
import ctypes.util
import os
import re
import subprocess
import sys
import tempfile
import unittest

import cases

import chordvenus as cv
from chordvenus import _library as lib

HEADER = (cases.ROOT / "include" / "chordvenus.h").read_text(encoding="utf-8")
BARE = re.sub(r"/\*.*?\*/", " ", HEADER, flags=re.DOTALL)
TYPES = {
    "uint64_t": ctypes.c_uint64,
    "uint32_t": ctypes.c_uint32,
    "uint16_t": ctypes.c_uint16,
    "size_t": ctypes.c_size_t,
    "cv_answer": lib.Answer,
    "cv_step": lib.Step,
    "cv2_step": lib.Step2,
    "cv_part": lib.Part,
    "const uint8_t *": ctypes.c_char_p,
    "uint8_t *": ctypes.POINTER(ctypes.c_uint8),
    "const uint32_t *": ctypes.POINTER(ctypes.c_uint32),
    "uint32_t *": ctypes.POINTER(ctypes.c_uint32),
}


def declared():
    """The header's prototypes: name, answer, arguments."""
    for answer, name, words in re.findall(r"^(?:CV_\w+ )?(\w+) (cv2?_\w+)\(([^()]*)\)(?: CV_\w+)?;", BARE, re.MULTILINE):
        yield name, TYPES[answer], tuple(argument(word.strip()) for word in words.split(",") if word.strip() != "void")


def argument(word):
    if word.endswith("]"):  # an array of outputs, which is a pointer
        word = re.sub(r"(\w+)\[\w+\]$", r"*\1", word)
    kind = re.sub(r"\w+$", "", word).strip() if not re.fullmatch(r"[\w ]+", word) else word.rsplit(" ", 1)[0]
    return TYPES[re.sub(r"\s*\*$", " *", kind)]


class Declared(unittest.TestCase):
    def test_every_prototype(self):
        found = {name: (answer, arguments) for name, answer, arguments in declared()}
        self.assertGreater(len(found), 20)
        for name, (answer, arguments) in found.items():
            self.assertIn(name, lib.SIGNATURES)
            self.assertIs(lib.SIGNATURES[name][0], answer, name)
            self.assertEqual(lib.SIGNATURES[name][1], arguments, name)
            self.assertTrue(lib.has(name), f"the library does not have {name}")
        early = sorted(set(lib.SIGNATURES) - set(found))
        if early:
            print(f"declared before the header has them: {', '.join(early)}")

    def test_numbers(self):
        numbers = dict(re.findall(r"\b(CV2?_\w+) = (\d+)", HEADER))
        numbers.update(re.findall(r"#define (CV_VERSION) (\d+)", HEADER))
        same = {
            "CV_VERSION": lib.VERSION,
            "CV_MOST_PORTS": lib.FIRST.ports,
            "CV_RECORD_SIZE": lib.FIRST.size,
            "CV_MOST_RECORDS": lib.FIRST.records,
            "CV2_MOST_PORTS": lib.SECOND.ports,
            "CV2_RECORD_SIZE": lib.SECOND.size,
            "CV2_MOST_RECORDS": lib.SECOND.records,
            "CV_WISH_SIZE": lib.WISH_SIZE,
            "CV_TASK_SIZE": lib.TASK_SIZE,
            "CV_DROPPED_SIZE": lib.DROPPED_SIZE,
            "CV_IDLE": lib.IDLE,
            "CV_MOST_LINE": lib.MOST_LINE,
            "CV_MOST_QUICK": lib.MOST_QUICK,
        }
        for name, number in same.items():
            if name in numbers:
                self.assertEqual(int(numbers[name]), number, name)
        self.assertIn("CV_VERSION", numbers)
        self.assertEqual(ctypes.sizeof(lib.Answer), 88)
        self.assertEqual(ctypes.sizeof(lib.Part), 112)

    def test_a_class_for_each_code(self):
        codes = re.search(r"CV_DONE = 0(.*?)\};", HEADER, re.DOTALL)
        numbers = {int(number) for number in re.findall(r"CV_\w+ = (\d+)", codes[1])}
        kinds = cv.refusals.BY_CODE
        self.assertLessEqual(numbers, set(kinds))
        self.assertEqual(len(set(kinds.values())), len(kinds))
        for code, kind in kinds.items():
            self.assertEqual(kind.code, code)
            self.assertTrue(issubclass(kind, cv.Refused) and issubclass(kind, ValueError))
            self.assertIs(getattr(cv, kind.__name__), kind)

    def test_missing_call(self):
        with self.assertRaisesRegex(cv.CallMissing, "has no cv_of_tomorrow"):
            lib.call("cv_of_tomorrow")

    def other(self, library, words):
        """What the command says with another library."""
        named = {**os.environ, "CHORDVENUS_LIBRARY": library}
        ran = subprocess.run([sys.executable, str(cases.ROOT / "python/bin/chordvenus"), "plan"], input=b"0 0 1\n", capture_output=True, env=named)
        self.assertEqual((ran.returncode, ran.stdout), (1, b""))
        self.assertRegex(ran.stderr.decode(), words)
        self.assertNotIn("Traceback", ran.stderr.decode())

    def test_no_library(self):
        self.other("/nowhere/libchordvenus.so", "libchordvenus.so is not found; ./example makes it")

    def test_not_ours(self):
        self.other(ctypes.util.find_library("c") or "libc.so.6", "is not Chordvenus: it has no cv_version")

    def test_another_version(self):
        with tempfile.TemporaryDirectory() as folder:
            source, made = os.path.join(folder, "other.c"), os.path.join(folder, "other.so")
            with open(source, "w", encoding="utf-8") as file:
                file.write("unsigned long long cv_version(void) { return 999; }\n")
            subprocess.run([os.environ.get("CC", "cc"), "-shared", "-fPIC", source, "-o", made], check=True)
            self.other(made, "is of version 999, and this module of version")


if __name__ == "__main__":
    unittest.main()
