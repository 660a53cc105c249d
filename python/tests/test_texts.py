"""Wishes as text: every way to write them, and every kind of bad line with its line and column."""
import io
import random
import struct
import unittest

import cases

import chordvenus as cv
from chordvenus import texts

DUE = cv.demand([(0, 0, 2.0), (0, 1, 1.0), (1, 0, 0.5), (1, 1, 1.5)])
WAYS = {
    "blanks": "0 0 2.0\n0 1 1.0\n1 0 0.5\n1 1 1.5\n",
    "many blanks": "  0   0 2.0  \n\n\t0 1\t1.0\n1 0 0.5   # a remark\n# another\n1 1 1.5",
    "commas": "0,0,2.0\n0,1,1.0\n1,0,0.5\n1,1,1.5\n",
    "commas and blanks": "0, 0, 2.0\n0 ,1 , 1.0\n1,0,.5\n1,1,15e-1\n",
    "semicolons": "0;0;2.0\n0;1;1.0\n1;0;0.5\n1;1;1.5\n",
    "tabs": "0\t0\t2.0\n0\t1\t1.0\n1\t0\t0.5\n1\t1\t1.5\n",
    "quotes": '"0","0","2.0"\n"0",1,1.0\n1,"0",0.5\n1,1,"1.5"\n',
    "carriage returns": "0,0,2.0\r\n0,1,1.0\r\n1,0,0.5\r\n1,1,1.5\r\n",
    "a mark of byte order": "\ufeff0,0,2.0\n0,1,1.0\n1,0,0.5\n1,1,1.5\n",
    "a first line": "input,output,slots\n0,0,2.0\n0,1,1.0\n1,0,0.5\n1,1,1.5\n",
    "a first line of other words": "Eingang;Ausgang;Zeit\n0;0;2.0\n0;1;1.0\n1;0;0.5\n1;1;1.5\n",
    "a first line of blanks": "input output slots\n0 0 2.0\n0 1 1.0\n1 0 0.5\n1 1 1.5\n",
    "another order": "Slots,To,From\n2.0,0,0\n1.0,1,0\n0.5,0,1\n1.5,1,1\n",
    "more columns": "night,input,output,remark,slots\n1,0,0,,2.0\n1,0,1,x,1.0\n1,1,0,,0.5\n1,1,1,,1.5\n",
    "empty rows": "input,output,slots\n,,\n0,0,2.0\n0,1,1.0\n,,\n1,0,0.5\n1,1,1.5\n,,\n",
    "zeros in front": "00 000 2.0\n0 01 1.0\n1 0 0.5\n1 1 1.5\n",
}
BAD = {  # text: (line, column, some of the words)
    "0 0 2\n0 1\n": (2, 4, "2 fields"),
    "0 0 2\n0\n": (2, 2, "1 field"),
    "0 0 2 3\n": (1, 7, "4 fields"),
    "0,0,2,\n": (1, 7, "4 fields"),
    "0 0 2\n0 1 two\n": (2, 5, "'two' is no number"),
    "0;0;1,5\n": (1, 5, "a decimal point is a dot"),
    "0,0,\n": (1, 5, "no number of slots"),
    "0,,2\n": (1, 3, "there is no output"),
    ",0,2\n": (1, 1, "there is no input"),
    "-1 0 2\n": (1, 1, "'-1' is no input"),
    "0 1.5 2\n": (1, 3, "'1.5' is no output"),
    "0 0 2\nmaser 0 2\n": (2, 1, "'maser' is a name, and the inputs before it are numbers"),
    "maser 0 2\n3 1 2\n": (2, 1, "'3' is a number, and the inputs before it are names"),
    "0 128 2\n": (1, 3, "there is no output 128"),
    f"{'9' * 5000} 0 2\n": (1, 1, "there is no input 99999999999999999999:"),
    '0,"0,2\n': (1, 3, "this quote is not closed"),
    '0,"0"x,2\n': (1, 6, "stands between a quoted field and the next"),
    "0 0 0x10\n": (1, 5, "'0x10' is no number"),
    "0 0 1_000\n": (1, 5, "'1_000' is no number"),
    "input,output,slots\n0,0\n": (2, 4, "2 fields"),
    "maser,A,two\n": (1, 9, "'two' is no number"),
    "maser,A,two\ncaesium,B,3\n": (1, 9, "'two' is no number"),
}
REFUSED = {  # text: (code, line, column, some of the words)
    "0 0 2\n0 0 3\n": (12, 2, 1, "named before, on line 1"),
    "0 0 2\n\n00 0 3\n": (12, 3, 1, "named before, on line 1"),
    "a b 2\n# x\na b 3\n": (12, 3, 1, "input a and output b are named before, on line 1"),
    "0 0 nan\n": (6, 1, 5, "the wish nan is no finite number"),
    "0 0 1\n0 1 -inf\n": (6, 2, 5, "the wish -inf is no finite number"),
    "0,0,-1\n": (7, 1, 5, "the wish -1 is less than 0"),
    "0,0,-1e-400\n": (7, 1, 5, "is less than 0"),
    "0,0,65536\n": (8, 1, 5, "the wish 65536 is more than 65,535"),
    "0,0,65535.001\n": (8, 1, 5, "is more than 65,535"),
    "0,0,1e400\n": (8, 1, 5, "is more than 65,535"),
}


class Texts(unittest.TestCase):
    def test_ways(self):
        for name, text in WAYS.items():
            self.assertEqual(texts.read(text.encode()).demand, DUE, name)
            self.assertEqual(texts.read(text.encode()).notes, [], name)

    def test_wish_list(self):
        data = b"".join(struct.pack("<BBHf", i, j, 0, slots) for i, j, slots in ((0, 0, 2.0), (0, 1, 1.0), (1, 0, 0.5), (1, 1, 1.5)))
        self.assertEqual(texts.read(data).demand, DUE)
        self.assertEqual(texts.read(data, form="wishes").demand, DUE)
        with self.assertRaisesRegex(cv.Torn, "4 whole wishes and 3 bytes more"):
            texts.read(data + b"\0\0\0")

    def test_names(self):
        d = texts.read("from,to,slots\nmaser,A,3\n\"caesium 2\",B,2\nmaser,B,4\n".encode()).demand
        self.assertEqual(d.names, (("maser", "caesium 2"), ("A", "B")))
        self.assertEqual(d.rows(), [[3, 4], [0, 2]])
        with self.assertRaisesRegex(cv.LineTooLong, "output B is asked for 65,537 slots in all"):
            cv.plan(texts.read(b"a B 65535\nc B 2\n").demand)
        mixed = texts.read(b"maser 0 3\ncaesium 1 2\n").demand
        self.assertEqual(mixed.names, (("maser", "caesium"), None))

    def test_bad_lines(self):
        for text, (line, column, words) in BAD.items():
            with self.assertRaises(texts.BadLine, msg=text[:40]) as caught:
                texts.read(text.encode())
            self.assertEqual((caught.exception.line, caught.exception.column), (line, column), (text[:40], str(caught.exception)))
            self.assertIn(words, str(caught.exception))

    def test_refused_lines(self):
        for text, (code, line, column, words) in REFUSED.items():
            with self.assertRaises(cv.Refused, msg=text) as caught:
                texts.read(text.encode())
            refused = caught.exception
            self.assertEqual((refused.code, refused.line, refused.column), (code, line, column), (text, str(refused)))
            self.assertIn(words, str(refused))
        with self.assertRaisesRegex(cv.Malformed, "names an output that is not there: they are 0 to 1") as caught:
            texts.read(b"0 0 1\n1 2 3\n", ports=2)
        self.assertEqual((caught.exception.line, caught.exception.column), (2, 1))

    def test_not_text(self):
        with self.assertRaisesRegex(texts.BadLine, "line 2, column 3: the byte FF is no UTF-8 text"):
            texts.read(b"0 0 1\n1 \xff 2\n")
        with self.assertRaisesRegex(texts.BadLine, "UTF-16"):
            texts.read("0 0 1\n".encode("utf-16"))

    def test_nothing(self):
        for text in (b"", b"\n\n# nothing\n", b"input,output,slots\n"):
            with self.assertRaisesRegex(cv.BadPorts, "there is no wish"):
                texts.read(text)
            self.assertEqual(texts.read(text, ports=2).demand.rows(), [[0, 0], [0, 0]])

    def test_rounded(self):
        read = texts.read(b"0 0 0.1\n0 1 3.0000001\n1 0 2\n")
        self.assertEqual(len(read.notes), 1)
        self.assertIn("2 numbers are no binary32 and rounded up to the next, never down; the first is line 1: 0.1", read.notes[0])
        self.assertEqual(read.demand.rows(), [[2, 4], [2, 0]])

    def test_any_bytes(self):
        """Whatever the bytes, the answer is a demand or a refusal with words; nothing else comes out."""
        rng = random.Random(35)
        pieces = [b"0", b"1", b" ", b",", b";", b"\n", b"\t", b'"', b"#", b".", b"-", b"e9", b"nan", b"a", b"\xff", b"\r", b"\0", b"input,output,slots\n", b"99", b"\xe2\x82\xac"]
        for _ in range(6_000):
            data = b"".join(rng.choice(pieces) for _ in range(rng.randint(0, 24)))
            try:
                self.assertLessEqual(texts.read(data).demand.ports, 128)
            except (cv.Refused, texts.BadLine) as why:
                self.assertTrue(str(why))
            except cv.CallMissing:
                pass

    def test_read_wishes(self):
        self.assertEqual(cv.read_wishes(str(cases.ROOT / "examples" / "batch.txt")).ports, 6)
        self.assertEqual(cv.read_wishes(io.BytesIO(WAYS["commas"].encode())), DUE)


if __name__ == "__main__":
    unittest.main()
