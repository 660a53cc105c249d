#!/usr/bin/env python3
"""Turns lines of `input output slots` into a wish list: 8-byte records of input, output, two zero bytes and a binary32, low byte first.

python3 makers/wish_list.py < examples/batch.txt > wishes
What follows a # is left out, and so are empty lines. Slots are any number that Python reads, also nan and inf, rounded to the nearest binary32.
"""
import struct
import sys


def records(text):
    lines = [line.split("#")[0].split() for line in text.splitlines()]
    return b"".join(record(*words) for words in lines if words)


def record(i, j, slots):
    return struct.pack("<BBHf", int(i), int(j), 0, float(slots))


if __name__ == "__main__":
    sys.stdout.buffer.write(records(sys.stdin.read()))
