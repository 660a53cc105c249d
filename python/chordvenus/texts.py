"""Wishes as people write them: lines of input, output and slots.

Fields are parted by blanks, commas, semicolons or tabs, as the first line has them; a field in double quotes may have anything
inside. What follows a # is left out, and so are empty lines. A first line may name the columns; where its names are input,
output and slots, or words like them, they may come in any order and among others. Ports are numbers from 0 on, or names, which
are numbered as they come; each side has one or the other. A number of slots that is no binary32 is rounded up to the next.
"""
from __future__ import annotations

import re
from typing import Any, List, NamedTuple, Optional, Tuple, Union

from . import _library as lib
from . import refusals
from .demands import FAULTS, Demand, demand, of_wish_list
from .plans import File, read_bytes
from .singles import is_number, single, value_of

COLUMNS = {
    "input": ("input", "in", "from", "source", "reference", "ingress"),
    "output": ("output", "out", "to", "target", "destination", "counter", "egress"),
    "slots": ("slots", "slot", "wish", "wishes", "demand", "value", "amount"),
}
FORMS = ("auto", "text", "wishes")


class BadLine(ValueError):
    """A line of text that is no wish: its number and the column of the fault, both from 1 on, and what is amiss."""

    def __init__(self, line: int, column: int, words: str) -> None:
        super().__init__(f"line {line}, column {column}: {words}")
        self.line = line
        self.column = column
        self.words = words


class Field(NamedTuple):
    """A piece of a line, and the column at which it begins."""

    text: str
    column: int


class Line(NamedTuple):
    """The fields of a line that has any, and its number."""

    number: int
    fields: List[Field]


class Wish(NamedTuple):
    """The three fields of one wish."""

    line: int
    input: Field
    output: Field
    slots: Field


class Read(NamedTuple):
    """A demand, and what a reader of the text should be told."""

    demand: Demand
    notes: List[str]


def read_wishes(file: File, ports: Optional[int] = None, edition: Union[int, str, None] = None, form: str = "auto") -> Demand:
    """The demand of a file of wishes: lines of text, or a wish list of 8-byte records, which is known by its zero bytes.

    >>> import io
    >>> read_wishes(io.BytesIO(b"input,output,slots\\n0,0,2.0\\n0,1,1\\n1,0,0.5\\n1,1,1.5\\n")).rows()
    [[2, 2], [2, 2]]
    >>> read_wishes(io.BytesIO(b"maser counter1 3\\nmaser counter2 four\\n"))
    Traceback (most recent call last):
        ...
    chordvenus.texts.BadLine: line 2, column 16: 'four' is no number
    """
    return read(read_bytes(file), ports, edition, form).demand


def read(data: bytes, ports: Optional[int] = None, edition: Union[int, str, None] = None, form: str = "auto") -> Read:
    """The same for bytes, with notes: whether a number had to be rounded."""
    if form not in FORMS:
        raise ValueError(f"wishes are given as one of {', '.join(FORMS)}, not {form!r}")
    if form == "wishes" or (form == "auto" and b"\0" in data and not data.startswith((b"\xff\xfe", b"\xfe\xff"))):
        return Read(of_wish_list(data, ports, edition), [])
    lines = _lines(_decoded(data))
    wishes = _wishes(lines)
    inputs = _ports([(wish.line, wish.input) for wish in wishes], "input")
    outputs = _ports([(wish.line, wish.output) for wish in wishes], "output")
    notes = _slots(wishes)
    if not wishes and ports is None:
        raise refusals.BadPorts("there is no wish, so that N is not known; say how many ports there are")
    triples = [(i, j, wish.slots.text) for i, j, wish in zip(inputs, outputs, wishes)]
    try:
        return Read(demand(triples, ports, edition), notes)
    except refusals.Refused as refused:
        raise _placed(refused, wishes) from None


def _decoded(data: bytes) -> str:
    if data.startswith((b"\xff\xfe", b"\xfe\xff")):
        raise BadLine(1, 1, "the text is UTF-16, and UTF-8 is read here")
    try:
        return data.decode("utf-8-sig")
    except UnicodeDecodeError as error:
        before = data[: error.start]
        line = before.count(b"\n") + 1
        column = len(before.rpartition(b"\n")[2].decode("utf-8", "replace")) + 1
        raise BadLine(line, column, f"the byte {data[error.start]:02X} is no UTF-8 text") from None


# ---- Lines and their fields


def _lines(text: str) -> List[Line]:
    """The lines that have fields, all parted as the first of them is."""
    lines: List[Line] = []
    delimiter: Optional[str] = None
    for number, line in enumerate(text.split("\n"), 1):
        line = line[:-1] if line.endswith("\r") else line
        if not lines:
            delimiter = next((mark for mark in ";\t," if mark in _bare(line)), None)
        fields = _fields(line, delimiter, number)
        if any(field.text for field in fields):
            lines.append(Line(number, fields))
    return lines


def _bare(line: str) -> str:
    """A line without its quoted fields and its remark."""
    return re.sub(r'"[^"]*"', "", line).split("#")[0]


def _fields(line: str, delimiter: Optional[str], number: int) -> List[Field]:
    fields, at = [], 0
    while True:
        at = _blanks(line, at, delimiter)
        start = at
        if line[at : at + 1] == '"':
            text, at = _quoted(line, at, number)
        else:
            while at < len(line) and line[at] != "#" and not _parts(line[at], delimiter):
                at += 1
            text = line[start:at].rstrip()
        at = _blanks(line, at, delimiter)
        over = at >= len(line) or line[at] == "#"
        if delimiter is not None or text or line[start : start + 1] == '"':
            fields.append(Field(text, start + 1))
        if over:
            return fields
        if delimiter is not None:
            if line[at] != delimiter:
                raise BadLine(number, at + 1, f"{line[at]!r} stands between a quoted field and the next")
            at += 1


def _blanks(line: str, at: int, delimiter: Optional[str]) -> int:
    while at < len(line) and line[at].isspace() and line[at] != delimiter:
        at += 1
    return at


def _parts(mark: str, delimiter: Optional[str]) -> bool:
    return mark.isspace() if delimiter is None else mark == delimiter


def _quoted(line: str, at: int, number: int) -> Tuple[str, int]:
    """A quoted field from its first quote on, and where it ends; two quotes inside stand for one."""
    text, start = "", at
    while True:
        end = line.find('"', at + 1)
        if end < 0:
            raise BadLine(number, start + 1, "this quote is not closed")
        text += line[at + 1 : end]
        if line[end + 1 : end + 2] != '"':
            return text, end + 1
        text, at = text + '"', end + 1


# ---- Columns


def _wishes(lines: List[Line]) -> List[Wish]:
    """The three fields of each line, the first one left out where it names the columns."""
    if not lines:
        return []
    order = _named_columns(lines[0])
    if order is not None:
        return [_picked(line, order) for line in lines[1:]]
    wishes = [_three(line) for line in lines]
    return wishes[1:] if _names_columns(wishes) else wishes


def _named_columns(line: Line) -> Optional[Tuple[int, int, int]]:
    """Where input, output and slots stand, if a line names each of them once."""
    words = [field.text.strip().lower() for field in line.fields]
    found = [[k for k, word in enumerate(words) if word in COLUMNS[role]] for role in ("input", "output", "slots")]
    if any(len(places) != 1 for places in found):
        return None
    return found[0][0], found[1][0], found[2][0]


def _names_columns(wishes: List[Wish]) -> bool:
    """Whether the first line has only words where the second has numbers: then it names the columns in some other words."""
    if len(wishes) < 2:
        return False
    first, second = wishes[0], wishes[1]
    words = [first.input.text, first.output.text, first.slots.text]
    numbered = is_number(second.input.text) and is_number(second.output.text)
    return numbered and not any(is_number(word) or word == "" for word in words)


def _picked(line: Line, order: Tuple[int, int, int]) -> Wish:
    if len(line.fields) <= max(order):
        end = line.fields[-1]
        words = f"there are {len(line.fields)} fields, and the first line names {max(order) + 1} or more"
        raise BadLine(line.number, end.column + len(end.text), words)
    return Wish(line.number, *(line.fields[k] for k in order))


def _three(line: Line) -> Wish:
    if len(line.fields) > 3:
        words = f"there are {len(line.fields)} fields, and a wish has three: input, output and slots"
        raise BadLine(line.number, line.fields[3].column, words)
    if len(line.fields) < 3:
        end = line.fields[-1]
        words = f"there {'is 1 field' if len(line.fields) == 1 else 'are 2 fields'}, and a wish has three: input, output and slots"
        raise BadLine(line.number, end.column + len(end.text), words)
    return Wish(line.number, *line.fields)


# ---- Ports and slots


def _ports(fields: List[Tuple[int, Field]], side: str) -> List[Any]:
    """The ports of one side: all numbers or all names."""
    numbered = bool(fields) and _is_whole(fields[0][1].text)
    ports: List[Any] = []
    for line, field in fields:
        if field.text == "":
            raise BadLine(line, field.column, f"there is no {side}")
        digits = _is_whole(field.text)
        if not digits and is_number(field.text) and field.text[-1] in "0123456789.":
            raise BadLine(line, field.column, f"{field.text!r} is no {side}: ports are whole numbers from 0 on, or names")
        if digits != numbered:
            was = "numbers" if numbered else "names"
            raise BadLine(line, field.column, f"{field.text!r} is {'a number' if digits else 'a name'}, and the {side}s before it are {was}")
        if digits and (len(field.text.lstrip("0")) > 3 or int(field.text) >= lib.SECOND.ports):
            raise BadLine(line, field.column, f"there is no {side} {field.text[:20]}: a switch has at most {lib.SECOND.ports} ports, numbered from 0")
        ports.append(int(field.text) if digits else field.text)
    return ports


def _slots(wishes: List[Wish]) -> List[str]:
    """Checks that every wish is a number; a note where some are no binary32."""
    above = []
    for wish in wishes:
        text = wish.slots.text
        if not is_number(text):
            hint = "; a decimal point is a dot" if re.fullmatch(r"[0-9]+,[0-9]+", text) else ""
            what = "there is no number of slots" if text == "" else f"{text!r} is no number{hint}"
            raise BadLine(wish.line, wish.slots.column, what)
        if not single(text).exact:
            above.append(wish)
    if not above:
        return []
    first = above[0]
    taken = f"line {first.line}: {first.slots.text[:40]} is taken as {value_of(single(first.slots.text).bits)!r}"
    many = "1 number is" if len(above) == 1 else f"{len(above)} numbers are"
    return [f"{many} no binary32 and rounded up to the next, never down; {'it is' if len(above) == 1 else 'the first is'} {taken}"]


def _placed(refused: refusals.Refused, wishes: List[Wish]) -> refusals.Refused:
    """A refusal of one wish, with the line and the column of what it is about."""
    if refused.code not in (6, 7, 8, 11, 12):
        return refused
    wish = wishes[refused.place]
    field = wish.slots if refused.code in (6, 7, 8) else wish.input
    words = refused.sentence
    if refused.code == 12:
        pair = (wish.input.text, wish.output.text)
        before = next(w for w in wishes if (w.input.text, w.output.text) == pair or _same_ports(w, wish))
        words = f"input {pair[0]} and output {pair[1]} are named before, on line {before.line}"
    elif refused.code != 11:
        words = f"the wish {wish.slots.text[:40]} {FAULTS[refused.code]}"
    else:
        words = words.split(", ", 1)[1]
    placed = type(refused)(words, refused.place, refused.side, refused.about)
    placed.line, placed.column = wish.line, field.column
    return placed


def _same_ports(one: Wish, other: Wish) -> bool:
    """Whether two wishes name the same pair in other digits, as 1 and 01."""
    pairs = [(one.input.text, other.input.text), (one.output.text, other.output.text)]
    return all(a == b or (_is_whole(a) and _is_whole(b) and int(a) == int(b)) for a, b in pairs)


def _is_whole(text: str) -> bool:
    return bool(re.fullmatch("[0-9]+", text))
