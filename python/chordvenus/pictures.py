"""Pictures of plans, schedules and wavelength reports, as SVG.

A port has a colour that readers who are colour-blind tell apart from its neighbours', and its number stands in each bar, so
that a print in black and white says as much. Widths are exact: so many units for each slot, which data-scale tells.
"""
from __future__ import annotations

from typing import Any, Iterable, List, NamedTuple, Optional, Union
from xml.sax.saxutils import escape, quoteattr

from .demands import Demand, Wishes, demand
from .plans import Plan
from .schedules import Schedule

# The colours of Okabe and Ito without black, which is for text. The port's number takes over where they come round again.
COLOURS = ("#e69f00", "#56b4e9", "#009e73", "#f0e442", "#0072b2", "#d55e00", "#cc79a7")
INK, PAPER, GREY, FAINT = "#111111", "#ffffff", "#555555", "#dddddd"
SCALES = (32, 24, 16, 12, 8, 6, 4, 3, 2, 1, 0.5, 0.25, 0.125, 0.0625, 0.03125, 0.015625, 0.0078125)  # all exact as text
WIDEST = 960  # of the bars together
NARROWEST = 520  # of a picture, for the words below it
ROW, BAR = 28, 22  # from row to row, and the height of a bar
DIGIT = 7.5  # the width of a digit, a little generous


class Bar(NamedTuple):
    """A stretch of slots in which a port of one side is joined to one of the other."""

    row: int
    port: int
    start: int
    end: int
    kind: str  # "used", "empty" or "switching"


def picture(of: Union[Plan, Schedule], wishes: Optional[Wishes] = None, title: Optional[str] = None) -> str:
    """A plan or a schedule as SVG.

    A plan has its inputs down and its slots across. The bars have the output's colour and number; those that carry nothing
    asked for are hatched: of each pair the last ones granted. A mark stands above each slot at which mirrors move. The demand
    is the plan's own, or that of `wishes`; a plan from a file has none, and then nothing is hatched. A schedule has its outputs
    down and the time across, and the switching at the start of each task hatched.

    >>> picture(plan(cells([[2, 1], [1, 2]]))).splitlines()[0][:44]
    '<svg xmlns="http://www.w3.org/2000/svg" view'
    """
    if isinstance(of, Schedule):
        return _schedule(of, title)
    asked = of.demand if wishes is None else demand(wishes)
    if asked is not None and asked.ports != of.ports:
        raise ValueError(f"the plan has {of.ports} ports, and the demand {asked.ports}")
    return _plan(of, asked, title)


def report_picture(of: Plan, limit: Optional[int] = None, title: Optional[str] = None) -> str:
    """What each record of a plan does to the wavelengths, as SVG: a bar by record for the most inputs that share one, and the
    limit, where one is given, as a line. Records above the limit are hatched.

    >>> report_picture(plan(cells([[2, 1], [1, 2]])), limit=1).count('class="over"')
    2
    """
    from .calls import report

    return _report(of, [int(number) for number in report(of)], limit, title)


# ---- The plan


def _plan(of: Plan, asked: Optional[Demand], title: Optional[str]) -> str:
    names = of.names if asked is None else asked.names
    labels = [names.input(i) for i in range(of.ports)]
    sheet = _Sheet(labels, of.total, "input", title or _plan_title(of))
    sheet.moves(_moves(of))
    sheet.bars(plan_bars(of, asked), names.output, "input", "output")
    notes = ["the number in a bar is the output", "▼ mirrors move", "no bar: idle"]
    return sheet.closed("slots", [names.output(j) for j in range(of.ports)], notes, None if asked is None else "empty: more than was asked")


def _plan_title(of: Plan) -> str:
    counts = f"{of.ports} ports, {of.records:,} records, total hold {of.total:,}"
    return counts if of.empty is None else f"{counts}, {of.empty:,} empty slots"


def _moves(of: Plan) -> List[int]:
    """The slots at which mirrors move: at the first record, and at each whose outputs differ from the record before."""
    slots, at, before = [], 0, None
    for hold, outputs in of:
        if outputs != before:
            slots.append(at)
        at, before = at + hold, outputs
    return slots


def plan_bars(of: Plan, asked: Optional[Demand]) -> List[Bar]:
    """A bar for each stretch in which an input keeps its output, in two where it becomes empty on the way."""
    left = {} if asked is None else {(i, j): asked[i, j] for i in range(of.ports) for j in range(of.ports)}
    bars: List[Bar] = []
    for i, j, start, end in _stretches(of):
        used = end - start if asked is None else min(end - start, left[i, j])
        if asked is not None:
            left[i, j] -= used
        bars += [Bar(i, j, start, start + used, "used")] if used else []
        bars += [Bar(i, j, start + used, end, "empty")] if start + used < end else []
    return bars


def _stretches(of: Plan) -> Iterable[Any]:
    """Input, output, first slot and the slot after the last, for each stretch in which an input keeps its output."""
    since: List[Any] = [(None, 0)] * of.ports
    at = 0
    for hold, outputs in of:
        for i, j in enumerate(outputs):
            kept, start = since[i]
            if j != kept:
                if kept is not None:
                    yield i, kept, start, at
                since[i] = (j, at)
        at += hold
    for i, (kept, start) in enumerate(since):
        if kept is not None:
            yield i, kept, start, at


# ---- The schedule


def _schedule(of: Schedule, title: Optional[str]) -> str:
    names = of.names
    labels = [names.output(j) for j in range(of.ports)]
    counts = f"{of.ports} ports, {of.records:,} tasks, latest end {of.total:,}"
    if of.switching is not None:
        counts += f", switching takes {of.switching:,}"
    sheet = _Sheet(labels, of.total, "output", title or counts)
    sheet.bars(schedule_bars(of), names.input, "output", "input")
    hatched = None if not of.switching else "switching"
    return sheet.closed("slots", [names.input(i) for i in range(of.ports)], ["the number in a bar is the input", "no bar: idle"], hatched)


def schedule_bars(of: Schedule) -> List[Bar]:
    """Two bars for each task, the switching and what it carries, or one where the switching time is 0 or not known."""
    bars = []
    for i, j, start, end in of:
        carries = start + (of.switching or 0)
        bars += [Bar(j, i, start, carries, "switching")] if carries > start else []
        bars.append(Bar(j, i, carries, end, "used"))
    return bars


# ---- The report


def _report(of: Plan, numbers: List[int], limit: Optional[int], title: Optional[str]) -> str:
    most = max([1, *numbers, limit if limit is not None and limit <= of.ports else 0])
    wide = next((w for w in (28, 20, 14, 8, 4, 2, 1) if w * len(numbers) <= WIDEST), 1)
    unit = max(4, min(24, 320 // most))
    left, top = 70, 74
    width, base = left + wide * max(1, len(numbers)) + 90, top + unit * most
    lines = _opening(max(width, NARROWEST), base + 66, title or _plan_title(of), unit)
    lines.append('<text class="note" x="16" y="48">the most inputs on one wavelength, by record</text>')
    lines += _heights(most, unit, left, base, width - 60)
    for k, number in enumerate(numbers):
        lines += _column(k, number, limit is not None and number > limit, left + k * wide, wide, unit, base, of[k].hold)
    if limit is not None and limit <= of.ports:
        y = base - unit * limit
        lines.append(f'<line class="limit" x1="{left - 6}" y1="{_n(y)}" x2="{width - 60}" y2="{_n(y)}"/>')
        lines.append(f'<text class="note" x="{width - 54}" y="{_n(y + 4)}">limit {limit}</text>')
    words = "record" + (", and its hold below" if wide >= 20 else "")
    lines.append(f'<text class="note" x="{left}" y="{base + 54}">{words}{"; hatched: above the limit" if limit is not None else ""}</text>')
    return "\n".join([*lines, "</svg>"]) + "\n"


def _heights(most: int, unit: int, left: int, base: int, right: int) -> List[str]:
    """The numbers up the side, each with its line across."""
    lines = []
    for number in range(0, most + 1, _step(most, 8)):
        y = base - unit * number
        lines.append(f'<line class="grid" x1="{left - 6}" y1="{_n(y)}" x2="{right}" y2="{_n(y)}"/>')
        lines.append(f'<text class="end" x="{left - 10}" y="{_n(y + 4)}">{number}</text>')
    return lines


def _column(k: int, number: int, over: bool, x: float, wide: float, unit: int, base: int, hold: int) -> List[str]:
    """The bar of one record, with its number, the record's and its hold where they fit."""
    inner, tall = max(wide - 4, wide * 0.8), unit * number
    fill = f"url(#h{5})" if over else COLOURS[1]
    said = escape(f"record {k}, hold {hold}: {number}")
    lines = [
        f'<rect class="{"over" if over else "bar"}" x="{_n(x)}" y="{_n(base - tall)}" width="{_n(inner)}" height="{_n(tall)}" '
        f'fill="{fill}" data-record="{k}"><title>{said}</title></rect>'
    ]
    middle = _n(x + inner / 2)
    if wide >= 14:
        lines.append(f'<text class="mid" x="{middle}" y="{_n(base - tall - 4)}">{number}</text>')
    if wide >= 20:
        lines.append(f'<text class="mid" x="{middle}" y="{base + 16}">{k}</text>')
        lines.append(f'<text class="mid small" x="{middle}" y="{base + 32}">{hold}</text>')
    return lines


# ---- What a sheet of bars has


class _Sheet:
    """Rows for ports and slots across, drawn from the top down."""

    def __init__(self, labels: List[str], total: int, side: str, title: str) -> None:
        self.scale = next((scale for scale in SCALES if scale * total <= WIDEST), SCALES[-1])
        self.total, self.rows = total, len(labels)
        self.left, self.top = 24 + 7 * max(len(side) + 1 + len(label) for label in labels), 62
        self.width = max(self.left + self.scale * total + 24, NARROWEST)
        self.lines: List[str] = []
        self.title = title
        for k, label in enumerate(labels):
            self.lines.append(f'<text class="end" x="{_n(self.left - 8)}" y="{_n(self._y(k) + 16)}">{escape(f"{side} {label}")}</text>')

    def _y(self, row: int) -> float:
        return self.top + ROW * row

    def moves(self, slots: List[int]) -> None:
        """A mark above each of the slots, and a line down from it."""
        for slot in slots:
            x = self.left + self.scale * slot
            self.lines.append(f'<line class="grid" x1="{_n(x)}" y1="{self.top - 4}" x2="{_n(x)}" y2="{_n(self._y(self.rows))}"/>')
            self.lines.append(f'<path class="move" d="M{_n(x - 5)} {self.top - 14}h10l-5 9z" data-slot="{slot}"/>')

    def bars(self, bars: List[Bar], name: Any, row_side: str, port_side: str) -> None:
        """The bars, each with the number of its port where there is room for it."""
        for bar in bars:
            x, y = self.left + self.scale * bar.start, self._y(bar.row)
            width = self.scale * (bar.end - bar.start)
            said = escape(f"{row_side} {bar.row}, {port_side} {name(bar.port)}, slots {bar.start} to {bar.end - 1}: {bar.kind}")
            self.lines.append(
                f'<rect class="{bar.kind}" x="{_n(x)}" y="{_n(y)}" width="{_n(width)}" height="{BAR}" fill="{_fill(bar)}" '
                f'data-row="{bar.row}" data-port="{bar.port}"><title>{said}</title></rect>'
            )
            if width >= DIGIT * len(str(bar.port)) + 3 and bar.kind != "switching":
                light = ink_on(COLOURS[bar.port % len(COLOURS)]) == PAPER
                how = "mid halo" if bar.kind == "empty" else "mid light" if light else "mid"
                self.lines.append(f'<text class="{how}" x="{_n(x + width / 2)}" y="{_n(y + 16)}">{bar.port}</text>')

    def closed(self, across: str, ports: List[str], notes: List[str], hatched: Optional[str]) -> str:
        """The whole picture: slots along the bottom, and below it what colours and marks mean."""
        base = self._y(self.rows)
        lines = list(self.lines)
        for slot in range(0, self.total + 1, _step(self.total, max(1, int(self.scale * self.total) // 56))):
            x = self.left + self.scale * slot
            lines.append(f'<line class="grid" x1="{_n(x)}" y1="{_n(base)}" x2="{_n(x)}" y2="{_n(base + 5)}"/>')
            lines.append(f'<text class="mid" x="{_n(x)}" y="{_n(base + 19)}">{slot}</text>')
        lines.append(f'<text class="end" x="{_n(self.left - 8)}" y="{_n(base + 19)}">{across}</text>')
        key, height = self._key(ports, notes, hatched, base + 46)
        opening = _opening(self.width, height, self.title, self.scale)
        return "\n".join([*opening, *lines, *key, "</svg>"]) + "\n"

    def _key(self, ports: List[str], notes: List[str], hatched: Optional[str], y: float) -> Any:
        """Swatches with the ports' names, in lines as wide as the picture; then the marks in words."""
        entries = [(COLOURS[k % len(COLOURS)], f"{k}" if name == str(k) else f"{k} {name}") for k, name in enumerate(ports)]
        if len(entries) > 16 and all(name == str(k) for k, name in enumerate(ports)):
            entries = []  # the numbers stand in the bars, and there is nothing to add
        if hatched is not None:
            entries.append(("url(#h)", hatched))
        lines, x = [], 16.0
        for fill, words in entries:
            wide = 28 + 7 * len(words) + 14
            if x + wide > self.width and x > 16:
                x, y = 16.0, y + 22
            lines.append(f'<rect class="key" x="{_n(x)}" y="{_n(y - 11)}" width="20" height="14" fill="{fill}"/>')
            lines.append(f'<text class="note" x="{_n(x + 26)}" y="{_n(y)}">{escape(words)}</text>')
            x += wide
        y += 24 if entries else 0
        lines.append(f'<text class="note" x="16" y="{_n(y)}">{escape("; ".join(notes))}</text>')
        return lines, y + 16


def _opening(width: float, height: float, title: str, scale: float) -> List[str]:
    """The first lines of a picture: its size, what it shows in words, its styles and its hatchings."""
    width = max(width, 32 + 9 * len(title))
    hatches = [_hatch("h", FAINT)] + [_hatch(f"h{k}", _tint(colour)) for k, colour in enumerate(COLOURS)]
    return [
        f'<svg xmlns="http://www.w3.org/2000/svg" viewBox="0 0 {_n(width)} {_n(height)}" width="{_n(width)}" height="{_n(height)}" '
        f'role="img" aria-label={quoteattr(title)} data-scale="{_n(scale)}">',
        f"<title>{escape(title)}</title>",
        "<style>",
        f"text {{ font: 13px sans-serif; fill: {INK} }} .heading {{ font-size: 15px; font-weight: bold }} .end {{ text-anchor: end }}",
        f".mid {{ text-anchor: middle }} .small {{ font-size: 11px }} .note {{ font-size: 12px }} .light {{ fill: {PAPER} }}",
        f".halo {{ paint-order: stroke; stroke: {PAPER}; stroke-width: 4px; stroke-linejoin: round }}",
        f".used, .empty, .switching, .bar, .over, .key {{ stroke: {INK}; stroke-width: 0.8 }} .grid {{ stroke: {FAINT} }} .move {{ fill: {INK} }}",
        f".limit {{ stroke: {INK}; stroke-width: 2; stroke-dasharray: 7 4 }}",
        "</style>",
        "<defs>",
        *hatches,
        "</defs>",
        f'<rect width="{_n(width)}" height="{_n(height)}" fill="{PAPER}"/>',
        f'<text class="heading" x="16" y="28">{escape(title)}</text>',
    ]


def _hatch(name: str, paper: str) -> str:
    return (
        f'<pattern id="{name}" width="6" height="6" patternUnits="userSpaceOnUse" patternTransform="rotate(45)">'
        f'<rect width="6" height="6" fill="{paper}"/><rect width="1.6" height="6" fill="{GREY}"/></pattern>'
    )


def _fill(bar: Bar) -> str:
    k = bar.port % len(COLOURS)
    return COLOURS[k] if bar.kind == "used" else f"url(#h{k})"


def _tint(colour: str) -> str:
    """A colour half way to white."""
    return "#" + "".join(f"{(int(colour[k : k + 2], 16) + 255) // 2:02x}" for k in (1, 3, 5))


def luminance(colour: str) -> float:
    """How light a colour is, from 0 to 1, as a print in black and white shows it (WCAG's relative luminance)."""
    parts = [int(colour[k : k + 2], 16) / 255 for k in (1, 3, 5)]
    linear: List[float] = [part / 12.92 if part <= 0.04045 else ((part + 0.055) / 1.055) ** 2.4 for part in parts]
    return 0.2126 * linear[0] + 0.7152 * linear[1] + 0.0722 * linear[2]


def contrast(one: str, other: str) -> float:
    """The contrast of two colours, from 1 to 21; text is readable from 4.5 on."""
    light, dark = sorted((luminance(one), luminance(other)), reverse=True)
    return (light + 0.05) / (dark + 0.05)


def ink_on(colour: str) -> str:
    """Black or white, whichever is read more easily on a colour."""
    return max((INK, PAPER), key=lambda ink: contrast(ink, colour))


def _step(most: int, parts: int) -> int:
    """1, 2 or 5 and zeros, so that at most so many steps go into a length."""
    step = 1
    while most / step > max(parts, 1):
        step = step * 5 // 2 if str(step)[0] == "2" else step * 2
    return step


def _n(number: float) -> str:
    """A number as short as it can be written."""
    return f"{number:.7f}".rstrip("0").rstrip(".")
