#!/usr/bin/env python3
"""The second picture of docs/GRATING.md: the reports of two plans of one demand over their slots, the doubled plan above and the quiet plan below.

python3 makers/quiet_picture.py > docs/quiet.svg
"""
import grating_vectors as grating
import reference as ref

N, LIMIT = 5, 2
WIDTH, HEIGHT = 640, 330
LEFT, SLOT, RISE = 60, 26, 18  # where slot 0 starts, the width of a slot, and the height of one sharing input
COLOURS = {True: "#009e73", False: "#d55e00"}  # within the limit, or over it


def panel(base, title, plan):
    """A bar for each record: as wide as its hold, as high as its number in the report."""
    rows = [f'<text x="{LEFT}" y="{base - 5 * RISE - 14}" class="title">{title}</text>']
    for number in range(6):
        rows.append(f'<text x="{LEFT - 10}" y="{base - number * RISE + 4}" class="tick end">{number}</text>')
    at = 0
    for hold, outputs in plan:
        most = ref.most_shared(N, outputs)
        x, width, height = LEFT + at * SLOT, hold * SLOT, most * RISE
        rows.append(f'<rect x="{x}" y="{base - height}" width="{width - 1}" height="{height}" fill="{COLOURS[most <= LIMIT]}"/>')
        at += hold
    for slot in range(0, at + 1, 2):
        rows.append(f'<text x="{LEFT + slot * SLOT}" y="{base + 16}" class="tick">{slot}</text>')
    line = base - LIMIT * RISE
    rows.append(f'<line x1="{LEFT}" y1="{line}" x2="{LEFT + 20 * SLOT}" y2="{line}"/>')
    return rows


def picture():
    doubled, quiet = ref.grating_list(N, grating.PAGE), ref.quiet_list(N, grating.PAGE, LIMIT)
    return "\n".join([
        f'<svg xmlns="http://www.w3.org/2000/svg" viewBox="0 0 {WIDTH} {HEIGHT}" width="{WIDTH}" height="{HEIGHT}" role="img">',
        f"<title>The most inputs on one wavelength, slot by slot: the doubled plan is short and goes up to 5, the quiet plan is longer and keeps to {LIMIT}</title>",
        "<style>",
        "text { font-family: sans-serif; fill: #222 } .title { font-size: 15px } .tick { font-size: 12px; text-anchor: middle }",
        ".end { text-anchor: end } line { stroke: #222; stroke-dasharray: 4 3 }",
        "</style>",
        f'<rect width="{WIDTH}" height="{HEIGHT}" fill="#fff"/>',
        *panel(130, f"Doubled plan for the grating: {ref.total_hold(doubled)} slots, report up to 5", doubled),
        *panel(290, f"Quiet plan within {LIMIT}: {ref.total_hold(quiet)} slots, report up to {LIMIT}", quiet),
        "</svg>",
    ])


if __name__ == "__main__":
    print(picture())
