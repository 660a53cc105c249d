#!/usr/bin/env python3
"""The picture of docs/SHOP.md: the schedule of its demand, a row for each output and a bar for each task.

python3 makers/shop_picture.py > docs/shop.svg
"""
import reference as ref
from shop_vectors import PAGE

N, D = 4, 1
COLOURS = ["#0072b2", "#d55e00", "#009e73", "#a0527f"]  # an input each, told apart by colour-blind readers too
LEFT, TOP, ROW, BAR, SLOT = 90, 30, 40, 28, 56  # the first slot, the first row, between rows, a bar's height, a slot's width


def bar(task):
    """A task: the switching darker, then the slots, with the input's number in the middle."""
    x, y, width = LEFT + SLOT * task.start, TOP + ROW * task.output, SLOT * (task.end - task.start)
    return [
        f'<rect x="{x}" y="{y}" width="{width}" height="{BAR}" fill="{COLOURS[task.input]}" stroke="#fff"/>',
        f'<rect x="{x}" y="{y}" width="{SLOT * D}" height="{BAR}" fill="#000" opacity="0.3"/>',
        f'<text x="{x + (width + SLOT * D) / 2:g}" y="{y + BAR / 2 + 5:g}" class="bar">{task.input}</text>',
    ]


def picture():
    tasks = ref.shop_list(N, PAGE, D)
    last = max(task.end for task in tasks)
    width, foot = LEFT + SLOT * last + 30, TOP + ROW * N
    ticks = [f'<text x="{LEFT + SLOT * t}" y="{foot + 18}" class="tick">{t}</text>' for t in range(last + 1)]
    lines = [f'<line x1="{LEFT + SLOT * t}" y1="{TOP - 8}" x2="{LEFT + SLOT * t}" y2="{foot}"/>' for t in range(last + 1)]
    rows = [f'<text x="{LEFT - 12}" y="{TOP + ROW * j + BAR / 2 + 5:g}" class="row">output {j}</text>' for j in range(N)]
    return "\n".join([
        f'<svg xmlns="http://www.w3.org/2000/svg" viewBox="0 0 {width} {foot + 30}" width="{width}" height="{foot + 30}" role="img">',
        f"<title>The tasks of a demand of {N} ports by output, switching time {D}: {len(tasks)} bars, the last over at {last}</title>",
        "<style>",
        "text { font-family: sans-serif; font-size: 14px; fill: #222 } .row { text-anchor: end } .tick { text-anchor: middle }",
        ".bar { text-anchor: middle; fill: #fff } line { stroke: #ddd }",
        "</style>",
        f'<rect width="{width}" height="{foot + 30}" fill="#fff"/>',
        *lines,
        *(row for task in tasks for row in bar(task)),
        *rows,
        *ticks,
        "</svg>",
    ])


if __name__ == "__main__":
    print(picture())
