#!/usr/bin/env python3
"""The picture of docs/GRATING.md: a rotation beside an anti-rotation, each joined pair drawn in its wavelength's colour.

python3 makers/grating_picture.py > docs/grating.svg
"""
N, K = 5, 1
COLOURS = ["#0072b2", "#d55e00", "#009e73", "#cc79a7", "#8a6d00"]  # told apart by colour-blind readers too
WIDTH, HEIGHT = 640, 300
LEFT, RIGHT, TOP, STEP = 70, 230, 80, 42  # of one panel: the inputs' and the outputs' columns, the first port, and between ports


def panel(x, title, below, outputs):
    """One setting: inputs on the left, outputs on the right, a line for each joined pair with its wavelength's number."""
    rows = [f'<text x="{x + 150}" y="36" class="title">{title}</text>']
    for port in range(N):
        y = TOP + STEP * port
        rows.append(f'<text x="{x + LEFT - 14}" y="{y + 5}" class="port end">{port}</text>')
        rows.append(f'<text x="{x + RIGHT + 14}" y="{y + 5}" class="port">{port}</text>')
    for i, j in enumerate(outputs):
        w = (j - i) % N
        y1, y2 = TOP + STEP * i, TOP + STEP * j
        rows.append(f'<line x1="{x + LEFT}" y1="{y1}" x2="{x + RIGHT}" y2="{y2}" stroke="{COLOURS[w]}"/>')
        at = 0.12
        cx, cy = LEFT + (RIGHT - LEFT) * at, y1 + (y2 - y1) * at
        rows.append(f'<circle cx="{x + cx:.1f}" cy="{cy:.1f}" r="9" fill="{COLOURS[w]}"/>')
        rows.append(f'<text x="{x + cx:.1f}" y="{cy + 4:.1f}" class="wave">{w}</text>')
    rows.append(f'<text x="{x + 150}" y="{HEIGHT - 14}" class="below">{below}</text>')
    return rows


def picture():
    rotation = [(i + K) % N for i in range(N)]
    anti = [(K - i) % N for i in range(N)]
    return "\n".join([
        f'<svg xmlns="http://www.w3.org/2000/svg" viewBox="0 0 {WIDTH} {HEIGHT}" width="{WIDTH}" height="{HEIGHT}" role="img">',
        f"<title>A rotation uses one wavelength on all inputs, an anti-rotation a different one on each (N = {N}, k = {K})</title>",
        "<style>",
        "text { font-family: sans-serif; fill: #222 } .title { font-size: 16px; text-anchor: middle } .port { font-size: 14px }",
        ".end { text-anchor: end } .below { font-size: 14px; text-anchor: middle } line { stroke-width: 2.5 }",
        ".wave { font-size: 12px; fill: #fff; text-anchor: middle }",
        "</style>",
        f'<rect width="{WIDTH}" height="{HEIGHT}" fill="#fff"/>',
        *panel(10, f"Rotation: i to (i + {K}) mod {N}", f"wavelength {K} on all {N} inputs: report {N}", rotation),
        *panel(330, f"Anti-rotation: i to ({K} - i) mod {N}", "each wavelength on one input: report 1", anti),
        "</svg>",
    ])


if __name__ == "__main__":
    print(picture())
