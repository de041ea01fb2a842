"""docs/benchmarks.svg: how the cost of a call grows with the ports, a diagram for each kind of call. Both axes begin at 0 and are linear, so what grows
with the ports is a straight line, and what grows with their square is bent."""

from math import log10

PORTS = [1, 2, 4, 8, 16, 32]
COLUMNS = 4
WIDTH, HEIGHT, HEAD = 290, 222, 58  # of a diagram, and what stands above all
LEFT, RIGHT, TOP, BOTTOM = 56, 60, 30, 44  # around the lines of a diagram
GAP = 14  # between two labels
MARKED = [1, 8, 16, 32]  # ports that are written below

STYLE = """
  text { font: 13px system-ui, sans-serif; fill: #24292f } .small { font-size: 11px; fill: #57606a }
  .head { font-size: 16px; font-weight: 600 } .kind { font-size: 13px; font-weight: 600 }
  .ground { fill: #ffffff } .grid { stroke: #d8dee4 } .line { fill: none; stroke-width: 2 }
  .model { stroke-dasharray: 6 4; stroke-width: 1.6 } .copy { stroke-dasharray: 1.5 3; stroke-width: 1.6 } text.small { stroke: none }
  .library { stroke: #0550ae } .model { stroke: #bc4c00 } .copy { stroke: #6e7781 }
  .dot.library, text.library { fill: #0550ae; stroke: none } .dot.model, text.model { fill: #bc4c00; stroke: none }
  text.copy { fill: #57606a; stroke: none }
  @media (prefers-color-scheme: dark) {
    text { fill: #e6edf3 } .small, text.copy { fill: #9198a1 } .ground { fill: #0d1117 } .grid { stroke: #30363d }
    .library { stroke: #79c0ff } .model { stroke: #ffa657 } .copy { stroke: #9198a1 }
    .dot.library, text.library { fill: #79c0ff } .dot.model, text.model { fill: #ffa657 }
  }"""


def across(ports):
    return LEFT + ports / PORTS[-1] * (WIDTH - LEFT - RIGHT)


def steps(most):
    """Round numbers from 0, three to five of them above it, of which the last is no less than the most."""
    power = 10 ** int(log10(most))
    step = next(step for step in (power / 5, power / 4, power / 2, power, 2 * power, 2.5 * power) if 5 * step >= most)
    return [step * i for i in range(6) if step * (i - 1) < most]


def apart(heights):
    """Two heights, moved so that their labels do not touch."""
    (first, second), short = heights, GAP - abs(heights[0] - heights[1])
    if short <= 0:
        return heights
    up = -1 if first <= second else 1
    return [first + up * short / 2, second - up * short / 2]


def diagram(counts, call, x, y):
    """One kind of call: the library's line, the model's, and the copy's."""
    lines = {"copy": [counts["copy", n, "copy"] for n in PORTS]}
    lines |= {side: [counts[call, n, side] for n in PORTS] for side in ("model", "library")}
    rows = steps(max(max(figures) for figures in lines.values()))

    def down(figure):
        return TOP + (1 - figure / rows[-1]) * (HEIGHT - TOP - BOTTOM)

    drawn = [f'<g transform="translate({x} {y})">', f'<text class="kind" x="{LEFT}" y="{TOP - 12}">{call}</text>']
    for row in rows:
        drawn.append(f'<line class="grid" x1="{LEFT}" y1="{down(row):.1f}" x2="{across(32):.1f}" y2="{down(row):.1f}"/>')
        drawn.append(f'<text class="small" x="{LEFT - 7}" y="{down(row) + 4:.1f}" text-anchor="end">{row:,.0f}</text>')
    for n in MARKED:
        drawn.append(f'<line class="grid" x1="{across(n):.1f}" y1="{TOP}" x2="{across(n):.1f}" y2="{HEIGHT - BOTTOM}"/>')
        drawn.append(f'<text class="small" x="{across(n):.1f}" y="{HEIGHT - BOTTOM + 15}" text-anchor="middle">{n}</text>')
    drawn.append(f'<text class="small" x="{across(16):.1f}" y="{HEIGHT - BOTTOM + 30}" text-anchor="middle">ports</text>')
    for side, figures in lines.items():
        points = [(across(n), down(figure)) for n, figure in zip(PORTS, figures)]
        drawn.append(f'<polyline class="{side} line" points="{" ".join(f"{a:.1f},{b:.1f}" for a, b in points)}"/>')
        drawn += [f'<circle class="{side} dot" cx="{a:.1f}" cy="{b:.1f}" r="2.2"/>' for a, b in points if side != "copy"]
    ends = {side: lines[side][-1] for side in ("library", "model")}
    for (side, figure), height in zip(ends.items(), apart([down(figure) for figure in ends.values()])):
        drawn.append(f'<text class="{side}" x="{across(32) + 7:.1f}" y="{height + 4:.1f}">{figure:,.0f}</text>')
    return [*drawn, "</g>"]


def key(x, side, words):
    """A sample of a line, and what it is."""
    return [f'<line class="{side} line" x1="{x}" y1="43" x2="{x + 30}" y2="43"/>', f'<text class="{side}" x="{x + 37}" y="47">{words}</text>']


def picture(counts, calls):
    rows = -(-len(calls) // COLUMNS)
    width, height = WIDTH * COLUMNS, HEAD + HEIGHT * rows
    lines = [f'<svg xmlns="http://www.w3.org/2000/svg" viewBox="0 0 {width} {height}" width="{width}" height="{height}">',
             f"<title>Instructions of a call over the number of ports</title>\n<style>{STYLE}\n</style>",
             f'<rect class="ground" width="{width}" height="{height}"/>',
             f'<text class="head" x="{LEFT}" y="26">Instructions of a call over the number of ports, on linear axes; the figures are those at 32 ports</text>',
             *key(LEFT, "library", "library"), *key(LEFT + 120, "model", "model"), *key(LEFT + 230, "copy", "a copy of the table")]
    for i, call in enumerate(calls):
        lines += diagram(counts, call, i % COLUMNS * WIDTH, HEAD + i // COLUMNS * HEIGHT)
    return "\n".join([*lines, "</svg>", ""])
