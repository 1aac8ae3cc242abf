#!/usr/bin/env python3
"""Draw the ratios of the benchmark as an SVG.

    plot.py < SUMMARY > SVG

SUMMARY is what summary.py prints. A panel is a call, a row a group of texts, a dot the median of the
processes; a ring is the same call with its buffers cut to the text's tokens.
"""

import csv
import math
import sys
from xml.sax.saxutils import escape

PANELS = {
    "tokens": "asciimath_tokens",
    "parse": "asciimath_parse",
    "parse_tokens": "asciimath_parse_tokens",
    "closers": "asciimath_closers_text / parse",
    "mathml": "asciimath_mathml / parse and a writer",
    "parse, 4,096": "asciimath_parse, room for 4,096 tokens",
    "parse, crate": "asciimath::parse",
    "parse, borrowed": "asciimath::borrowed::parse",
    "parse_tokens, crate": "asciimath::parse_tokens",
}
COLUMNS, LEFT, TOP, WIDTH, BESIDE, STEP, BETWEEN = 3, 185, 124, 270, 36, 14, 64
LOW, HIGH = 0.02, 20
TICKS = [0.02, 0.05, 0.1, 0.2, 0.5, 1, 2, 5, 10, 20]
OURS, THEIRS = "#1b6ca8", "#c8553d"
TITLE = "Time of a call: ours divided by that of the Rust original, asciimath-parser d19631f642"
SUBTITLE = (
    "Each text once a pass, in an order drawn anew. "
    "Left of the line at 1 ours is quicker (blue), right of it the original (red)."
)


def text(x, y, words, more=""):
    return f'<text x="{x:.1f}" y="{y:.1f}" {more}>{escape(words)}</text>'


def line(x1, y1, x2, y2, more):
    return f'<line x1="{x1:.1f}" y1="{y1:.1f}" x2="{x2:.1f}" y2="{y2:.1f}" {more}/>'


def place(ratio):
    """From the left of a panel."""
    return WIDTH * math.log(min(max(ratio, LOW), HIGH) / LOW) / math.log(HIGH / LOW)


def mark(x, y, row, ring):
    """The dot of a call and group with its two spreads, and the ring of the cut buffers."""
    ratio, low, high, first, last = (float(row[name]) for name in ("ratio", "low", "high", "pass low", "pass high"))
    colour = OURS if ratio <= 1 else THEIRS
    say = f"{row['call']}, {row['group']}: {ratio:.2f}; processes {low:.2f} to {high:.2f}; passes {first:.2f} to {last:.2f}"
    parts = [
        line(x + place(first), y, x + place(last), y, f'stroke="{colour}" stroke-width="1"'),
        line(x + place(low), y, x + place(high), y, f'stroke="{colour}" stroke-width="5" stroke-opacity="0.4"'),
        f'<circle cx="{x + place(ratio):.1f}" cy="{y:.1f}" r="3" fill="{colour}"/>',
    ]
    if ring:
        at = x + place(float(ring["ratio"]))
        say += f"; cut {float(ring['ratio']):.2f}"
        parts.append(f'<circle cx="{at:.1f}" cy="{y:.1f}" r="3.5" fill="none" stroke="#333"/>')
    return f"<g><title>{escape(say)}</title>{''.join(parts)}</g>"


def frame(x, y, height, name):
    """A panel without its marks."""
    parts = [text(x, y - 8, name, 'font-weight="bold"')]
    for tick in TICKS:
        at, colour = x + place(tick), "#333" if tick == 1 else "#ddd"
        parts.append(line(at, y, at, y + height, f'stroke="{colour}"'))
        parts.append(text(at, y + height + 13, f"{tick:g}", 'text-anchor="middle" font-size="10"'))
    parts.append(text(x + WIDTH / 2, y + height + 28, "ratio of times, ours / original", 'text-anchor="middle" font-size="10"'))
    return parts


def panel(x, y, call, rows, groups):
    parts = frame(x, y, STEP * len(groups), PANELS[call])
    for number, group in enumerate(groups):
        row, ring = rows.get((call, group)), rows.get((call + ", cut", group))
        if row:
            parts.append(mark(x, y + STEP * (number + 0.5), row, ring))
    return parts


def legend():
    y, bar = 74, f'stroke="{OURS}" stroke-width="5" stroke-opacity="0.4"'
    return [
        text(20, 30, TITLE, 'font-size="17"'),
        text(20, 48, SUBTITLE, 'fill="#555"'),
        f'<circle cx="26" cy="{y}" r="3" fill="{OURS}"/>',
        text(36, y + 4, "buffers by the text's bytes, or the list's length"),
        f'<circle cx="336" cy="{y}" r="3.5" fill="none" stroke="#333"/>',
        text(346, y + 4, "cut to the text's tokens"),
        line(510, y, 540, y, bar),
        text(546, y + 4, "lowest to highest process"),
        line(726, y, 756, y, f'stroke="{OURS}"'),
        text(762, y + 4, "5 to 95 % of the passes of a process"),
    ]


def labels(y, groups):
    """The names of the groups, and a faint line through each row of the panels."""
    end = LEFT + COLUMNS * (WIDTH + BESIDE) - BESIDE
    parts = [text(LEFT - 8, y - 8, "texts", 'text-anchor="end" font-weight="bold"')]
    for number, group in enumerate(groups):
        middle = y + STEP * (number + 0.5)
        parts.append(text(LEFT - 8, middle + 4, group, 'text-anchor="end"'))
        parts.append(line(LEFT, middle, end, middle, 'stroke="#f2f2f2"'))
    return parts


def main():
    rows = {(row["call"], row["group"]): row for row in csv.DictReader(sys.stdin, delimiter="\t")}
    groups = list(dict.fromkeys(group for _, group in rows))
    down = STEP * len(groups) + BETWEEN
    parts = legend()
    for number, call in enumerate(PANELS):
        x, y = LEFT + number % COLUMNS * (WIDTH + BESIDE), TOP + number // COLUMNS * down
        if number % COLUMNS == 0:
            parts += labels(y, groups)
        parts += panel(x, y, call, rows, groups)
    width, height = LEFT + COLUMNS * (WIDTH + BESIDE), TOP + len(PANELS) // COLUMNS * down
    print(
        f'<svg xmlns="http://www.w3.org/2000/svg" viewBox="0 0 {width} {height}" width="{width}" height="{height}" '
        'font-family="sans-serif" font-size="12">\n<rect width="100%" height="100%" fill="#fff"/>'
    )
    print("\n".join(parts) + "\n</svg>")


main()
