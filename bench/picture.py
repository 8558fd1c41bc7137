"""The bench's rows of the library as a picture: for each mechanism and each length a dot for each of those that it stands
beside, at the ratio of the two times. Left of 1 the library is the quicker one."""

import math

from rows import BESIDE, LIBRARY, MECHANISMS

WIDTH, MARGIN, GAP = 960, 28, 40
TOP = 150               # of the panels
NAMES = 74              # for the lengths, left of a panel's axis
LINE, GROUP = 17, 16    # the height of a dot's line, and between two lengths
FIGURE = 40             # the width of a figure beside its dot
TICKS = (0.25, 0.35, 0.5, 0.7, 1, 1.4, 2, 2.8, 4, 5.6, 8)

# In light and in dark
COLOURS = {
    "its bare compressions": ("#6e7781", "#9aa4af"),
    "portable C": ("#0969da", "#58a6ff"),
    "mbedTLS": ("#bc4c00", "#f0883e"),
    "OpenSSL without SHA extensions": ("#1a7f37", "#3fb950"),
    "OpenSSL": ("#8250df", "#bc8cff"),
}
PAPER, INK, PALE, LINES, PROMISE = ("#ffffff", "#0d1117"), ("#1f2328", "#e6edf3"), ("#59636e", "#9198a1"), ("#d1d9e0", "#3d444d"), ("#cf222e", "#ff7b72")


def class_of(beside):
    return f"beside{BESIDE.index(beside)}"


def style():
    rules = {"paper": ("fill", PAPER), "ink": ("fill", INK), "pale": ("fill", PALE), "line": ("stroke", LINES), "one": ("stroke", PALE),
             "promise": ("stroke", PROMISE)}
    both = ["", ""]
    for mode in (0, 1):
        for name, (what, colours) in rules.items():
            both[mode] += f".{name} {{ {what}: {colours[mode]}; }} "
        for beside, colours in COLOURS.items():
            name = class_of(beside)
            both[mode] += f".{name} {{ fill: {colours[mode]}; stroke: {colours[mode]}; }} "
    return (
        "text { font: 12px system-ui, -apple-system, 'Segoe UI', 'DejaVu Sans', sans-serif; } .title { font-size: 17px; font-weight: 600; } "
        ".head { font-size: 14px; font-weight: 600; } .small { font-size: 11px; } "
        f"{both[0]}@media (prefers-color-scheme: dark) {{ {both[1]}}}")


def text(x, y, words, names="ink", anchor="start"):
    return f'<text x="{x:.1f}" y="{y:.1f}" class="{names}" text-anchor="{anchor}">{words}</text>'


def line(x1, y1, x2, y2, name, width=1, more=""):
    return f'<line x1="{x1:.1f}" y1="{y1:.1f}" x2="{x2:.1f}" y2="{y2:.1f}" class="{name}" stroke-width="{width}"{more}/>'


def dot(x, y, name):
    return f'<circle cx="{x:.1f}" cy="{y:.1f}" r="4.5" class="{name}" stroke="none"/>'


def promised(x, y):
    """The most that is promised, as an upright stroke."""
    return line(x, y - 7, x, y + 7, "promise", 2)


class Axis:
    """Ratios, on a scale of their logarithms: as much quicker is as far from 1 as so much slower."""

    def __init__(self, left, width, rows):
        figures = [row.ratio for row in rows] + [row.most for row in rows if row.most]
        inner = [tick for tick in TICKS if min(figures) / 1.08 <= tick <= max(figures) * 1.08]
        first = max(TICKS.index(inner[0]) - 1, 0)
        last = min(TICKS.index(inner[-1]) + 1, len(TICKS) - 1)
        self.ticks = TICKS[first:last + 1]
        self.left, self.width = left, width

    def at(self, ratio):
        low, high = math.log(self.ticks[0]), math.log(self.ticks[-1])
        return self.left + self.width * (math.log(ratio) - low) / (high - low)


def panel(rows, axis, mechanism, besides):
    """Gives its parts and its lower end. One that lacks the mechanism keeps an empty line, so that the lengths stand level."""
    own = {(row.length, row.beside): row for row in rows if row.mechanism == mechanism}
    lengths = sorted({row.length for row in rows})
    lower = TOP + (LINE * len(besides) + GROUP) * len(lengths) - GROUP / 2
    parts = [text(axis.left - NAMES, TOP - 36, f"{mechanism}_DRBG", "ink head")]
    for tick in axis.ticks:
        at = axis.at(tick)
        parts.append(line(at, TOP - 8, at, lower, "one" if tick == 1 else "line", 1.5 if tick == 1 else 1))
        parts.append(text(at, TOP - 14, f"{tick:g}", "pale small", "middle"))
    for count, length in enumerate(lengths):
        y = TOP + (LINE * len(besides) + GROUP) * count
        if count > 0:
            parts.append(line(axis.left - NAMES + 10, y - GROUP / 2, axis.left + axis.width, y - GROUP / 2, "line", 1, ' stroke-dasharray="2 4"'))
        middle = y + LINE * len(besides) / 2
        parts.append(text(axis.left - 14, middle, f"{length:,}", "ink head", "end"))
        parts.append(text(axis.left - 14, middle + 14, "bytes", "pale small", "end"))
        for place, beside in enumerate(besides):
            at = y + LINE * (place + 0.5)
            if (length, beside) in own:
                parts += lollipop(own[length, beside], axis, at)
            elif count == 0:
                parts.append(text(axis.at(1) + 8, at + 4, f"{beside} has none", "pale small"))
    return parts, lower


def lollipop(row, axis, y):
    name, at, one = class_of(row.beside), axis.at(row.ratio), axis.at(1)
    parts = [line(one, y, at, y, name, 3, ' stroke-opacity="0.45"'), dot(at, y, name)]
    right = at >= one
    if row.most:
        most = axis.at(row.most)
        parts.append(promised(most, y))
        if right and at - 8 < most < at + FIGURE:   # the figure stands clear of the stroke
            at = max(at, most)
    parts.append(text(at + (9 if right else -9), y + 4, f"{row.ratio:.2f}", "ink small", "start" if right else "end"))
    return parts


def legend(besides):
    parts, x = [], MARGIN
    for beside in besides:
        parts += [dot(x + 5, 74, class_of(beside)), text(x + 15, 78, beside)]
        x += 34 + 7 * len(beside)
    return parts + [promised(x + 5, 74), text(x + 13, 78, "the most that is promised")]


def picture(rows):
    shown = [row for row in rows if row.of == LIBRARY and row.beside in BESIDE]
    besides = [beside for beside in BESIDE if any(row.beside == beside for row in shown)]
    width = (WIDTH - 2 * MARGIN - GAP - 2 * NAMES) / 2 - 20
    parts = [
        text(MARGIN, 32, "A draw through the library: its time as a multiple of another's", "ink title"),
        text(MARGIN, 52, "Both taken in turns in one run, the least of each. Left of 1 Purangsa is quicker, right of 1 slower; the scale is logarithmic.", "pale"),
        *legend(besides)]
    lower = 0
    for at, mechanism in enumerate(MECHANISMS):
        left = MARGIN + NAMES + at * (WIDTH / 2 - MARGIN / 2 + GAP / 4)
        drawn, end = panel(shown, Axis(left, width, shown), mechanism, besides)
        parts += drawn
        lower = max(lower, end)
    height = lower + 20
    return (
        f'<svg xmlns="http://www.w3.org/2000/svg" viewBox="0 0 {WIDTH} {height:.0f}" width="{WIDTH}" height="{height:.0f}" role="img" '
        'aria-label="Times of draws through the library as multiples of the times of others">\n'
        f"<style>{style()}</style>\n"
        f'<rect width="{WIDTH}" height="{height:.0f}" class="paper"/>\n' + "\n".join(parts) + "\n</svg>\n")
