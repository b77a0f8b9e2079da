"""Draws the ratios that `bench/run` measures: a bar for each workload and size, and a circle for the second map.

A bar goes left from the line at 1 where the index takes less than Rust's map, and right where it takes more. From one
line of the grid to the next is a factor of two.
"""
import math

LESS = ("#9ecae1", "#4292c6", "#08519c")
MORE = ("#fcae91", "#ef6548", "#99000d")
LEFT, TOP, BAR, STEP = 160, 92, 7, 80
TITLE = "TreeIndex beside Rust's BTreeMap: the ratio of time a call, and of memory a pair"
COLORS = "Blue, to the left of 1: TreeIndex takes less. Red, to the right: it takes more."
CIRCLES = "the toolchain's map, beside Rust's"


def ratio(number, beside):
    """How many times another number one is, or nothing where either is missing or the other is too small to tell."""
    return number / beside if number and beside else None


class Scale:
    """Where a ratio stands from left to right: all of them fit between two powers of two."""

    def __init__(self, ratios):
        self.low = min(-1, math.floor(math.log2(min(ratios))))
        self.high = max(1, math.ceil(math.log2(max(ratios))))

    def place(self, times):
        return LEFT + STEP * (math.log2(times) - self.low)

    def end(self):
        return self.place(2.0**self.high)

    def lines(self):
        """The powers of two, each with the words over its line."""
        powers = range(self.low, self.high + 1)
        return [(2.0**power, str(2**power) if power >= 0 else f"1/{2**-power}") for power in powers]


def text(x, y, words, more=""):
    return f'<text x="{x:g}" y="{y:g}"{more}>{words}</text>'


def box(x, y, width, height, color):
    return f'<rect x="{x:.1f}" y="{y:g}" width="{width:.1f}" height="{height}" fill="{color}"/>'


def circle(x, y):
    return f'<circle cx="{x:.1f}" cy="{y:g}" r="2.8" fill="white" stroke="#444"/>'


def legend(sizes):
    """The words over the chart, and what its colors and circles are."""
    parts = [text(8, 20, TITLE, ' font-weight="bold"'), text(8, 40, COLORS)]
    x = 8
    for shade, size in enumerate(sizes):
        parts += [box(x, 51, 10, 10, LESS[shade]), box(x + 12, 51, 10, 10, MORE[shade])]
        parts.append(text(x + 28, 60, f"{size:,} keys"))
        x += 136
    return parts + [circle(x + 6, 56), text(x + 16, 60, CIRCLES)]


def grid(scale, bottom):
    """A line for each power of two, and a dark one at 1."""
    parts = []
    for times, words in scale.lines():
        x, color = scale.place(times), "#444" if times == 1 else "#ddd"
        parts.append(f'<line x1="{x:g}" y1="{TOP - 6}" x2="{x:g}" y2="{bottom}" stroke="{color}"/>')
        parts.append(text(x, TOP - 10, words, ' text-anchor="middle"'))
    return parts


def bars(scale, y, pairs):
    """The bars and circles of a workload, of the two ratios at each size."""
    parts = []
    for shade, (ours, second) in enumerate(pairs):
        if ours:
            start, end = sorted((scale.place(1), scale.place(ours)))
            parts.append(box(start, y, end - start, BAR, (LESS if ours <= 1 else MORE)[shade]))
        if second:
            parts.append(circle(scale.place(second), y + BAR / 2))
        y += BAR
    return parts


def ratios_of(tables):
    """For each workload the two ratios to Rust's map at each size: of the index, and of the second map."""
    found = {}
    for table in tables:
        for name, row in table.items():
            found.setdefault(name, []).append((ratio(row.get(0), row.get(1)), ratio(row.get(2), row.get(1))))
    return found


def chart(tables):
    """The text of an SVG file, of a table for each size. A row of a table has the numbers of the index, of Rust's map
    and of the second map. Of more than three sizes the last three are drawn."""
    sizes = list(tables)[-3:]
    found = ratios_of([tables[size] for size in sizes])
    scale = Scale([times for pairs in found.values() for pair in pairs for times in pair if times])
    height = BAR * len(sizes) + 9
    bottom, width = TOP + height * len(found), max(scale.end() + 30, 690)
    parts = [box(0, 0, width, bottom + 12, "white"), *legend(sizes), *grid(scale, bottom)]
    for place, (name, pairs) in enumerate(found.items()):
        y = TOP + height * place
        parts.append(text(LEFT - 14, y + height / 2, name, ' text-anchor="end"'))
        parts += bars(scale, y, pairs)
    size = f'width="{width:g}" height="{bottom + 12}" font-family="sans-serif" font-size="13"'
    return "\n".join([f'<svg xmlns="http://www.w3.org/2000/svg" {size}>', *parts, "</svg>\n"])
