#!/usr/bin/env python3
"""Draws a report as curves A(r): `./critarea WORDS | examples/plot_report.py [NANOMETRES] > curves.svg`.

It reads the report and prints a picture, SVG, with a curve for each kind of fault on each metal or cut: area over size,
both on scales of powers of ten. A size is a radius or a side, as in the map. Areas of 0 have no place there and are left
out, and so is a curve without others. With the length of a database unit in nanometres, which `./critarea --explain`
tells, sizes are in µm and areas in µm², and else both are in database units. Shorts are drawn as full lines, opens
dashed, and via blocks dotted.

It needs Python 3.8.
"""
import math
import sys

WIDTH, HEIGHT = 760, 480
LEFT, TOP, RIGHT, BOTTOM = 90, 20, 590, 420
COLOURS = ["#1f77b4", "#d62728", "#2ca02c", "#9467bd", "#ff7f0e", "#8c564b", "#17becf", "#7f7f7f"]
DASHES = {"short": "none", "open": "8 4", "via": "2 3"}
MEASURES = {"r": "radius", "s": "side"}


def curves_of(report, unit):
    """The points of each kind and layer, in the order of the report, what its sizes are, and whether it came to its totals."""
    curves, measure, has_totals = {}, None, False
    for line in report:
        words = line.split()
        if words[:1] == ["total"]:
            has_totals = True
        elif words and words[0] in DASHES:
            letter, size = words[2].split("=")
            measure, area = MEASURES[letter], int(words[3].split("=")[1])
            points = curves.setdefault((words[0], words[1]), [])
            if area > 0:
                points.append((int(size) * unit, area * unit * unit))
    return {name: points for name, points in curves.items() if points}, measure, has_totals


class Scale:
    """Places along an axis for numbers by their logarithms, and marks at powers of ten; on a short axis at 2 and 5 times these, too."""

    def __init__(self, values, start, end):
        low, high = math.floor(math.log10(min(values))), math.ceil(math.log10(max(values)))
        factors = (1, 2, 5) if high - low <= 3 else (1,)
        marks = [factor * 10.0**power for power in range(low, high + 2) for factor in factors]
        first = max(mark for mark in marks if mark <= min(values) * (1 + 1e-9))
        last = min(mark for mark in marks if mark > max(values) * (1 - 1e-9) and mark > first)
        self.marks = [mark for mark in marks if first <= mark <= last]
        self.first, self.start = math.log10(first), start
        self.step = (end - start) / (math.log10(last) - self.first)

    def place(self, value):
        return self.start + (math.log10(value) - self.first) * self.step


def text(x, y, words, anchor="middle", more=""):
    words = words.replace("&", "&amp;").replace("<", "&lt;")
    return '<text x="%.1f" y="%.1f" text-anchor="%s"%s>%s</text>' % (x, y, anchor, more, words)


def line(x1, y1, x2, y2, style):
    return '<line x1="%.1f" y1="%.1f" x2="%.1f" y2="%.1f" %s/>' % (x1, y1, x2, y2, style)


def axes(across, up, measure, is_in_units):
    for mark in across.marks:
        x = across.place(mark)
        yield line(x, TOP, x, BOTTOM, 'stroke="#ddd"')
        yield text(x, BOTTOM + 18, "%g" % mark)
    for mark in up.marks:
        y = up.place(mark)
        yield line(LEFT, y, RIGHT, y, 'stroke="#ddd"')
        yield text(LEFT - 6, y + 4, "%g" % mark, "end")
    yield '<rect x="%d" y="%d" width="%d" height="%d" fill="none" stroke="#000"/>' % (LEFT, TOP, RIGHT - LEFT, BOTTOM - TOP)
    yield text((LEFT + RIGHT) / 2, BOTTOM + 42, measure + (", database units" if is_in_units else ", µm"))
    middle = (TOP + BOTTOM) / 2
    yield text(22, middle, "area, cells" if is_in_units else "area, µm²", more=' transform="rotate(-90 22 %.1f)"' % middle)


def curve(points, colour, dashes):
    style = 'stroke="%s" stroke-dasharray="%s"' % (colour, dashes)
    yield '<polyline points="%s" fill="none" %s/>' % (" ".join("%.1f,%.1f" % point for point in points), style)
    for x, y in points:
        yield '<circle cx="%.1f" cy="%.1f" r="2" fill="%s"/>' % (x, y, colour)


def picture(curves, measure, is_in_units):
    points = [point for each in curves.values() for point in each]
    across = Scale([x for x, _ in points], LEFT, RIGHT)
    up = Scale([y for _, y in points], BOTTOM, TOP)
    layers = list(dict.fromkeys(layer for _, layer in curves))
    size = WIDTH, max(HEIGHT, TOP + 18 * len(curves))
    yield '<svg xmlns="http://www.w3.org/2000/svg" width="%d" height="%d" font-family="sans-serif" font-size="12">' % size
    yield '<rect width="100%" height="100%" fill="#fff"/>'
    yield from axes(across, up, measure, is_in_units)
    for number, ((kind, layer), of_layer) in enumerate(curves.items()):
        colour, dashes = COLOURS[layers.index(layer) % len(COLOURS)], DASHES[kind]
        yield from curve([(across.place(x), up.place(y)) for x, y in of_layer], colour, dashes)
        height = TOP + 10 + 18 * number
        yield from curve([(RIGHT + 14, height), (RIGHT + 44, height)], colour, dashes)
        yield text(RIGHT + 52, height + 4, kind + " " + layer, "start")
    yield "</svg>"


def main():
    try:
        nanometres, = [float(word) for word in sys.argv[1:]] or [None]
    except ValueError:
        sys.exit(__doc__)
    if nanometres is not None and not 0 < nanometres < math.inf:
        sys.exit("plot_report.py: a database unit is longer than 0 nanometres")
    unit = 1 if nanometres is None else nanometres / 1000
    curves, measure, has_totals = curves_of(sys.stdin, unit)
    if not has_totals:
        sys.exit("plot_report.py: no report came: it has no line that begins with 'total'")
    if not curves:
        sys.exit("plot_report.py: all areas are 0, so there is nothing to draw")
    sys.stdout.reconfigure(encoding="utf-8")
    for part in picture(curves, measure, nanometres is None):
        print(part)


main()
