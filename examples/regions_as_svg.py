#!/usr/bin/env python3
"""Draws a part of a layout, and over it the files that `critarea --regions` writes: where the middle of a defect makes a fault.

    ./critarea LAYOUT --map MAP --regions short,m1,2 > short.gds
    examples/regions_as_svg.py LAYOUT --layers m1=1/0,m2=3/0 --clip=0,0,400,300 --short short.gds > picture.svg

Behind each of --short, --open and --via stands such a file, and each may stand more than once. --layers are the layers and
datatypes that are drawn, the lowest first, each with a name or without; where it is left out it is all of them. --clip has
the left, the bottom, the right and the top of the part in database units; where it is left out it is all that is there.
--top names a structure of the layout where several are named by no reference. With --side S a square of this side, as the
defect has it, is drawn in the lower right corner.

It reads boundaries, boxes, paths, references and arrays, and passes over all else. The picture, SVG, goes to standard
output. It needs Python 3.8.
"""
import argparse
import collections
import itertools
import struct
import sys

KINDS = {"short": "#d62728", "open": "#1f77b4", "via": "#2ca02c"}
SHADES = ["#bdbdbd", "#e8c98f", "#6f6f6f", "#c3dbb4", "#d3c0e3", "#a3c1d4"]
OPACITY = 0.55
WIDTH, ROW, ENTRY = 720, 24, 84

STRNAME, ENDEL, ENDLIB = 0x06, 0x11, 0x04
BOUNDARY, BOX, PATH, SREF, AREF = 0x08, 0x2D, 0x09, 0x0A, 0x0B
LAYER, DATATYPE, BOXTYPE, XY, SNAME, COLROW = 0x0D, 0x0E, 0x2E, 0x10, 0x12, 0x13
PATH_WIDTH, PATHTYPE, BGNEXTN, ENDEXTN, STRANS, MAG, ANGLE = 0x0F, 0x21, 0x30, 0x31, 0x1A, 0x1B, 0x1C
ENDS = {0: "butt", 1: "round", 2: "square", 4: "butt"}

# The kind of the record that opens it, and the bodies of its records by their kinds.
Element = collections.namedtuple("Element", "kind bodies")


def fail(words):
    sys.exit("regions_as_svg.py: " + words)


def real_of(body):
    """A number as GDSII Release 6 writes it: a sign, an exponent of 16 beyond 64, and 56 bits behind the point."""
    value = int.from_bytes(body[1:], "big") / 2**56 * 16.0 ** ((body[0] & 127) - 64)
    return -value if body[0] & 128 else value


def whole(body, form=">h"):
    """The first number of a record, or 0 where the element has no such record."""
    return struct.unpack_from(form, body)[0] if body else 0


def records_of(path):
    """The kind and the body of each record up to ENDLIB."""
    try:
        with open(path, "rb") as file:
            stream = file.read()
    except OSError as error:
        fail(str(error))
    at, kind = 0, None
    while kind != ENDLIB:
        if at + 4 > len(stream):
            fail("%s is no GDSII, or ends before its ENDLIB" % path)
        length, kind = struct.unpack_from(">HB", stream, at)
        if length < 4:
            fail("%s is no GDSII at byte %d" % (path, at))
        yield kind, stream[at + 4 : at + length]
        at += length


def structures_of(path):
    """The elements of each structure, by its name."""
    structures, element = {}, None
    for kind, body in records_of(path):
        if kind == STRNAME:
            elements = structures.setdefault(body.rstrip(b"\0"), [])
        elif kind in (BOUNDARY, BOX, PATH, SREF, AREF):
            element = Element(kind, {})
        elif kind == ENDEL and element:
            elements.append(element)
            element = None
        elif element:
            element.bodies[kind] = body
    return structures


def points_of(element):
    """The points as complex numbers, of which a product with 1j is a quarter of a turn."""
    return [complex(x, y) for x, y in struct.iter_unpack(">ii", element.bodies[XY])]


def turn_of(reference):
    """What a reference does with a point before it moves it."""
    bodies = reference.bodies
    angle = real_of(bodies[ANGLE]) if ANGLE in bodies else 0
    if angle % 90 or MAG in bodies and real_of(bodies[MAG]) != 1:
        fail("a reference is magnified, or turned by no quarters of a circle: flatten it first")
    quarters = (1, 1j, -1, -1j)[round(angle / 90) % 4]
    mirrors = bodies.get(STRANS, b"\0")[0] & 128
    return lambda point: quarters * (point.conjugate() if mirrors else point)


def shifts_of(reference):
    """By how much a reference moves each of its copies."""
    origin, *ends = points_of(reference)
    if reference.kind == SREF:
        return [origin]
    columns, rows = struct.unpack(">hh", reference.bodies[COLROW])
    across, up = (ends[0] - origin) / columns, (ends[1] - origin) / rows
    return [origin + i * across + j * up for j in range(rows) for i in range(columns)]


def moved(turn, shift, behind):
    return lambda point: behind(turn(point) + shift)


def target_of(reference):
    return reference.bodies[SNAME].rstrip(b"\0")


def placed(structures, name, image=lambda point: point):
    """The shapes that a structure places, each with what leads its points to where they come to lie."""
    for element in structures.get(name, ()):
        if element.kind in (SREF, AREF):
            for shift in shifts_of(element):
                yield from placed(structures, target_of(element), moved(turn_of(element), shift, image))
        else:
            yield element, image


class Shape:
    """A shape where it is placed: its points, and of a path its width and its ends. An outline has the width 0."""

    def __init__(self, element, image):
        bodies = element.bodies
        self.layer = whole(bodies[LAYER], ">H"), whole(bodies.get(DATATYPE, bodies.get(BOXTYPE)), ">H")
        self.points = [image(point) for point in points_of(element)]
        self.is_path = element.kind == PATH
        self.width = whole(bodies.get(PATH_WIDTH), ">i") if self.is_path else 0
        self.ends = ENDS[whole(bodies.get(PATHTYPE))]
        self.extend(0, 1, whole(bodies.get(BGNEXTN), ">i"))
        self.extend(-1, -2, whole(bodies.get(ENDEXTN), ">i"))

    def extend(self, end, beside, length):
        """Moves an end of a path by a length, away from the point beside it."""
        if length:
            way = self.points[end] - self.points[beside]
            self.points[end] += length * way / abs(way)

    def bounds(self):
        across, up = [point.real for point in self.points], [point.imag for point in self.points]
        return min(across) - self.width / 2, min(up) - self.width / 2, max(across) + self.width / 2, max(up) + self.width / 2

    def drawn(self):
        points = " ".join("%.10g,%.10g" % (point.real, point.imag) for point in self.points)
        if not self.is_path:
            return '<polygon points="%s"/>' % points
        return '<polyline points="%s" fill="none" stroke-width="%d" stroke-linecap="%s"/>' % (points, self.width, self.ends)


def shapes_of(path, top=None):
    """The shapes under the top of a file."""
    structures = structures_of(path)
    targets = {target_of(element) for element in itertools.chain(*structures.values()) if SNAME in element.bodies}
    tops = [top.encode()] if top else [name for name in structures if name not in targets]
    if len(tops) != 1 or tops[0] not in structures:
        fail("%s has no such structure, or not one top: name it by --top" % path)
    return [Shape(*each) for each in placed(structures, tops[0])]


def common(one, other):
    """The bounds of what two boxes have in common. They are rising only where there is something."""
    return max(one[0], other[0]), max(one[1], other[1]), min(one[2], other[2]), min(one[3], other[3])


def shows(box, clip):
    left, bottom, right, top = common(box, clip)
    return left < right and bottom < top


def outline(boxes, clip):
    """One outline of all that these boxes have in the clip, with steps in place of points, which are shorter."""
    parts = (common(box, clip) for box in boxes if shows(box, clip))
    return "".join("M%d %dh%dv%dh%dz" % (x0, y0, x1 - x0, y1 - y0, x0 - x1) for x0, y0, x1, y1 in parts)


def legend(entries, height):
    """A strip below the drawing, over what reaches out of it, with a square of each colour."""
    yield '<rect y="%.6g" width="%d" height="%d" fill="#fff"/>' % (height, WIDTH, ROW)
    for number, (words, colour, opacity) in enumerate(entries):
        left = ENTRY * number
        yield '<rect x="%d" y="%.6g" width="14" height="14" fill="%s" fill-opacity="%s"/>' % (left + 2, height + 6, colour, opacity)
        words = words.replace("&", "&amp;").replace("<", "&lt;")
        yield '<text x="%d" y="%.6g">%s</text>' % (left + 22, height + 18, words)


def drawing(layers, regions, clip, side):
    """What the layers and the files have in the clip, from below, in database units."""
    shades = itertools.cycle(SHADES)
    for shapes in layers.values():
        shade = next(shades)
        yield '<g fill="%s" stroke="%s" stroke-width="0" opacity="0.75">' % (shade, shade)
        yield from (shape.drawn() for shape in shapes if shows(shape.bounds(), clip))
        yield "</g>"
    for kind, boxes in regions.items():
        yield '<path fill="%s" fill-opacity="%s" shape-rendering="crispEdges" d="%s"/>' % (KINDS[kind], OPACITY, outline(boxes, clip))
    if side:
        line = (clip[2] - clip[0]) / WIDTH
        place = clip[2] - side - 4 * line, clip[1] + 4 * line, side, side, line
        yield '<rect x="%.10g" y="%.10g" width="%d" height="%d" fill="#fff" fill-opacity="0.7" stroke="#000" stroke-width="%.3g"/>' % place


def picture(layers, regions, clip, side):
    """The lines of the picture: `layers` are shapes by names, and `regions` boxes by kinds."""
    left, bottom, right, top = clip
    scale = WIDTH / (right - left)
    height = scale * (top - bottom)
    yield '<svg xmlns="http://www.w3.org/2000/svg" width="%d" height="%d" font-family="sans-serif" font-size="14">' % (WIDTH, height + ROW)
    yield '<rect width="100%" height="100%" fill="#fff"/>'
    # Rows of a layout count upward, those of a picture downward.
    yield '<g transform="matrix(%.10g 0 0 %.10g %.10g %.10g)">' % (scale, -scale, -scale * left, scale * top)
    yield from drawing(layers, regions, clip, side)
    yield "</g>"
    entries = [(name, shade, 0.75) for name, shade in zip(layers, itertools.cycle(SHADES))]
    yield from legend(entries + [(kind, KINDS[kind], OPACITY) for kind in regions], height)
    yield "</svg>"


def chosen(words, shapes):
    """The shapes of each layer that is drawn, by its name: those of the words, or all of them."""
    names = {}
    for word in words.split(",") if words else ():
        name, _, layer = word.rpartition("=")
        number, _, datatype = layer.partition("/")
        names[int(number), int(datatype)] = name or layer
    layers = {name: [] for name in names.values()}
    for shape in sorted(shapes, key=lambda shape: shape.layer):
        if not words or shape.layer in names:
            layers.setdefault(names.get(shape.layer, "%d/%d" % shape.layer), []).append(shape)
    return layers


def clip_of(words, boxes):
    """The part that is drawn: the one of the words, or all that the boxes have."""
    if words:
        left, bottom, right, top = (int(number) for number in words.split(","))
    elif boxes:
        lefts, bottoms, rights, tops = zip(*boxes)
        left, bottom, right, top = min(lefts), min(bottoms), max(rights), max(tops)
    else:
        fail("there is nothing to draw")
    if not left < right or not bottom < top:
        raise ValueError
    return left, bottom, right, top


def main():
    parser = argparse.ArgumentParser(description=__doc__, formatter_class=argparse.RawDescriptionHelpFormatter, allow_abbrev=False)
    parser.add_argument("layout")
    for option in ("top", "layers", "clip"):
        parser.add_argument("--" + option)
    parser.add_argument("--side", type=int, default=0)
    for kind in KINDS:
        parser.add_argument("--" + kind, metavar="FILE", action="append", default=[])
    words = parser.parse_args()
    shapes = shapes_of(words.layout, words.top)
    files = {kind: getattr(words, kind) for kind in KINDS if getattr(words, kind)}
    regions = {kind: [shape.bounds() for path in paths for shape in shapes_of(path)] for kind, paths in files.items()}
    try:
        layers = chosen(words.layers, shapes)
        clip = clip_of(words.clip, [shape.bounds() for shape in itertools.chain(*layers.values())] + list(itertools.chain(*regions.values())))
    except ValueError:
        fail("--layers are as 1/0,m2=3/0, and --clip is a left, a bottom, a right and a top, as 0,0,400,300")
    for line in picture(layers, regions, clip, words.side):
        print(line)


main()
