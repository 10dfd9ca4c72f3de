#!/usr/bin/env python3
"""Computes critical areas by the booleans of KLayout, to compare them with what critarea reports.

    python3 areas_by_booleans.py LAYOUT MAP [--pairs K]
    klayout -b -r areas_by_booleans.py -rd path=LAYOUT -rd map=MAP [-rd pairs=K]

MAP is a layer map, of radii or of sides; its terminals and `contacts` are passed over. The first call needs KLayout's module for
Python, the second the editor. It prints the beginning of each row of shorts and of via blocks, as `short m1 r=3 area=32`, or the
pairs of nets at the size with the number K, counted from 1, as critarea does, but for the line of the worst.

A net is what overlaps or shares a part of an edge, on one metal or through a cut that lies in both of its metals. Each
net is grown by as many cells as a defect reaches, and what two nets or more have then is the area of shorts. That of a pair is
what its two nets have, and nets are numbered by their first cells, row by row. A cluster is all that a cut joins of one piece
below and one above; the centres from which a defect covers its bounds are a rectangle, and the union of these is the area of
blocks.
"""
import collections
import itertools
import sys


def fail(words):
    """Ends with these words, which the editor would not print if `sys.exit` had them, nor take for a failure."""
    print(words, file=sys.stderr)
    sys.exit(1)


try:
    import klayout.db as db
except ImportError:
    try:
        import pya as db
    except ImportError:
        fail("areas_by_booleans.py: KLayout's module for Python is not there; install `klayout`, or call it by the editor, `klayout -b -r`")
try:
    import tomllib
except ImportError:
    fail("areas_by_booleans.py: it reads maps with `tomllib`, which Python has from 3.11 on")


def region_of(layout, pairs):
    """The shapes of these layers and datatypes under the top, joined at edges and not at corners."""
    region = db.Region()
    for layer, datatype in pairs:
        region += db.Region(layout.top_cell().begin_shapes_rec(layout.layer(layer, datatype)))
    region.merged_semantics = False
    region.min_coherence = True
    region.merge(True, 1)
    return region


def first_cell(polygon):
    """The row and the column of the polygon's first cell, row by row from below."""
    row = polygon.bbox().bottom
    return row, min(point.x for point in polygon.each_point_hull() if point.y == row)


class Pieces:
    """The connected pieces of a metal, to be found by their place."""

    def __init__(self, region):
        self.polygons = list(region.each())
        self.boxes = db.Shapes()
        self.numbers = {}
        for number, polygon in enumerate(self.polygons):
            for part in polygon.decompose_trapezoids():
                box = part.bbox()
                self.boxes.insert(box)
                self.numbers[box.left, box.bottom, box.right, box.top] = number

    def number_at(self, area):
        """The number of the piece that has this box."""
        box = next(self.boxes.each_overlapping(area)).box
        return self.numbers[box.left, box.bottom, box.right, box.top]


class Design:
    """Pieces of each metal with the numbers of their nets, and the clusters of each cut as boxes."""

    def __init__(self, layout, layer_map):
        regions = {m["name"]: region_of(layout, m["pairs"]) for m in layer_map["metal"]}
        self.metals = {name: Pieces(region) for name, region in regions.items()}
        self.joined = {}
        self.boxes = {}
        for cut in layer_map.get("cut", []):
            lower, upper = cut["lower"], cut["upper"]
            contacts = region_of(layout, cut["pairs"]) & regions[lower] & regions[upper]
            self.boxes[cut["name"]] = self.clusters(contacts, lower, upper)

    def clusters(self, contacts, lower, upper):
        """The bounds of each cluster. What it joins becomes one net."""
        bounds = {}
        contacts.min_coherence = True
        for contact in contacts.merged(True, 1).each():
            inside = next(iter(contact.decompose_trapezoids())).bbox()
            ends = self.metals[lower].number_at(inside), self.metals[upper].number_at(inside)
            bounds[ends] = bounds.get(ends, db.Box()) + contact.bbox()
        for below, above in bounds:
            self.joined[self.net(lower, below)] = self.net(upper, above)
        return bounds.values()

    def net(self, metal, number):
        """The piece that stands for all pieces which are joined with this one."""
        piece, way = (metal, number), []
        while self.joined.get(piece, piece) != piece:
            way.append(piece)
            piece = self.joined[piece]
        for passed in way:
            self.joined[passed] = piece
        return piece

    def grown(self, metal, defect):
        """The nets of the metal, by their first cells there, each grown by as many cells as the defect reaches."""
        nets = {}
        for number, polygon in enumerate(self.metals[metal].polygons):
            nets.setdefault(self.net(metal, number), []).append(polygon)
        ordered = sorted(nets.values(), key=lambda polygons: min(first_cell(polygon) for polygon in polygons))
        return [db.Region(polygons).sized(defect.touched).merged() for polygons in ordered]

    def shorts(self, metal, defect):
        """The number of cells at which the defect touches two nets of the metal."""
        near = db.Region()
        for net in self.grown(metal, defect):
            near += net
        near.merge(False, 2)
        return near.area()

    def pairs(self, metal, defect):
        """Two numbers of nets of the metal, and the number of cells at which the defect touches both, where it is not 0."""
        boxes, owners = db.Shapes(), collections.defaultdict(list)
        for number, net in enumerate(self.grown(metal, defect)):
            # The boxes of one net have no cell in common.
            for part in itertools.chain.from_iterable(polygon.decompose_trapezoids() for polygon in net.each()):
                box = part.bbox()
                owners[box.left, box.bottom, box.right, box.top].append(number)
        for sides in owners:
            boxes.insert(db.Box(*sides))
        areas = collections.Counter()
        for sides, numbers in owners.items():
            box = db.Box(*sides)
            for shape in boxes.each_overlapping(box):
                other = shape.box
                common = box & other
                cells = common.width() * common.height()
                others = owners[other.left, other.bottom, other.right, other.top]
                for first, second in itertools.product(numbers, others):
                    if first < second:
                        areas[first, second] += cells
        return sorted(areas.items())

    def blocks(self, cut, defect):
        """The number of cells at which the defect covers a whole cluster."""
        centres = db.Region()
        beside = defect.covered + 1
        for box in self.boxes[cut]:
            left, right = box.right - beside, box.left + beside
            low, high = box.top - beside, box.bottom + beside
            if left < right and low < high:
                centres.insert(db.Box(left, low, right, high))
        return centres.merged().area()


class Defect:
    """How far from its own cell, along both axes, the cells are that a defect touches, and those that it covers."""

    def __init__(self, measure, size):
        self.name = f"{measure[0]}={size}"
        side = 2 * size if measure == "radii" else size
        if side % 2:
            # It is made of whole cells: its own, and as many on each side of it.
            self.touched = self.covered = (side - 1) // 2
        else:
            # Its rim cuts the cells that are half a side away. All before them it has wholly.
            self.touched, self.covered = side // 2, side // 2 - 1


def pair_lines(design, metals, defect):
    """The line of each pair, and that of their number."""
    count = 0
    for metal in metals:
        for (first, second), area in design.pairs(metal, defect):
            count += 1
            yield f"pair {metal} {first} {second} {defect.name} area={area}"
    yield f"pairs {count}"


def areas(path, map_path, number=None):
    """The beginning of each row, or the lines of pairs at the size with this number, counted from 1."""
    layout = db.Layout()
    layout.read(path)
    with open(map_path, "rb") as file:
        layer_map = tomllib.load(file)
    design = Design(layout, layer_map)
    measure = "sides" if layer_map["version"] == 2 else "radii"
    defects = [Defect(measure, size) for size in layer_map[measure]]
    metals = [metal["name"] for metal in layer_map["metal"]]
    if number is not None:
        if not 0 < number <= len(defects):
            fail(f"areas_by_booleans.py: the map has {len(defects)} sizes")
        yield from pair_lines(design, metals, defects[number - 1])
        return
    for metal, defect in itertools.product(metals, defects):
        yield f"short {metal} {defect.name} area={design.shorts(metal, defect)}"
    for cut, defect in itertools.product(layer_map.get("cut", []), defects):
        yield f"via {cut['name']} {defect.name} area={design.blocks(cut['name'], defect)}"


if __name__ == "__main__":
    # The editor hands the words over as names of this module.
    words = [globals().get(name) for name in ("path", "map")]
    number = globals().get("pairs")
    if None in words:
        words = sys.argv[1:]
        if len(words) == 4 and words[2] == "--pairs":
            number = words.pop()
            words.pop()
    if len(words) != 2 or number is not None and not number.isdecimal():
        fail(__doc__)
    for line in areas(*words, None if number is None else int(number)):
        print(line)
