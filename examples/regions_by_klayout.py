"""Draws a part of a layout, and over it the files that `critarea --regions` writes, by the editor KLayout and without a screen:

    klayout -b -r examples/regions_by_klayout.py -rd layout=LAYOUT -rd png=PICTURE [-rd short=FILE] [-rd open=FILE]
        [-rd via=FILE] [-rd layers=1/0,3/0] [-rd clip=0,0,400,300]

The layers and datatypes are drawn with the lowest first; where they are left out it is all of them. The clip has the left,
the bottom, the right and the top of the part in database units; where it is left out it is all that is there. Layout and
files lie in one view, as `klayout -s LAYOUT FILE ..` shows them on a screen.

By hand it was run with KLayout 0.28.5.
"""
import sys

import pya

COLOURS = {"short": 0xD62728, "open": 0x1F77B4, "via": 0x2CA02C}
SHADES = [0xBDBDBD, 0xE8C98F, 0x6F6F6F, 0xC3DBB4, 0xD3C0E3, 0xA3C1D4]
# How many points the longer side of the picture has, and patterns by their numbers in the editor.
LONGER, FULL, HATCHED = 1000, 0, 5


def insert(view, source, colour, pattern):
    """Draws what this source has, above all that was inserted before."""
    node = pya.LayerProperties()
    node.source = source
    node.fill_color = node.frame_color = colour
    node.dither_pattern = pattern
    node.width = 1
    view.insert_layer(view.end_layers(), node)


def load(view, path, colours, layers=None):
    """Puts a file into the view, beside those that are there, with these layers, or all of them, in these colours."""
    number = view.load_layout(path, True)
    found = sorted("%d/%d" % (info.layer, info.datatype) for info in view.cellview(number).layout().layer_infos())
    return [("%s@%d" % (layer, number + 1), colours[k % len(colours)]) for k, layer in enumerate(layers or found)]


def part(view, clip):
    """The part of the view that is drawn, in its own unit."""
    view.zoom_fit()
    unit = view.cellview(0).layout().dbu
    return pya.DBox(*(unit * int(number) for number in clip.split(","))) if clip else view.box()


def draw(words):
    """Saves the picture that these words ask for. One that is left out is none."""
    view = pya.LayoutView()
    for name, value in ("background-color", "#ffffff"), ("grid-visible", "false"), ("text-visible", "false"):
        view.set_config(name, value)
    layers = words["layers"].split(",") if words["layers"] else None
    shown = [(source, colour, FULL) for source, colour in load(view, words["layout"], SHADES, layers)]
    for kind, colour in COLOURS.items():
        if words[kind]:
            shown += [(source, colour, HATCHED) for source, colour in load(view, words[kind], [colour])]
    view.clear_layers()
    for layer in shown:
        insert(view, *layer)
    view.max_hier()
    box = part(view, words["clip"])
    scale = LONGER / max(box.width(), box.height())
    # What was inserted shows in the next picture only where this is called.
    view.update_content()
    view.save_image_with_options(words["png"], round(scale * box.width()), round(scale * box.height()), 0, 0, 0, box, False)


# The editor hands words over as names of this module.
words = {name: globals().get(name) for name in ("layout", "png", "layers", "clip", *COLOURS)}
if words["layout"] is None or words["png"] is None:
    # The editor would not print these words if `sys.exit` had them.
    print(__doc__, file=sys.stderr)
    sys.exit(1)
draw(words)
