#!/usr/bin/env python3
"""Makes a table of a report: `./critarea WORDS | examples/report_as_csv.py WORDS > rows.csv`, with the same words.

Each line has the layout, the map and the top as they were named, the database unit in metres by the layout's record
UNITS, what `critarea --version` says, and then one row of the report. The totals and the lines behind them are left out:
they follow from the rows. Where the map or the top is not named, its column is empty. Of a run with `--generate` the
layout is this word with its number, and has no unit. The measure is `r` where the size is a radius, and `s` where it is a
whole side. Areas are numbers of cells, each of which is a square of one unit.

Where no totals come, as of a run that was refused, it prints no line and fails. It needs Python 3.8.
"""
import argparse
import csv
import os
import struct
import subprocess
import sys

UNITS, REAL = 3, 5


def real_of(field):
    """A number as GDSII Release 6 writes it: a sign, an exponent of 16 beyond 64, and 56 bits behind the point."""
    value = int.from_bytes(field[1:], "big") / 2**56 * 16.0 ** ((field[0] & 127) - 64)
    return -value if field[0] & 128 else value


def unit_of(path):
    """The size of a database unit in metres, which is the second number of the record UNITS."""
    with open(path, "rb") as file:
        while True:
            length, kind, form = struct.unpack(">HBB", file.read(4))
            fields = file.read(length - 4)
            if (kind, form) == (UNITS, REAL):
                return real_of(fields[8:16])


def words_of(arguments):
    # Which words a run takes is for critarea to judge. Here only the names among them matter.
    parser = argparse.ArgumentParser(description=__doc__.splitlines()[0], allow_abbrev=False)
    parser.add_argument("layout", nargs="?", default="")
    for option in ("map", "top", "layer", "datatype", "radius", "generate", "tile", "workers"):
        parser.add_argument("--" + option, default="")
    words = parser.parse_args(arguments)
    if bool(words.layout) == bool(words.generate):
        parser.error("either a layout is named, or --generate is there")
    return words


def rows_of(report):
    """The rows of a report that came to its totals."""
    rows, has_totals = [], False
    for line in report:
        words = line.split()
        if words and words[0] in ("short", "open", "via"):
            rows.append(words[:2] + words[2].split("=", 1) + [word.split("=", 1)[1] for word in words[3:]])
        has_totals = has_totals or words[:1] == ["total"]
    if not has_totals:
        sys.exit("report_as_csv.py: no report came: it has no line that begins with 'total'")
    return rows


def main():
    words = words_of(sys.argv[1:])
    rows = rows_of(sys.stdin)
    program = os.path.join(os.path.dirname(os.path.abspath(__file__)), os.pardir, "critarea")
    version = subprocess.run([program, "--version"], stdout=subprocess.PIPE, text=True, check=True).stdout.strip()
    named = [words.layout, "%.9g" % unit_of(words.layout)] if words.layout else ["--generate=" + words.generate, ""]
    about = [named[0], words.map, words.top, named[1], version]
    table = csv.writer(sys.stdout, lineterminator="\n")
    table.writerow("layout map top unit version kind layer measure size area weight sum".split())
    for row in rows:
        table.writerow(about + row)


main()
