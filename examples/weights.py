#!/usr/bin/env python3
"""Prints the lines `radii` and `weights` of a layer map: `examples/weights.py LO HI N`.

The radii are N whole numbers from LO to HI, each about as many times the one before. The weights are whole numbers that
add up to 1,000,000: of so many defects of radius LO or more, how many each radius stands for. Their density falls with
the cube of the radius, so of those of radius LO or more a share of (LO / r)^2 has the radius r or more. A radius stands
for the defects from half way to the one before, or from LO, up to half way to the next one; the last stands for all
greater ones, too, however great.

`examples/weights.py --sides LO HI N` prints the lines `sides` and `weights` of a map of version 2, where all of this is
meant of sides in place of radii.

With these weights the sum of a row divided by 1,000,000 is the critical area, on average, of a defect of radius, or side,
LO or more, in cells. It needs Python 3.8.
"""
import sys

WHOLE = 1000000
MOST_SIZES = 32
GREATEST = {"radii": 1000000, "sides": 2000000}


def sizes_between(low, high, count):
    """So many whole numbers that rise from the one to the other, as evenly by their ratio as whole numbers can."""
    sizes = []
    for k in range(count):
        wanted = round(low * (high / low) ** (k / (count - 1)))
        least = sizes[-1] + 1 if sizes else low
        most = high - (count - 1 - k)
        sizes.append(min(max(wanted, least), most))
    return sizes


def weights_of(sizes):
    """How many of WHOLE defects each size stands for. Whole numbers beyond each border are rounded, so they add up."""
    low = sizes[0]
    beyond = [WHOLE]
    for one, other in zip(sizes, sizes[1:]):
        square = (one + other) ** 2
        beyond.append((8 * WHOLE * low * low + square) // (2 * square))
    return [here - there for here, there in zip(beyond, beyond[1:] + [0])]


def main():
    takes_sides = sys.argv[1:2] == ["--sides"]
    measure = "sides" if takes_sides else "radii"
    try:
        low, high, count = (int(word) for word in sys.argv[2 if takes_sides else 1 :])
    except ValueError:
        sys.exit(__doc__)
    if not 1 <= low < high <= GREATEST[measure]:
        sys.exit("weights.py: LO and HI are 1 to %d, and HI is the greater one" % GREATEST[measure])
    if not 2 <= count <= min(MOST_SIZES, high - low + 1):
        sys.exit("weights.py: N is 2 to %d, and no more than there are whole numbers from LO to HI" % MOST_SIZES)
    sizes = sizes_between(low, high, count)
    print("%s = %s" % (measure, sizes))
    print("weights = %s" % weights_of(sizes))


main()
