#!/usr/bin/python3
# Debian's own python3, as its packages python3-numpy and python3-scipy are only for that one.
"""Compares what three programs wrote for one map: `check.py MAP DIST NEAREST OTHER`.

The distances must be the same in all three, and each cell that NEAREST names must be an obstacle of
the map at that distance.
"""
import sys

import numpy

from scipy_dist import read


def numbers(path, apart):
    """The numbers of a text, whose rows end in LF."""
    return numpy.fromstring(open(path, "rb").read().replace(apart, b" "), dtype=numpy.int64, sep=" ")


def main():
    source, dist, nearest, other = sys.argv[1:]
    with open(source, "rb") as stream:
        bits = read(stream)
    height, width = bits.shape
    distances = numbers(dist, b" ").reshape(height, width)
    if not (distances == numbers(other, b" ").reshape(height, width)).all():
        sys.exit("the distances differ")
    entries = numbers(nearest, b"/").reshape(height, width, 3)
    if not (entries[:, :, 0] == distances).all():
        sys.exit("the distances with --nearest differ")
    xs, ys = entries[:, :, 1], entries[:, :, 2]
    if not bits[ys, xs].all():
        sys.exit("a named cell is no obstacle")
    rows, columns = numpy.indices((height, width))
    if not ((xs - columns) ** 2 + (ys - rows) ** 2 == distances).all():
        sys.exit("a named cell is at another distance")
    print("same")


if __name__ == "__main__":
    main()
