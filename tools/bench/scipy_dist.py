#!/usr/bin/python3
# Debian's own python3, as its packages python3-numpy and python3-scipy are only for that one.
"""Reads a raw PBM image from standard input and writes the squared distances of its cells, as
`clearmap dist` does.

The distances are those of scipy's exact transform, taken with the indices of the nearest obstacles,
squared and rounded. The last line on standard error is how many seconds that took, without the
start of Python and its imports.
"""
import sys
import time

import numpy
import scipy
from scipy.ndimage import distance_transform_edt


def read(stream):
    data = stream.read()
    magic, width, height = data[:64].split()[:3]
    if magic != b"P4":
        sys.exit("not a raw PBM image")
    width, height = int(width), int(height)
    across = (width + 7) // 8
    raster = data[len(data) - across * height:]
    bits = numpy.unpackbits(numpy.frombuffer(raster, dtype=numpy.uint8).reshape(height, across), axis=1)
    return bits[:, :width]


def main():
    if "--version" in sys.argv:
        print(f"Python {sys.version.split()[0]}, numpy {numpy.__version__}, scipy {scipy.__version__}")
        return
    start = time.perf_counter()
    bits = read(sys.stdin.buffer)
    distances, _indices = distance_transform_edt(bits == 0, return_indices=True)
    squares = numpy.rint(distances * distances).astype(numpy.int64)
    out = sys.stdout
    for row in squares:
        out.write(" ".join(map(str, row.tolist())))
        out.write("\n")
    out.flush()
    print(f"{time.perf_counter() - start:.6f}", file=sys.stderr)


if __name__ == "__main__":
    main()
