#!/usr/bin/env python3
"""Times OpenCV's distance transforms of one raw PBM on one thread: a line for each metric, with
nanoseconds per map, the least of several rounds."""
import sys
import time

import cv2
import numpy

ROUNDS = 7


def main():
    cv2.setNumThreads(1)
    data = open(sys.argv[1], "rb").read()
    side = int(data.split(b"\n", 2)[1].split()[0])
    raster = numpy.frombuffer(data.split(b"\n", 2)[2], numpy.uint8).reshape(side, (side + 7) // 8)
    free = ((1 - numpy.unpackbits(raster, axis=1)[:, :side]) * 255).astype(numpy.uint8)
    for name, kind, mask in (
        ("euclid2", cv2.DIST_L2, cv2.DIST_MASK_PRECISE),
        ("city", cv2.DIST_L1, cv2.DIST_MASK_3),
        ("chess", cv2.DIST_C, cv2.DIST_MASK_3),
    ):
        least = None
        for _ in range(ROUNDS):
            start = time.perf_counter_ns()
            cv2.distanceTransform(free, kind, mask)
            taken = time.perf_counter_ns() - start
            least = taken if least is None else min(least, taken)
        print(name, least)


if __name__ == "__main__":
    main()
