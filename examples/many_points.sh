#!/usr/bin/env bash
# Many points at once in Python: samples that are free, a field that follows an obstacle, slopes and
# costs.
# Needs the modules: numpy
# Needs the library: crates/libclearmap/out/libclearmap.so.1
. "$(dirname "$0")/setup.bash"

"$(tools/python_with numpy)" examples/many_points.py
