#!/usr/bin/env bash
# Distances of a folder of maps by three processes of Dask. One is killed on the way, and what it
# had to do is done by the others.
# Needs the modules: numpy, distributed
# Needs the library: crates/libclearmap/out/libclearmap.so.2
. "$(dirname "$0")/setup.bash"
python=$(tools/python_with numpy, distributed)

# Occupancy grids as numpy writes them: 0 to 100, and -1 where a cell is unknown.
mkdir "$scratch/maps"
"$python" - "$scratch/maps" << 'PYTHON'
import sys
import numpy

numbers = numpy.random.default_rng(45)
for name in range(24):
    grid = numbers.integers(0, 65, (1200, 1200), "i1")
    grid[tuple(numbers.integers(0, 1200, (2, 5000)))] = 100
    numpy.save(f"{sys.argv[1]}/floor_{name:02}.npy", grid)
PYTHON

"$python" examples/many_maps.py "$scratch/maps" "$scratch/workers"
