#!/usr/bin/env bash
# One query of a map instead of the table. The room has its origin at the upper left.
. "$(dirname "$0")/setup.bash"

clearmap dist --query 'AT euclid2 3 3' < examples/room.pbm

# The tightest cell of a path through the room, in steps to the four neighbours.
clearmap dist --query 'PATH city 2 2 2 6 6 6' < examples/room.pbm

# May a robot that needs a clearance of 2 cells (4 squared) go there? The answer is the first cell
# that is too near.
clearmap dist --query 'CLEAROF euclid2 4 2 2 2 6 6 6' < examples/room.pbm

# A path with a slanted segment is refused.
clearmap dist --query 'PATH city 2 2 4 4' < examples/room.pbm || echo "status $?"
