#!/usr/bin/env bash
# A small floor plan: how far is each cell from the nearest wall?
. "$(dirname "$0")/setup.bash"

clearmap dist < examples/room.pbm | sed -n 1,5p

# Steps to the four neighbours, and which wall it is.
clearmap dist --metric city --nearest < examples/room.pbm | sed -n 4p

# An image without an obstacle has no distances.
printf 'P1\n3 1\n000\n' | clearmap dist

# A refused image is one line on standard output, and status 1.
printf 'P1\n3 1\n00\n' | clearmap dist || echo "status $?"
