#!/usr/bin/env bash
# Distances as a colour picture: the walls are blue, and the cells that are farthest from a wall are
# red.
# Needs netpbm: pamfile pgmtoppm ppmhist pnmenlarge pnmtopng
. "$(dirname "$0")/setup.bash"

clearmap dist < examples/room.pbm | bin/distances_to_pgm > "$scratch/room.pgm"
pgmtoppm blue-red "$scratch/room.pgm" > "$scratch/room.ppm"
pnmenlarge 16 "$scratch/room.ppm" | pnmtopng > "${1-$scratch/room.png}"
pamfile "$scratch/room.ppm" | sed 's/.*://'

# Its colours (red, green, blue, brightness), and how many cells have each. The PNG goes to the file
# that is named, and else is dropped.
ppmhist -noheader "$scratch/room.ppm"

# Anything but a table of distances isn't drawn.
printf 'P1\n3 1\n00\n' | { clearmap dist || true; } | bin/distances_to_pgm || echo "status $?"
