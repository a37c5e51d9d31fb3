#!/usr/bin/env bash
# A collect has looked at a reader's word just before that reader announces a version that the
# collect then drops. The reader's next load tells it so: it holds the newest version, never the one
# that is gone. Each line of the text is answered by one line.
. "$(dirname "$0")/setup.bash"

clearmap steps << 'TEXT'
OPEN 64 64 3 2 1 10
C PAINT 0 0 1 1
K 1
C PUBLISH
K 66
C COLLECT
K 1
A 0
K 1
A 0
L 0
M 0 0
T 0 1 0
T 0 0 0
V 0
TEXT
echo "status $?"

# A map of 128 columns takes two tiles, so one block is too few.
echo 'OPEN 128 1 1 2 1 10' | clearmap steps || echo "status $?"
