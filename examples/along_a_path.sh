#!/usr/bin/env bash
# The clearance along a path, cell by cell, as a plot on the terminal.
# Needs gnuplot: gnuplot
. "$(dirname "$0")/setup.bash"

{
    echo PIN
    for x in $(seq 2 27); do echo "AT euclid2 $x 6"; done
    echo QUIT
} > "$scratch/lines"
start_server examples/room.pbm --connections 1
clearmap ask --port "$port" < "$scratch/lines" > "$scratch/replies"
wait "$server"

# Each reply to AT is OK, the squared distance and the obstacle; anything else ends this.
awk 'NR == 1 || $1 == "BYE" { next } $1 != "OK" { print "refused: " $0 > "/dev/stderr"; exit 1 } { print NR, sqrt($2) }' \
    "$scratch/replies" > "$scratch/clearance.txt"
plot=$(gnuplot -e "set terminal dumb 72 16; unset key; set xlabel 'column'; set ylabel 'cells'; plot '$scratch/clearance.txt' with lines" | tr -d '\f')

# The plot is shown on a terminal; how gnuplot draws it differs from version to version.
if [ -t 1 ]; then echo "$plot"; fi
grep -q 'column' <<< "$plot"
sort -k 2,2n -k 1,1n "$scratch/clearance.txt" | sed -n '1s/^/tightest: /p;$s/^/roomiest: /p'
