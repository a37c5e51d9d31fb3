#!/usr/bin/env bash
# A robot's map from its P5 file to a picture of its distances, and the clearance of a plan in
# metres from a running server, by Python and by C++.
# Needs netpbm: pgmtoppm pnmtopng
# Needs g++: g++
. "$(dirname "$0")/setup.bash"

# A map of 2 by 1 m, 0.05 m a cell, as map_saver writes it: walls around it, a pillar, and an
# unknown corner.
awk 'BEGIN { printf "P5\n# CREATOR: map_saver.cpp 0.050 m/pix\n40 20\n255\n" }' > "$scratch/map.pgm"
for y in $(seq 0 19); do
    for x in $(seq 0 39); do
        if [ "$x" = 0 ] || [ "$x" = 39 ] || [ "$y" = 0 ] || [ "$y" = 19 ]; then printf '\000'
        elif [ "$x" -ge 18 ] && [ "$x" -le 20 ] && [ "$y" -ge 8 ] && [ "$y" -le 10 ]; then printf '\000'
        elif [ "$x" -ge 34 ] && [ "$y" -ge 14 ]; then printf '\315'
        else printf '\376'; fi
    done
done >> "$scratch/map.pgm"
cat > "$scratch/map.yaml" << 'YAML'
image: map.pgm
resolution: 0.050000
origin: [-1.000000, -0.500000, 0.000000]
negate: 0
occupied_thresh: 0.65
free_thresh: 0.196
YAML

# The obstacles as PBM, and a picture of the distances.
tools/ros/clearmap_ros.py pbm "$scratch/map.yaml" > "$scratch/map.pbm"
clearmap dist < "$scratch/map.pbm" | bin/distances_to_pgm > "$scratch/distances.pgm"
pgmtoppm blue-red "$scratch/distances.pgm" | pnmtopng > "${1-$scratch/distances.png}"
head -c 15 "$scratch/distances.pgm" | head -n 3

# The server, and a plan in metres: from the left to the right, past the pillar.
start_server "$scratch/map.pbm" --connections 3
printf -- '-0.80 0.02\n-0.20 0.30\n0.60 0.02\n' > "$scratch/plan.txt"
examples/plan.py "$scratch/map.yaml" "$port" < "$scratch/plan.txt"

g++ -std=c++17 -I clients/cpp -o "$scratch/plan" examples/plan.cpp
"$scratch/plan" "$port" 40 20 0.05 -1 -0.5 < "$scratch/plan.txt"

# Is there room for a robot of 0.12 m radius? The first cell that is too near, or OK CLEAR.
{
    echo PIN
    tools/ros/clearmap_ros.py path "$scratch/map.yaml" --radius 0.12 < "$scratch/plan.txt"
    echo QUIT
} | clearmap ask --port "$port" | sed -n 2p
wait "$server"
