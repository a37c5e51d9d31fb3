#!/usr/bin/env bash
# A plan of OMPL's RRT* over a served map: from the one room through a door to the other, for a
# robot of 0.1 m radius; PATH confirms its clearance.
# Needs g++: g++ pkg-config
# Needs the header: ompl/geometric/planners/rrt/RRTstar.h
. "$(dirname "$0")/setup.bash"

# 3 by 2 m, 0.05 m a cell: walls around it, and one across it with a door of 0.6 m near the top.
{
    printf 'P1\n60 40\n'
    for y in $(seq 0 39); do
        for x in $(seq 0 59); do
            if [ "$x" = 0 ] || [ "$x" = 59 ] || [ "$y" = 0 ] || [ "$y" = 39 ]; then printf 1
            elif [ "$x" -ge 29 ] && [ "$x" -le 30 ] && { [ "$y" -lt 4 ] || [ "$y" -ge 16 ]; }; then printf 1
            else printf 0; fi
        done
        echo
    done
} > "$scratch/map.pbm"
start_server "$scratch/map.pbm" --connections 3

g++ -std=c++17 -O1 -I clients/cpp $(pkg-config --cflags-only-I ompl) -o "$scratch/ompl_plan" examples/ompl_plan.cpp -lompl
"$scratch/ompl_plan" "$port" 60 40 0.05 0 0 0.1 0.5 0.5 2.5 0.5 > "$scratch/plan.txt"

# The plan differs with OMPL's version; what it has to be doesn't: from the start to the goal,
# through the door, with room for the robot in any case.
sed -n '1s/,.*//p; $!{h;d}; x; s/,.*//p' "$scratch/plan.txt"
tail -n 1 "$scratch/plan.txt" | awk '{ print ($4 >= 0.1 ? "it keeps 0.1 m or more" : "it keeps " $4 " m"), $6, $7, $8 }'

# A word is a number as a whole, or none.
"$scratch/ompl_plan" "$port" 60 40 0.05 0 0 0,1 0.5 0.5 2.5 0.5 2>&1 || true

# On the version in which somebody has closed the door there is none.
printf 'PAINT 29 4 31 16\nPUBLISH\nQUIT\n' | clearmap ask --port "$port" | sed -n 2p
"$scratch/ompl_plan" "$port" 60 40 0.05 0 0 0.1 0.5 0.5 2.5 0.5 2>&1 || true
wait "$server"
