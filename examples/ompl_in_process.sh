#!/usr/bin/env bash
# Plans of four of OMPL's planners at a time over one map in process, shared by their threads: from
# the one room through a door to the other, for a robot of 0.1 m radius.
# Needs g++: g++ pkg-config
# Needs the header: ompl/geometric/planners/rrt/RRTstar.h
# Needs the library: crates/libclearmap/out/libclearmap.a
. "$(dirname "$0")/setup.bash"

# 3 by 2 m, 0.05 m a cell: walls around it, and one across it with a door of 0.6 m near the top.
{
    printf 'P1\n60 40\n'
    for y in $(seq 0 39); do
        for x in $(seq 0 59); do
            if [ "$x" = 0 ] || [ "$x" = 59 ] || [ "$y" = 0 ] || [ "$y" = 39 ]; then printf 1
            elif [ "$x" -ge 29 ] && [ "$x" -le 30 ] && { [ "$y" -lt 4 ] || [ "$y" -ge 16 ]; }
            then printf 1
            else printf 0; fi
        done
        echo
    done
} > "$scratch/map.pbm"

g++ -std=c++17 -O1 -pthread -I clients/c -I clients/cpp $(pkg-config --cflags-only-I ompl) \
    -o "$scratch/plan" examples/ompl_plan_in_process.cpp \
    crates/libclearmap/out/libclearmap.a -lompl
"$scratch/plan" "$scratch/map.pbm" 0.05 0 0 0.1 0.5 0.5 2.5 0.5 > "$scratch/plan.txt"

# The plan differs from run to run; what it has to be doesn't: from the start to the goal, through
# the door, with room for the robot in any case.
sed -n '1s/,.*//p; $!{h;d}; x; s/,.*//p' "$scratch/plan.txt"
tail -n 1 "$scratch/plan.txt" |
    awk '{ print ($4 >= 0.1 ? "it keeps 0.1 m or more" : "it keeps " $4 " m") }'

# A word is a number as a whole, or none.
"$scratch/plan" "$scratch/map.pbm" 1/20 0 0 0.1 0.5 0.5 2.5 0.5 2>&1 || true

# Where the door is closed there is none.
sed '7,18s/./1/31' "$scratch/map.pbm" > "$scratch/closed.pbm"
"$scratch/plan" "$scratch/closed.pbm" 0.05 0 0 0.1 0.5 0.5 2.5 0.5 2>&1 || true
