#!/usr/bin/env bash
# A costmap layer: from distances to costs as ROS has them. 254 is an obstacle, 253 where the
# robot's inscribed circle touches one, then it falls off with the distance, and 0 is free. A cell
# without a distance, as in a map with no obstacle, costs nothing.
. "$(dirname "$0")/setup.bash"

resolution=0.05 inscribed=0.10 scaling=10
clearmap dist < examples/room.pbm > "$scratch/distances.txt"
awk -v s="$resolution" -v r="$inscribed" -v k="$scaling" '
    { for (i = 1; i <= NF; i++) {
          if ($i !~ /^([0-9]+|-)$/) { print "no distances: " $0 > "/dev/stderr"; exit 1 }
          metres = sqrt($i) * s
          cost = $i == "-" ? 0 : $i == 0 ? 254 : metres <= r ? 253 : int(252 * exp(-k * (metres - r)))
          printf "%s%d", (i > 1 ? " " : ""), cost
      }
      print "" }' "$scratch/distances.txt" > "$scratch/costs.txt"
sed -n 4p "$scratch/costs.txt"

# How many cells have each of the costs that end a plan.
tr ' ' '\n' < "$scratch/costs.txt" | awk '$1 == 254 { walls++ } $1 == 253 { near++ } END { print walls + 0, "obstacles,", near + 0, "too near" }'
