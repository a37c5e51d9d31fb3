#!/usr/bin/env bash
# A map of ROS, as map_saver writes it (raw P5: 0 is occupied, 254 free, 205 unknown), to a map of
# obstacles.
. "$(dirname "$0")/setup.bash"

printf 'P5\n# CREATOR: map_saver.cpp 0.050 m/pix\n4 2\n255\n\376\000\315\376\376\376\376\000' > "$scratch/map.pgm"
cat > "$scratch/map.yaml" << 'YAML'
image: map.pgm
resolution: 0.050000
origin: [-1.000000, -1.000000, 0.000000]
negate: 0
occupied_thresh: 0.65
free_thresh: 0.196
YAML

# Unknown cells are obstacles, which is the safe choice for a planner; or free, where it is asked
# for.
tools/ros/clearmap_ros.py pbm "$scratch/map.yaml" > "$scratch/map.pbm"
clearmap dist < "$scratch/map.pbm"
tools/ros/clearmap_ros.py pbm --unknown-is-free "$scratch/map.yaml" | clearmap dist

# In which cell is the point (-0.99, -0.96), how far is the obstacle, and what is d for a robot of
# 0.06 m?
read -r x y < <(tools/ros/clearmap_ros.py cell "$scratch/map.yaml" -0.99 -0.96)
read -r ok square rest < <(clearmap dist --query "AT euclid2 $x $y" < "$scratch/map.pbm")
echo "cell $x $y: $ok $square $rest"
tools/ros/clearmap_ros.py metres "$scratch/map.yaml" "$square"
tools/ros/clearmap_ros.py radius "$scratch/map.yaml" 0.06

# A plan in metres, as the line that asks of it.
line=$(printf -- '-0.99 -0.99\n-0.91 -0.96\n' | tools/ros/clearmap_ros.py path "$scratch/map.yaml")
echo "$line"
clearmap dist --query "$line" < "$scratch/map.pbm"
