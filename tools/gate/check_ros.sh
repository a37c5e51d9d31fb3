#!/bin/sh
# Runs the tests of tools/ros against the built program; CLEARMAP names another one, and
# CLEARMAP_LIBRARY another library. Loopback only, and nothing is left. Needs python3; numpy for
# costmaps, python3-pil for images other than PGM, and for the node of ROS 1 a master and its
# packages. What isn't installed is skipped, with a message.
set -u
cd "$(dirname "$0")/../.." || exit 1
CLEARMAP=${CLEARMAP:-$PWD/crates/clearmap/out/clearmap}
export CLEARMAP PYTHONDONTWRITEBYTECODE=1
"$CLEARMAP" --version > /dev/null || exit 1
log=$(mktemp)
trap 'rm -f "$log"' EXIT
trap 'exit 1' INT TERM
failed=0

tried() { # tried PYTHON TEST
    timeout 300 "$1" "$2" > "$log" 2>&1 || { failed=1; cat "$log"; }
    echo "$2: $(sed -n 's/^Ran \([0-9]* tests\).*/\1/p' "$log"), $(tail -n 1 "$log")"
}
images=$(tools/python_with PIL.Image)
[ -n "$images" ] || echo 'images other than PGM left out: there is no python3 with PIL'
tried "${images:-python3}" tools/ros/test_clearmap_ros.py
tried "${images:-python3}" tools/ros/test_clearance_command.py
tried python3 tools/ros/test_clearmap_grid.py
tried python3 tools/ros/test_clearmap_order.py

# Costmaps, with the built library or the one that CLEARMAP_LIBRARY names.
library=${CLEARMAP_LIBRARY:-crates/libclearmap/out/libclearmap.so.2}
arrays=$(tools/python_with numpy, PIL.Image)
if [ -n "$arrays" ] && [ -e "$library" ]; then
    for test in answers costmap follow ros2_node; do
        tried "$arrays" "tools/ros/test_clearmap_$test.py"
    done
else
    echo "costmaps left out: there is no python3 with numpy and PIL, or no $library"
fi

# Debian's packages of ROS are for its own python3.
ros=$(tools/python_with rospy, nav_msgs.msg, map_msgs.msg, sensor_msgs.msg, \
    visualization_msgs.msg, numpy)
if [ -n "$ros" ] && command -v roscore > /dev/null; then
    tried "$ros" tools/ros/test_clearmap_node.py
    sed -n '/^[.]*seconds for a map/s/^[.]*/  /p' "$log"
    if "$ros" -c 'import PIL.Image' 2> /dev/null && [ -e "$library" ]; then
        tried "$ros" tools/ros/test_clearmap_layers.py
    else
        echo "the versions that the node publishes left out: there is no PIL, or no $library"
    fi
else
    echo 'the node of ROS 1 left out: there is no roscore, or no python3 with rospy, numpy,'
    echo '  nav_msgs, map_msgs, sensor_msgs and visualization_msgs'
fi
# The steps of the page, from one command to the next.
timeout 300 tools/gate/check_robots.py || failed=1

if command -v mypy > /dev/null && [ -n "$arrays" ]; then
    export MYPYPATH=clients/python:tools/ros:tools/view
    own=$(ls tools/ros/clearmap_*.py | grep -v 'layers\|node')
    timeout 300 mypy --strict --follow-imports silent --cache-dir /dev/null \
        --python-executable "$(command -v "$arrays")" $own > "$log" 2>&1 ||
        { failed=1; cat "$log"; }
    echo "mypy --strict tools/ros: $(tail -n 1 "$log")"
else
    echo 'the types of tools/ros left out: there is no mypy, or no python3 with numpy'
fi
[ "$failed" = 0 ]
