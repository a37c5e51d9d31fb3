#!/bin/bash
# Writes the two pictures of rviz that docs/images/ has, of the map examples/house.yaml: a costmap
# with a plan, and distances. Needs ROS 1 with roslaunch and rviz, as Debian has them, xvfb,
# imagemagick, and the built program and library.
#   tools/ros/screenshot.sh [FOLDER]
set -eu
cd "$(dirname "$0")/../.."
folder=${1-docs/images}
if [ -z "${DISPLAY_OF_SCREENSHOT-}" ]; then
    export DISPLAY_OF_SCREENSHOT=1
    exec xvfb-run -a -s '-screen 0 1200x800x24' "$0" "$folder"
fi
scratch=$(mktemp -d)
port=$(python3 -c 'import socket; print(socket.create_server(("127.0.0.1", 0)).getsockname()[1])')
export ROS_MASTER_URI=http://127.0.0.1:$port ROS_IP=127.0.0.1 ROS_HOME=$scratch
export ROS_PACKAGE_PATH=$PWD/tools/ros LIBGL_ALWAYS_SOFTWARE=1 XDG_RUNTIME_DIR=$scratch
export PATH=/usr/bin:/bin PYTHONDONTWRITEBYTECODE=1 QT_LOGGING_RULES='*=false'
started=''
finish() {
    for process in $started; do kill -INT "$process" 2> /dev/null && wait "$process" || true; done
    rm -rf "$scratch"
}
trap finish EXIT
trap 'exit 1' INT TERM
set -m # so that an interrupt reaches what runs in the background

# The plan of the pages, through the house.
points='40 70 122 73 126 108 188 112 199 90 200 69 222 69 228 82'
poses=''
set -- $points
while [ $# -gt 0 ]; do
    at=$(tools/ros/clearmap_ros.py centre examples/house.yaml "$1" "$2")
    shift 2
    poses="$poses{pose: {position: {x: ${at% *}, y: ${at#* }}}}, "
done

picture() { # picture NAME CONFIGURATION
    roslaunch -p "$port" clearmap clearmap.launch yaml:="$PWD/examples/house.yaml" radius:=0.22 \
        inflation:=0.6 scaling:=5 rviz:=false > "$scratch/launched" 2>&1 &
    started=$!
    sleep 4
    rviz -d "$2" > "$scratch/shown" 2>&1 &
    started="$! $started"
    rostopic pub -l /plan nav_msgs/Path "{header: {frame_id: map}, poses: [${poses%, }]}" \
        > "$scratch/planned" 2>&1 &
    started="$! $started"
    sleep 15
    import -window root -crop 798x548+375+142 +repage +dither -colors 255 -strip \
        "png8:$folder/$1.png"
    for process in $started; do kill -INT "$process" 2> /dev/null && wait "$process" || true; done
    started=''
}
own=tools/ros/rviz/clearmap.rviz
picture ros-costmap "$own"
awk '/^ *Name: /{name = $2} /^ *(Enabled|Value): /{
    if (name == "Distance") sub("false", "true"); if (name == "Costmap") sub("true", "false")
} 1' "$own" > "$scratch/distance.rviz"
picture ros-distance "$scratch/distance.rviz"
