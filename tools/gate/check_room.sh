#!/bin/sh
# Counts the memory that the built program asks for (tools/gate/check_room.py). Loopback only.
set -u
cd "$(dirname "$0")/../.." || exit 1
exec python3 tools/gate/check_room.py "$@"
