#!/bin/sh
# Tries clients of the built server in parallel (tools/gate/check_together.py). Loopback only.
set -u
cd "$(dirname "$0")/../.." || exit 1
exec python3 tools/gate/check_together.py "$@"
