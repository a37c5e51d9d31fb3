#!/bin/sh
# Tries each row of the table of docs/use/LIMITS.md on the built program
# (tools/gate/check_limits.py).
set -u
cd "$(dirname "$0")/../.." || exit 1
exec python3 tools/gate/check_limits.py "$@"
