#!/bin/sh
# Tries the gateway before servers of the built program: its tests, and the model and the busy
# clients, which ask through it what they ask a server. CLEARMAP names another program. Loopback
# only, and nothing is left. Skips everything, with a message, if numpy or the library is missing.
set -u
cd "$(dirname "$0")/../.." || exit 1
built=${CLEARMAP:-$PWD/crates/clearmap/out/clearmap}
export PYTHONDONTWRITEBYTECODE=1
"$built" --version > /dev/null || exit 1
library=${CLEARMAP_LIBRARY:-crates/libclearmap/out/libclearmap.so.2}
python=$(tools/python_with numpy)
if [ -z "$python" ] || [ ! -e "$library" ]; then
    echo "the gateway left out: there is no python3 with numpy, or no $library"
    exit 0
fi
scratch=$(mktemp -d)
trap 'rm -rf "$scratch"' EXIT
trap 'exit 1' INT TERM
failed=0

try() { # try COMMAND ..: says how it ended, and what it wrote if it failed
    timeout 300 "$@" > "$scratch/log" 2>&1 || { failed=1; cat "$scratch/log"; }
    shift
    echo "$*: $(tail -n 1 "$scratch/log")"
}
export CLEARMAP="$built"
for test in replies pins lost waits full; do try "$python" "tools/gateway/test_$test.py"; done
printf '#!/bin/sh\nexec %s %s "$@"\n' "$python" "$PWD/tools/stress/served_by_gateway.py" \
    > "$scratch/program"
chmod +x "$scratch/program"
export CLEARMAP="$scratch/program" BUILT="$built"
try "$python" tools/stress/random_commands.py "${COMMANDS:-2000}"
try "$python" tools/stress/busy_clients.py "${SECONDS_BUSY:-5}"
if command -v mypy > /dev/null; then
    export MYPYPATH=clients/python:tools/gateway
    own=$(ls tools/gateway/*.py | grep -v /test)
    try mypy --strict --cache-dir /dev/null --python-executable "$(command -v "$python")" $own
else
    echo 'the types of the gateway left out: there is no mypy'
fi
[ "$failed" = 0 ]
