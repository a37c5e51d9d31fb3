#!/bin/sh
# Tries clearmap-publish and followers through Redis: servers of the built program, a Redis of
# Debian's, 200 followers, and the loss of each of them. CLEARMAP names another program. Loopback,
# and where this user may make them three networks of this machine; nothing is left. Skips
# everything, with a message, if redis-server, python3-redis, numpy or the library is missing.
set -u
cd "$(dirname "$0")/../.." || exit 1
CLEARMAP=${CLEARMAP:-$PWD/crates/clearmap/out/clearmap}
export CLEARMAP PYTHONDONTWRITEBYTECODE=1
"$CLEARMAP" --version > /dev/null || exit 1
library=${CLEARMAP_LIBRARY:-crates/libclearmap/out/libclearmap.so.2}
python=$(tools/python_with numpy, redis)
if [ -z "$python" ] || [ ! -e "$library" ] || ! command -v redis-server > /dev/null; then
    echo "the fleet left out: there is no redis-server, no python3 with numpy and redis," \
        "or no $library"
    exit 0
fi
scratch=$(mktemp -d)
running=''
trap 'for test in $running; do kill "$test" 2> /dev/null; done; rm -rf "$scratch"' EXIT
trap 'exit 1' INT TERM
failed=0
tests='records publish leases ages clocks replies lost full killed follower taken links
    networks users places'

# The tests wait more than they work, so they run side by side.
for test in $tests; do
    timeout 280 "$python" "tools/fleet/test_$test.py" > "$scratch/$test" 2>&1 &
    eval "$test=$!"
    running="$running $!"
done
told() { # told TEST STATUS: says how it ended, and what it wrote if it failed
    [ "$2" = 0 ] || { failed=1; cat "$scratch/$1"; }
    echo "test_$1.py: $(sed -n 's/^Ran \([0-9]* tests*\).*/\1/p' "$scratch/$1")," \
        "$(tail -n 1 "$scratch/$1")"
    grep ' left out: ' "$scratch/$1"
}
for test in $tests; do
    eval "wait \$$test"
    told "$test" "$?"
done
timeout 280 "$python" tools/fleet/test_fleet.py > "$scratch/fleet" 2>&1
told fleet "$?"
sed -n 's/^[0-9]* versions and /  &/p' "$scratch/fleet"
if command -v mypy > /dev/null; then
    export MYPYPATH=clients/python:tools/fleet
    own=$(ls tools/fleet/*.py | grep -v '/test\|/following\|/killed_at')
    mypy --strict --cache-dir /dev/null --python-executable "$(command -v "$python")" $own \
        > "$scratch/types" 2>&1 || { failed=1; cat "$scratch/types"; }
    echo "mypy --strict: $(tail -n 1 "$scratch/types")"
else
    echo 'the types of the fleet left out: there is no mypy'
fi
[ "$failed" = 0 ]
