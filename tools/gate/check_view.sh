#!/bin/sh
# Runs the tests of clearmap-view against the built program; CLEARMAP names another one, and
# CLEARMAP_LIBRARY another library. Loopback only, and nothing is left. Needs aiohttp and numpy for
# one python3, and skips everything, with a message, if there is none. The page is tried where
# Selenium, Chromium and its driver are installed, and its screenshots are read where python3-pil
# is.
set -u
cd "$(dirname "$0")/../.." || exit 1
CLEARMAP=${CLEARMAP:-$PWD/crates/clearmap/out/clearmap}
export CLEARMAP PYTHONDONTWRITEBYTECODE=1
"$CLEARMAP" --version > /dev/null || exit 1

python=$(tools/python_with aiohttp, numpy, selenium)
python=${python:-$(tools/python_with aiohttp, numpy)}
if [ -z "$python" ]; then
    echo 'clearmap-view left out: there is no python3 with aiohttp and numpy'
    exit 0
fi
log=$(mktemp)
trap 'rm -f "$log"' EXIT
trap 'exit 1' INT TERM
failed=0
told="the page isn't tried\|screenshots aren't read\|there is no library\|a publish by another"
told="$told\|the first picture of"
for test in tools/view/test_*.py; do
    timeout 600 "$python" "$test" > "$log" 2>&1 || { failed=1; cat "$log"; }
    sed -n "s/^[.s]*\(\($told\).*\)/  \1/p" "$log"
    echo "$test: $(sed -n 's/^Ran \([0-9]* tests\).*/\1/p' "$log"), $(tail -n 1 "$log")"
done
[ "$failed" = 0 ]
