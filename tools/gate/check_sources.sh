#!/bin/sh
# Looks for what no contract sees: code that forgets what it should free, by whatever name it was
# imported (tests may, to leave a session out), and lines that say by themselves that there is no
# memory. Modules named as libraries, lines of over 100 columns, and words that have a plainer one,
# too. First the tests of what judges sources and edits, and of what proves crates side by side.
set -u
cd "$(dirname "$0")/../.." || exit 1
export PYTHONDONTWRITEBYTECODE=1
for test in check_memory for_change proof_times prove_below try_edits; do
    echo "tools/gate/test_$test.py"
    timeout 60 python3 "tools/gate/test_$test.py" || exit 1
done
found=$(find crates -name out -prune -o -path '*_tests' -prune -o -path '*/src/*.rt' -print | xargs grep -nwE 'ManuallyDrop|MaybeUninit|forget|leak|into_raw|into_raw_with_allocator' | grep -vE '^[^:]*:[0-9]+: *//')
if [ -n "$found" ]; then
    echo "code that may forget what it holds:"
    echo "$found"
    exit 1
fi
echo "no code forgets what it holds"
tools/lint/check_modules.py || exit 1
tools/lint/check_lines.py || exit 1
tools/lint/check_words.py || exit 1
exec tools/lint/check_memory.py
