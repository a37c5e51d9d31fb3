#!/bin/sh
# Runs each transcript of examples/ with the built program (or that of CLEARMAP), and compares what
# it prints with the file next to it. With --write it writes those files instead: look at what
# changed before you commit it. Each has a minute. A transcript that says "# Needs netpbm: TOOL .."
# or "# Needs the header: HEADER" is skipped, and counted, if one of these isn't installed, and one
# that says "# Needs the library: FILE" where that isn't built (make lib), or "# Needs the modules:
# MODULE, .." where no python3 has them.
set -u
cd "$(dirname "$0")/../.." || exit 1
program=${CLEARMAP:-$PWD/crates/clearmap/out/clearmap}
[ -x "$program" ] || ./clearmap --version > /dev/null || exit 1
room=$(mktemp -d)
trap 'rm -rf "$room"' EXIT
trap 'exit 1' INT TERM
mkdir "$room/bin"
ln -s "$program" "$room/bin/clearmap"
PATH="$room/bin:$PATH"
export PYTHONDONTWRITEBYTECODE=1
tried=0
wrong=0
left_out=0
has_tools() {
    for tool in $(sed -n 's/^# Needs [a-z]*: //p' "$1"); do
        command -v "$tool" > /dev/null || return 1
    done
    for library in $(sed -n 's/^# Needs the library: //p' "$1"); do
        [ -e "$library" ] || return 1
    done
    modules=$(sed -n 's/^# Needs the modules: //p' "$1")
    [ -z "$modules" ] || [ -n "$(tools/python_with $modules)" ] || return 1
    for header in $(sed -n 's/^# Needs the header: //p' "$1"); do
        echo "#include <$header>" | g++ -std=c++17 -x c++ -fsyntax-only $(pkg-config --cflags-only-I ompl 2> /dev/null) - 2> /dev/null || return 1
    done
}
for example in examples/*.sh; do
    if ! has_tools "$example"; then
        left_out=$((left_out + 1))
        echo "$example left out: install, or build, what it needs"
        continue
    fi
    tried=$((tried + 1))
    wanted="${example%.sh}.out"
    (cd / && timeout 60 bash "$OLDPWD/$example") > "$room/out" 2>&1
    status=$?
    if [ "$status" != 0 ]; then
        wrong=$((wrong + 1))
        echo "$example ends with status $status:"
        cat "$room/out"
    elif [ "${1-}" = --write ]; then
        cp "$room/out" "$wanted"
    elif ! diff -u "$wanted" "$room/out"; then
        wrong=$((wrong + 1))
        echo "$example differs"
    fi
done
echo "examples $tried, differing $wrong, left out $left_out"
[ "$wrong" = 0 ]
