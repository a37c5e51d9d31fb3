#!/bin/bash
# Runs the tests of the clients against the built program; CLEARMAP names another one. Loopback
# only, and nothing is left. Each test file and each server has a time limit. Needs python3, and for
# the client in C++ a compiler, as Debian's g++. What isn't installed is skipped, with a message.
# With the argument `long` the client in C++ has 10,000 calls interrupted, 10,000 made under signals
# and 100,000 by eight threads, and a storm of 20,000 turns: ten minutes next to other work.
set -u
long=${1:-}
cd "$(dirname "$0")/../.." || exit 1
CLEARMAP=${CLEARMAP:-$PWD/crates/clearmap/out/clearmap}
export CLEARMAP PYTHONDONTWRITEBYTECODE=1
"$CLEARMAP" --version > /dev/null || exit 1
scratch=$(mktemp -d)
servers=''
finish() {
    for server in $servers; do kill "$server" 2> /dev/null; done
    rm -rf "$scratch"
}
trap finish EXIT
trap 'exit 1' INT TERM
failed=0

tried() { # tried PYTHON TEST
    timeout 300 "$1" "$2" > "$scratch/log" 2>&1 || { failed=1; cat "$scratch/log"; }
    echo "$2: $(sed -n 's/^Ran \([0-9]* tests\).*/\1/p' "$scratch/log"), $(tail -n 1 "$scratch/log")"
}
for test in clients/python/test_clearmap.py clients/python/test_in_step.py \
    clients/python/test_drafts.py clients/python/test_waits.py clients/python/test_values.py \
    tools/gate/test_clearmap_backup.py; do
    tried python3 "$test"
done

# What works in process: with the built library, or the one that CLEARMAP_LIBRARY names.
library=${CLEARMAP_LIBRARY:-crates/libclearmap/out/libclearmap.so.2}
arrays=$(tools/python_with numpy)
if [ -n "$arrays" ] && [ -e "$library" ]; then
    for test in clients/python/test_library.py clients/python/test_maps.py \
        clients/python/test_tiles.py clients/python/test_footprints.py \
        clients/python/test_rings.py \
        clients/python/test_clearances.py clients/python/test_plans.py \
        clients/python/test_signed.py clients/python/test_carried.py \
        clients/python/test_images.py clients/python/test_transforms.py \
        clients/python/test_metres.py clients/python/test_gray.py \
        clients/python/test_many.py clients/python/test_held.py clients/python/test_slopes.py \
        clients/python/test_inflation.py clients/python/test_fields.py \
        clients/python/test_shapes.py clients/python/test_stairs.py; do
        tried "$arrays" "$test"
    done
    for rules in legacy weak; do # numpy's on numbers of few bits: those of numpy 1 and of 2
        NPY_PROMOTION_STATE=$rules tried "$arrays" clients/python/test_numbers.py
    done
    for peer in scipy cv2; do
        "$arrays" -c "import $peer" 2> /dev/null || echo "  not compared with $peer: there is none"
    done
else
    echo 'the tests in process left out: there is no python3 with numpy, or no' "$library"
fi
if command -v mypy > /dev/null && [ -n "$arrays" ]; then
    (cd clients/python && timeout 300 mypy --strict --cache-dir "$scratch/mypy" \
        --python-executable "$(command -v "$arrays")" clearmap typed_uses.py) \
        > "$scratch/log" 2>&1 ||
        { failed=1; cat "$scratch/log"; }
    echo "mypy --strict clients/python/clearmap: $(tail -n 1 "$scratch/log")"
else
    echo 'the types of clients/python left out: there is no mypy, or no python3 with numpy'
fi

# A server of a map with these settings; its port comes into the variable `port`.
serve() { # serve MAP FLAG ..
    : > "$scratch/port"
    timeout 900 "$CLEARMAP" serve --connections 1000000 "${@:2}" < "$scratch/$1" > "$scratch/port" &
    servers="$servers $!"
    for _ in $(seq 400); do
        port=$(sed -n 's/^LISTENING //p' "$scratch/port")
        [ -z "$port" ] || return 0
        kill -0 "$!" 2> /dev/null || break
        sleep 0.05
    done
    echo 'no server listens'
    return 1
}
printf 'P1\n6 4\n000000\n001000\n000000\n000000\n' > "$scratch/post"
{
    printf 'P1\n64 48\n'
    for y in $(seq 0 47); do
        if [ "$y" = 7 ]; then printf '%05d1%058d\n' 0 0; else printf '%064d\n' 0; fi
    done
} > "$scratch/wide"

# The tests of the header, built with these flags: each run has servers of its own.
build() { # build NAME FLAG ..
    for test in clearmap in_step drafts; do
        "$compiler" -std=c++17 -Wall -Wextra -Werror -pthread "${@:2}" -o "$scratch/${test}_$1" \
            "clients/cpp/test_$test.cpp" || return 1
    done
}
run() { # run NAME
    local post walled wide
    serve post && post=$port && serve post --edge wall && walled=$port &&
        serve post --blocks 2 --versions 2 --log 3 &&
        timeout 300 "$scratch/clearmap_$1" "$post" "$port" "$walled" &&
        serve wide --log 20 && wide=$port && serve wide --workers 1 &&
        timeout 900 "$scratch/in_step_$1" "$wide" "$port" $long &&
        timeout 300 "$scratch/drafts_$1" $long
}

# What can't be a call doesn't compile, and what is next to it does.
compiles() { # compiles STATEMENT
    {
        echo '#include "clearmap.hpp"'
        echo 'void call(clearmap::Client& client, clearmap::Pinned& map, double& cells) {'
        echo "$1; (void)client, (void)map, (void)cells; }"
    } | LC_ALL=C "$compiler" -std=c++17 -fsyntax-only -I clients/cpp -x c++ - 2> "$scratch/log"
}
refused() { # refused WORDS STATEMENT
    if compiles "$2"; then
        echo "this compiles: $2"
    elif ! grep -q "$1" "$scratch/log"; then
        cat "$scratch/log"
    else
        return 0
    fi
    failed=1
}
check_forms() {
    compiles 'client.stamp({0, 0}, std::vector<unsigned char>(9)), client.paint(0, 0, 1L, 1u)' &&
        compiles 'map.clear_of(2, {{0, 0}}), map.is_valid(0, 1, cells), map.rect(0, 0, 1, 1)' &&
        compiles 'if (map.is_clear(2, {{0, 0}})) map.unpin()' ||
        { failed=1; cat "$scratch/log"; }
    refused 'an image is bytes' 'client.stamp({0, 0}, std::vector<std::uint16_t>(9))'
    refused 'no matching' 'client.stamp({0, 0}, std::vector<bool>(9))'
    refused deleted 'map.clear_of(2.5, {{0, 0}})'
    refused deleted 'map.is_clear(2.5, {{0, 0}})'
    refused deleted 'map.is_valid(0.5, 1, cells)'
    refused deleted 'map.rect(0, 0.5, 1, 1)'
    refused deleted 'map.at({0.5, 1})'
    refused deleted 'clearmap::Client other(7400.5)'
    refused deleted 'clearmap::Queries().rect(0.5, 0, 1, 1)'
    refused deleted 'client.paint(0, 0, 1, 1.5)'
    refused deleted 'client.clear(0, 0, 1.5f, 1)'
    refused deleted 'clearmap::Pinned other(map)'
    refused deleted 'clearmap::Client other(client)'
}

# An older C++ is told by a sentence, before what it doesn't know.
check_standard() {
    for header in clearmap clearmap_footprint clearmap_signed; do
        echo "#include \"$header.hpp\"" | LC_ALL=C "$compiler" -std=c++14 -fsyntax-only \
            -I clients/c -I clients/cpp -x c++ - 2> "$scratch/log"
        grep -E 'error|warning' "$scratch/log" | head -n 1 | grep -q 'need C++17.*-std=c++17' ||
            { failed=1; echo "$header.hpp by C++14:"; head -n 5 "$scratch/log"; }
    done
}

# Whether programs with an operator new of their own can be built with these flags, and run.
runs() { # runs FLAG ..
    {
        echo '#include <cstdlib>'
        echo '#include <new>'
        echo 'void* operator new(std::size_t size) { return std::malloc(size); }'
        echo 'void operator delete(void* data) noexcept { std::free(data); }'
        echo 'int main() {}'
    } | "$compiler" "$@" -x c++ -o "$scratch/none" - 2> /dev/null && "$scratch/none" 2> /dev/null
}

# The example refuses another map than its frame's, and words that are no numbers as a whole.
check_example() {
    serve wide || return 1
    "$compiler" -std=c++17 -I clients/cpp -o "$scratch/plan" examples/plan.cpp || return 1
    echo '0 0' | "$scratch/plan" "$port" 64 48 0.05 -1 -0.5 > "$scratch/log" 2>&1 || return 1
    for wrong in 1/20 0,05 0x1p-4 0.05m '' ' ' nan inf 1e999; do
        echo '0 0' | "$scratch/plan" "$port" 64 48 "$wrong" -1 -0.5 > "$scratch/log" 2>&1 && return 1
        [ "$(cat "$scratch/log")" = "'$wrong' is no number" ] || return 1
    done
    echo '0 0' | "$scratch/plan" "$port" 64.5 48 0.05 -1 -0.5 > "$scratch/log" 2>&1 && return 1
    echo '0 0' | "$scratch/plan" "$port" 40 20 0.05 -1 -0.5 > "$scratch/log" 2>&1 && return 1
    [ "$(cat "$scratch/log")" = \
        'the served map has 64 by 48 cells, where 40 by 20 are expected' ]
}

if compiler=$(command -v "${CXX:-g++}"); then
    check_forms
    check_standard
    check_example || { failed=1; echo 'examples/plan.cpp:'; cat "$scratch/log"; }
    for kind in plain address,undefined thread; do
        flags="-O0 -g1 -fsanitize=$kind -fno-sanitize-recover=all"
        [ "$kind" != plain ] || flags=-O1
        if runs $flags; then
            build "$kind" $flags && run "$kind" || failed=1
        else
            echo "clients/cpp with the sanitizers $kind left out: ${CXX:-g++} has none for the tests"
        fi
    done
else
    echo "clients/cpp left out: there is no ${CXX:-g++}"
fi
[ "$failed" = 0 ]
