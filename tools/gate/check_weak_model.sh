#!/bin/sh
# Runs the tests of the library's callers in C, C++ and Python over the weak model of it
# (clients/c/weak_model.c), which keeps what is promised and no more. The sanitizers watch what it
# reads and writes of its callers' memory, too. Then CALLS random calls, 100,000 unless it is
# set, of the built library and of the model. Skips, with a message, what isn't installed or built.
set -u
cd "$(dirname "$0")/../.." || exit 1
library=$PWD/crates/libclearmap/out/libclearmap.so.2
program=${CLEARMAP:-$PWD/crates/clearmap/out/clearmap}
scratch=$(mktemp -d)
trap 'rm -rf "$scratch"' EXIT
trap 'exit 1' INT TERM
export PYTHONDONTWRITEBYTECODE=1
failed=0

try() { # try WHAT COMMAND ..: says how it ended, and what it wrote if it failed
    what=$1
    shift
    if timeout 300 "$@" > "$scratch/log" 2>&1; then
        echo "$what over the weak model: $(tail -n 1 "$scratch/log")"
    else
        failed=1
        echo "$what over the weak model FAILED:"
        tail -n 30 "$scratch/log"
    fi
}

flags='-std=c11 -Wall -Wextra -Wshadow -Wconversion -Wpedantic -Werror -g -Iclients/c'
cpp_flags='-std=c++17 -Wall -Wextra -Werror -g1 -pthread -Iclients/c -Iclients/cpp'
needs='' # of the processor, as the library says it
case $(gcc -dumpmachine) in x86_64*) needs=-Wl,-z,x86-64-v2 ;; esac
gcc $flags -O2 -fPIC -c clients/c/weak_model.c -o "$scratch/model.o" &&
    gcc $flags -O2 -fPIC -c clients/c/weak_duties.c -o "$scratch/duties.o" &&
    gcc -shared $needs -Wl,-soname,libclearmap.so.2 -Wl,--version-script=clients/c/clearmap.map \
        -Wl,-z,defs -o "$scratch/libclearmap.so.2" "$scratch/model.o" "$scratch/duties.o" || exit 1

# In C. The test tries the heap of clearmap.c too, whose other calls are the model's.
gcc $flags -O2 -Dclearmap_version=heap_version -Dclearmap_status_text=heap_status_text \
    -c clients/c/clearmap.c -o "$scratch/heap.o" &&
    gcc $flags -O2 clients/c/test_clearmap.c "$scratch/heap.o" "$scratch/model.o" \
        "$scratch/duties.o" -Wl,--wrap=malloc -lpthread -o "$scratch/test" || exit 1
try 'test_clearmap.c' "$scratch/test" 3
gcc $flags -O2 clients/c/test_planning.c "$scratch/model.o" "$scratch/duties.o" \
    -Wl,--wrap=malloc -o "$scratch/test" || exit 1
try 'test_planning.c' "$scratch/test" 10

# In C++. Under the sanitizers those tests whose own searches aren't slow there.
arrays=$(tools/python_with numpy)
cases=''
if [ -n "$arrays" ]; then
    cases=$scratch/cases
    PYTHONPATH=clients/python timeout 60 "$arrays" clients/python/footprint_model.py 60 \
        > "$cases" || exit 1
fi
header_test() { # header_test NAME MAPS FLAG ..: a test of the headers for C++, built so
    name=$1 count=$2 links='' asked=''
    shift 2
    [ "$name" != field ] || links='-Wl,--wrap=malloc'
    [ "$name" != footprint ] || asked=$cases
    if ! g++ $cpp_flags "$@" $links "clients/cpp/test_$name.cpp" "$scratch/model.o" \
        "$scratch/watched.o" -o "$scratch/test" 2> "$scratch/log"; then
        tail -n 3 "$scratch/log"
        case "$*" in
            *-fsanitize=*) echo "test_$name.cpp by $* left out: it does not build here" ;;
            *) failed=1; echo "test_$name.cpp by $* does not build" ;;
        esac
        return
    fi
    try "test_$name.cpp by $*" "$scratch/test" "$count" $asked
}
if command -v g++ > /dev/null; then
    for kind in '' '-fsanitize=address,undefined -fno-sanitize-recover=all' -fsanitize=thread; do
        gcc $flags -O2 $kind -c clients/c/weak_duties.c -o "$scratch/watched.o" || exit 1
        for name in map footprint; do header_test "$name" 1 -O2 $kind; done
        [ -n "$kind" ] || for name in field signed many; do header_test "$name" 3 -O2; done
    done
else
    echo 'the tests in C++ over the weak model left out: there is no g++'
fi

# In Python.
python_test() { # python_test NAME: its tests, with few arrays
    try "test_$1.py" env ARRAYS=20 CLEARMAP="$program" \
        CLEARMAP_LIBRARY="$scratch/libclearmap.so.2" "$arrays" "clients/python/test_$1.py"
}
if [ -n "$arrays" ]; then
    for name in library tiles footprints clearances plans metres signed carried numbers held \
        slopes inflation fields shapes; do
        python_test "$name"
    done
    [ ! -x "$program" ] || for name in maps many; do python_test "$name"; done
else
    echo 'the tests in Python over the weak model left out: there is no python3 with numpy'
fi

# As a model of the library that is built.
if [ -e "$library" ]; then
    gcc $flags -O2 clients/c/compare_with_model.c -ldl -o "$scratch/compare" || exit 1
    if timeout 300 "$scratch/compare" "$library" "$scratch/libclearmap.so.2" "${CALLS:-100000}" \
        > "$scratch/log" 2>&1; then
        tail -n 1 "$scratch/log"
    else
        failed=1
        cat "$scratch/log"
    fi
else
    echo 'the weak model is not compared with the library, which is not built'
fi
exit "$failed"
