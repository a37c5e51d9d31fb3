#!/bin/sh
# Runs each script of tools/bench once on a small map, so that none stops running unnoticed. Their
# answers are compared, as the scripts do, and nothing is timed: what a script would prove runs
# without a proof. Wants the built program and library; CLEARMAP names another program. What isn't
# installed is skipped, with a message, and a script that isn't named here is a fault.
set -u
cd "$(dirname "$0")/../.." || exit 1
program=${CLEARMAP:-$PWD/crates/clearmap/out/clearmap}
library=crates/libclearmap/out/libclearmap.a
scratch=$(mktemp -d)
trap 'rm -rf "$scratch"' EXIT
trap 'exit 1' INT TERM
export PYTHONDONTWRITEBYTECODE=1
failed=0 named=''

lacking() { # lacking NEED ..: the first of these that isn't there
    for need in "$@"; do
        case $need in
            program) [ -x "$program" ] || { echo "no built program"; return; } ;;
            library) [ -e "$library" ] || { echo "no built library"; return; } ;;
            lib*) "${CXX:-g++}" -l"${need#lib}" -shared -o /dev/null 2> /dev/null \
                || { echo "no $need"; return; } ;;
            python-*) [ -n "$(tools/python_with "$(echo "${need#python-}" | tr - ,)")" ] \
                || { echo "no python3 with $(echo "${need#python-}" | tr - ' ')"; return; } ;;
            *) command -v "$need" > /dev/null || { echo "no $need"; return; } ;;
        esac
    done
}

runs() { # runs SCRIPT NEEDS ARGUMENT ..: runs it; it fails where answers differ
    script=$1 needs=$2
    shift 2
    named="$named $script"
    absent=$(lacking $needs)
    if [ -n "$absent" ]; then
        echo "tools/bench/$script left out: there is $absent"
        return
    fi
    python=python3
    for need in $needs; do
        case $need in python-*) python=$(tools/python_with "$(echo "${need#python-}" | tr - ,)") ;; esac
    done
    if CLEARMAP=$program timeout 600 "$python" "tools/bench/$script" "$@" \
        > "$scratch/log" 2>&1 < "$scratch/map.pbm"; then
        echo "tools/bench/$script: $(wc -l < "$scratch/log") lines"
    else
        failed=1
        echo "tools/bench/$script FAILED:"
        tail -n 20 "$scratch/log"
    fi
}
parts() { # parts SCRIPT ..: these are run or read by others
    named="$named $*"
}

printf 'P4\n8 8\n\001\000\000\020\000\000\100\000' > "$scratch/map.pbm"
parts check.py hard_maps.py program.py twin.py
runs chart.py '' --check

# Over the library.
runs library.py 'library python-numpy-scipy-cv2' --sizes 40 --rounds 1
runs library_queries.py 'library gcc rustc' --side 1000 --rounds 1
runs library_many.py 'library g++ python-numpy-scipy-cv2' --rounds 1
runs footprints.py 'library g++ python-numpy' --rounds 1

# Over programs of their own.
runs queries.py 'rt rustc' --unproved --maps 1 --side 1000 --rounds 1
runs rows.py 'rt python-cv2' --unproved --sizes 40 --rounds 1
runs tiles.py 'rt' --unproved --rounds 1
runs pins.py 'rt rustc g++ liblmdb' --unproved --rounds 1 --seconds 1
runs opencv_rows.py 'python-cv2' "$scratch/map.pbm"
runs scipy_dist.py 'python-scipy'

# Over the program.
runs bench.py 'program python-scipy' --program "$program" --sizes 40 --rounds 1
runs workers.py 'program' --program "$program" --sizes 40 --rounds 1
runs cycles.py 'program rustc' --side 64 --seconds 1 --rounds 1
runs limits.py 'program rustc' --side 320 --requests 1600 --rounds 1
runs serve 'program rustc redis-server' --requests 320 --check 320
runs gateway.py 'program rustc python-numpy' --side 64 --requests 160 --rounds 1 --idle 20
runs fleet.py 'program library redis-server python-numpy-redis' --followers 4 --rounds 1 --sides 320

for script in tools/bench/*.py tools/bench/serve; do
    case " $named " in
        *" ${script##*/} "*) ;;
        *) failed=1; echo "$script isn't run: name it here" ;;
    esac
done
exit "$failed"
