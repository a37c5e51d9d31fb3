#!/bin/bash
# Runs the built program (or that of CLEARMAP) under valgrind, which finds what is never freed: the
# arena, the shared words and the log of a server among it, as no contract does. Loopback only.
# Skipped, with a message, without valgrind.
set -u
cd "$(dirname "$0")/../.." || exit 1
program=$(realpath "${CLEARMAP:-crates/clearmap/out/clearmap}")
"$program" --version > /dev/null || exit 1
if ! command -v valgrind > /dev/null; then
    echo 'check_leaks.sh left out, nothing was tried: there is no valgrind'
    exit 0
fi
room=$(mktemp -d)
trap 'kill $(jobs -p) 2> /dev/null; rm -rf "$room"' EXIT # the one job is one process: the server reads its map from a file
trap 'exit 1' INT TERM
tried=0
wrong=0

watch() { # watch LOG WORD..: becomes the program with these words, watched
    local log=$1
    shift
    exec timeout 120 valgrind --quiet --max-stackframe=8000000 --leak-check=full --show-leak-kinds=all --errors-for-leak-kinds=all --error-exitcode=99 --log-file="$room/$log" "$program" "$@"
}

watched() { (watch "$@"); }

judge() { # judge WHAT STATUS WANTED LOG: the status, and that valgrind had nothing to say
    tried=$((tried + 1))
    [ "$2" = "$3" ] && [ ! -s "$room/$4" ] && return
    wrong=$((wrong + 1))
    echo "$1: status $2 where $3 was wanted"
    head -n 20 "$room/$4"
}

image() { printf 'P1\n130 70\n'; for _ in $(seq 70); do printf '%0130d\n' 1; done; }
image > "$room/map"

image | watched dist dist --nearest > /dev/null; judge 'dist' $? 0 dist
image | watched workers dist --workers 4 > /dev/null; judge 'dist by four workers' $? 0 workers
image | watched query dist --query 'PATH city 0 0 129 0' > /dev/null; judge 'a query' $? 0 query
printf 'P1\n2 2\n1' | watched refused dist > /dev/null; judge 'a refused image' $? 1 refused
printf 'OPEN 130 70 20 3 2 10\nC PAINT 0 0 70 1\nK 1\nC PUBLISH\nK 200\nC COLLECT\nA 0\nL 0\nE 0\nK 1\n' | watched steps steps > /dev/null; judge 'steps' $? 0 steps
image | watched setting serve --connections 1 --blocks 1 > /dev/null; judge 'a refused setting' $? 1 setting
image | watched full serve --connections 1 > /dev/full; judge 'a server that can tell no port' $? 1 full

# A server whose store has one of each kind to be freed: own tiles, retired ones, old versions, a
# log with a stamp, and a pin that is never left.
(watch serve serve --connections 3 --versions 3) < "$room/map" > "$room/said" &
server=$!
for _ in $(seq 600); do
    port=$(sed -n 's/^LISTENING //p' "$room/said")
    [ -z "$port" ] && kill -0 "$server" 2> /dev/null || break
    sleep 0.1
done
image | watched taken serve --connections 1 --port "$port" > /dev/null; judge 'a port in use' $? 1 taken
printf 'PAINT 0 0 130 70\nPUBLISH\nPIN\nAT city 3 4\nUNPIN\nPIN\nAT city 3 4\nUNPIN\nPIN\nDUMP\nCLEAR 0 0 65 1\nSTAMP 0 0 11\nP1\n2 2\n1001PUBLISH\nCOLLECT\nPAINT 3 3 4 4\n' | watched ask ask --port "$port" > /dev/null
judge 'a client that quits with a pin' $? 0 ask
printf 'PAINT 5 5 9 9\nREVERT\nCHECKPOINT\nPAINT 0 0 70 65\nPUBLISH\nQUIT\n' | timeout 60 "$program" ask --port "$port" > /dev/null
printf 'STAMP 0 0 900\nP1' | timeout 60 "$program" ask --port "$port" > /dev/null
wait "$server"; judge 'a server' $? 0 serve
echo "tried $tried, wrong $wrong"
[ "$wrong" = 0 ]
