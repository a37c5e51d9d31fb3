#!/bin/bash
# The largest map through the built program (or that of CLEARMAP): what `dist` answers by one worker
# and by several, read from a file and from a pipe, and how many threads it has meanwhile. Each run
# has a time limit.
set -u
cd "$(dirname "$0")/../.." || exit 1
program=$(realpath "${CLEARMAP:-crates/clearmap/out/clearmap}")
"$program" --version > /dev/null || exit 1
clearmap() { timeout 120 "$program" "$@"; }
room=$(mktemp -d)
trap 'rm -rf "$room"' EXIT
trap 'exit 1' INT TERM
tried=0
wrong=0

expect() { # expect WHAT GOT WANTED
    tried=$((tried + 1))
    [ "$2" = "$3" ] && return
    wrong=$((wrong + 1))
    echo "$1: '$2' where '$3' was wanted"
}

# 4096 by 4096 cells, of which the first and one in the last row are obstacles, raw and plain.
{
    printf 'P4\n4096 4096\n\200'
    head -c $((4095 * 512 - 1 + 256)) /dev/zero
    printf '\200'
    head -c 255 /dev/zero
} > "$room/raw"
python3 - "$room/raw" > "$room/plain" << 'PYTHON'
import sys
raster = open(sys.argv[1], "rb").read()[13:]
rows = (format(int.from_bytes(raster[512 * y : 512 * y + 512], "big"), "04096b") for y in range(4096))
sys.stdout.write("P1 4096 4096\n" + "\n".join(rows) + "\n")
PYTHON

# The table by an independent rule: for each cell the lesser of its distances to the two obstacles.
python3 - > "$room/wanted" << 'PYTHON'
import sys
squares = [n * n for n in range(4097)]
lines = []
for y in range(4096):
    up, down = squares[y], squares[4095 - y]
    lines.append(" ".join(str(min(squares[x] + up, squares[abs(x - 2048)] + down)) for x in range(4096)))
    if len(lines) == 256:
        sys.stdout.write("\n".join(lines) + "\n")
        lines = []
PYTHON

# Runs `dist` with these words on the raw map, and tells the most threads that it was seen with: in
# ten runs at most, until these or more were seen, since on a busy machine a run may be over before
# a look finds all of them. The system still lists a thread that has ended and was waited for; its
# flags tell it.
threads() { # threads WANTED WORD..
    timeout 120 python3 - "$program" "$room/raw" "$@" << 'PYTHON'
import os
import subprocess
import sys
program, source, wanted, *words = sys.argv[1:]
EXITING = 4


def at_work(tasks, task):
    with open(f"{tasks}/{task}/stat") as told:
        return not int(told.read().rpartition(")")[2].split()[6]) & EXITING


def count(tasks):
    counted = 0
    for task in os.listdir(tasks):
        try:
            counted += at_work(tasks, task)
        except (FileNotFoundError, ProcessLookupError):
            pass
    return counted


most = 1
for _ in range(10):
    run = subprocess.Popen([program, "dist", *words], stdin=open(source, "rb"), stdout=subprocess.DEVNULL)
    while run.poll() is None:
        most = max(most, count(f"/proc/{run.pid}/task"))
    if most >= int(wanted):
        break
print(most)
PYTHON
}

for workers in 1 3 16; do
    clearmap dist --workers "$workers" < "$room/raw" | cmp -s - "$room/wanted"; expect "dist of the largest map by $workers workers" "${PIPESTATUS[*]}" '0 0'
done

# The maps of `0 1 4` and of `0/0/0 1/0/0 2/0/0 1/4/0 0/4/0` as the first rows of maps of 2^22
# cells, which several threads share: one obstacle in the corner, and another four columns from it.
python3 - "$room" << 'PYTHON'
import sys
room, side = sys.argv[1], 2048
measures = {
    "euclid2": lambda columns, rows: columns * columns + rows * rows,
    "city": lambda columns, rows: columns + rows,
    "chess": max,
}


def write_map(name, columns):
    first = bytearray(side // 8)
    for column in columns:
        first[column // 8] |= 128 >> column % 8
    with open(f"{room}/{name}", "wb") as image:
        image.write(b"P4\n%d %d\n" % (side, side) + first + bytes(side // 8 * (side - 1)))


def write_table(name, cell):
    with open(f"{room}/{name}", "w") as table:
        for y in range(side):
            table.write(" ".join(cell(x, y) for x in range(side)) + "\n")


def nearest(x, y):
    distance, column = min((abs(x - column) + y, column) for column in (0, 4))
    return f"{distance}/{column}/0"


write_map("one", [0])
write_map("two", [0, 4])
for metric, measure in measures.items():
    write_table(f"one.{metric}", lambda x, y: str(measure(x, y)))
write_table("two.city", nearest)
PYTHON
for workers in 1 2 16; do
    for metric in euclid2 city chess; do
        clearmap dist --metric "$metric" --workers "$workers" < "$room/one" \
            | cmp -s - "$room/one.$metric"
        expect "dist of one obstacle by $metric and $workers workers" "${PIPESTATUS[*]}" '0 0'
    done
    clearmap dist --metric city --nearest --workers "$workers" < "$room/two" \
        | cmp -s - "$room/two.city"
    expect "the nearest of two obstacles by city and $workers workers" "${PIPESTATUS[*]}" '0 0'
done
expect 'the first cells' "$(head -n 2 "$room/one.euclid2" | cut -d ' ' -f 1-3)" \
    "$(printf '0 1 4\n1 2 5')"
expect 'the first places' "$(head -n 1 "$room/two.city" | cut -d ' ' -f 1-5)" \
    '0/0/0 1/0/0 2/0/0 1/4/0 0/4/0'
cat "$room/plain" | clearmap dist | cmp -s - "$room/wanted"; expect 'dist of the largest map, plain, through pipes' "${PIPESTATUS[*]}" '0 0 0'
expect 'the last cell' "$(clearmap dist --query 'AT euclid2 4095 0' < "$room/plain")" 'OK 16769025 0 0'
expect 'the longest walk' "$(clearmap dist --query "PATH chess$(printf ' 4095 0 4095 4095%.0s' $(seq 500))" < "$room/raw")" 'OK 2047 4095 2048 2048 4095'
expect 'threads of dist by one worker' "$(threads 1 --workers 1)" 1
expect 'threads of dist by four workers, while one more writes' "$(threads 5 --workers 4)" 5

# How many instructions a server takes to answer this many queries of one pin, each near an
# obstacle.
instructions() { # instructions COUNT
    timeout 300 python3 - "$program" "$room/raw" "$1" << 'PYTHON'
import re
import socket
import subprocess
import sys
program, source, count = sys.argv[1], sys.argv[2], int(sys.argv[3])
valgrind = ["valgrind", "--tool=callgrind", "--callgrind-out-file=/dev/null"]
pipes = {"stdout": subprocess.PIPE, "stderr": subprocess.PIPE, "text": True}
with open(source, "rb") as image:
    server = subprocess.Popen([*valgrind, program, "serve", "--connections", "1"], stdin=image, **pipes)
port = int(server.stdout.readline().split()[1])
with socket.create_connection(("127.0.0.1", port), 60) as client:
    client.sendall(b"PIN\n" + b"AT euclid2 5 5\n" * count + b"QUIT\n")
    replies = client.makefile("rb").read()
_, told = server.communicate(timeout=200)
if replies != b"OK 0\n" + b"OK 50 0 0\n" * count + b"BYE\n":
    sys.exit("other replies were wanted")
print(re.search(r"Collected : (\d+)", told)[1])
PYTHON
}

# A version is read once at most, and not at each query: that would be over a million instructions.
if command -v valgrind > /dev/null; then
    few=$(instructions 200) && many=$(instructions 700)
    expect 'counts of instructions, by their status' "$?" 0
    expect 'more queries take more instructions' "$((${many:-0} > ${few:-0}))" 1
    expect 'instructions of a query, in hundred thousands' \
        "$(((${many:-0} - ${few:-0}) / 500 / 100000))" 0
else
    echo 'valgrind is not installed: what a query reads is left out'
fi
echo "tried $tried, wrong $wrong"
[ "$wrong" = 0 ]
