#!/usr/bin/env bash
# One server, two planners and a painter. A planner's version stays as it is while the painter goes
# on.
. "$(dirname "$0")/setup.bash"

start_server examples/room.pbm --connections 3

# The first planner keeps its connection; each line is answered before the next is sent.
coproc first { clearmap ask --port "$port"; }
ask_first() {
    echo "$1" >&"${first[1]}"
    read -r reply <&"${first[0]}"
    echo "first planner: $1: $reply"
}
ask_first 'PIN'
ask_first 'AT chess 6 4'

# The painter puts a box next to that cell, and publishes it.
printf 'PAINT 7 4 9 6\nPUBLISH\nQUIT\n' | clearmap ask --port "$port" | sed 's/^/painter: /'

# The second planner pins the new version; the first one still has its own, until it pins again.
printf 'PIN\nAT chess 6 4\nQUIT\n' | clearmap ask --port "$port" | sed 's/^/second planner: /'
ask_first 'AT chess 6 4'
ask_first 'UNPIN'
ask_first 'PIN'
ask_first 'AT chess 6 4'
ask_first 'QUIT'

# Three connections were served, and two commands were accepted.
wait "$server"
sed 1d "$scratch/served"
