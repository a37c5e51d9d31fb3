#!/usr/bin/env bash
# Many queries of one map: the image is read once by a server, and `ask` sends it a file of lines.
. "$(dirname "$0")/setup.bash"

{
    echo PIN
    for y in $(seq 1 12); do for x in $(seq 1 28); do echo "AT chess $x $y"; done; done
    echo QUIT
} > "$scratch/lines"
start_server examples/room.pbm --connections 1
clearmap ask --port "$port" < "$scratch/lines" > "$scratch/replies"
wait "$server"

# One reply per line, in order.
[ "$(wc -l < "$scratch/replies")" = "$(wc -l < "$scratch/lines")" ]
[ "$(grep -c -v '^OK ' "$scratch/replies")" = 1 ]
paste -d: "$scratch/lines" "$scratch/replies" | sed -n '100,103p'
echo "roomiest: $(sed 1d "$scratch/replies" | sort -k 2,2nr | awk 'NR == 1 { print $2 }') cells"
