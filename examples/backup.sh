#!/usr/bin/env bash
# Back a served map up, and serve the backup. The server keeps its state only in memory, so this is
# how a map outlives it.
. "$(dirname "$0")/setup.bash"

start_server examples/room.pbm --connections 2
printf 'PAINT 2 2 5 5\nPUBLISH\nQUIT\n' | clearmap ask --port "$port"

# The replies are OK 0 (the version), OK and a number of bytes, the image, and BYE. A short backup
# is worse than none: its bytes are counted.
printf 'PIN\nDUMP\nQUIT\n' | clearmap ask --port "$port" > "$scratch/replies"
read -r ok bytes < <(sed -n 2p "$scratch/replies")
[ "$ok" = OK ]
sed '1,2d;$d' "$scratch/replies" > "$scratch/backup.new"
[ "$(wc -c < "$scratch/backup.new")" = "$bytes" ]
mv "$scratch/backup.new" "$scratch/backup.pbm"
wait "$server"

# Versions and places start at 0 again.
start_server "$scratch/backup.pbm" --connections 1
printf 'PIN\nAT euclid2 5 5\nRECT euclid2 2 2 5 5\nQUIT\n' | clearmap ask --port "$port"
wait "$server"
