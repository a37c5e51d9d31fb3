#!/usr/bin/env bash
# A log with capacity for two entries: a checkpoint drops those in it, and changes go on. Places go
# on counting.
. "$(dirname "$0")/setup.bash"

printf 'P1 64 64 ' > "$scratch/blank.pbm"
head -c 4096 /dev/zero | tr '\0' 0 >> "$scratch/blank.pbm"
start_server "$scratch/blank.pbm" --connections 2 --blocks 2 --versions 2 --log 2

ask() {
    printf '%s\n' "$@" QUIT | clearmap ask --port "$port" 2> /dev/null | sed '$d' | paste -d: <(printf '%s\n' "$@") - | sed 's/:/: /'
}
ask 'PAINT 0 0 1 1' 'PUBLISH' 'COLLECT' 'CHECKPOINT' 'COLLECT' 'PAINT 1 0 2 1' 'PUBLISH' 'CHECKPOINT' 'PUBLISH'

# A pin keeps its version past a checkpoint.
ask 'PIN' 'AT city 3 4' 'CHECKPOINT' 'AT city 3 4'

# The last place counts every entry, dropped ones included.
wait "$server"
sed 1d "$scratch/served"
