# Read by each example at its start: they stop at the first fault, also of a pipe's first command;
# run from any folder; and write to a scratch folder that is removed at the end, where `scratch`
# doesn't name one. `clearmap` is the installed program, or else the one of this repository.
set -euo pipefail
cd "$(dirname "${BASH_SOURCE[0]}")/.."
command -v clearmap > /dev/null || PATH=$PWD:$PATH
server=''
made=''
if [ -z "${scratch-}" ]; then
    scratch=$(mktemp -d)
    made=$scratch
fi
finish() {
    [ -z "$server" ] || kill "$server" 2> /dev/null || true
    [ -z "$made" ] || rm -rf "$made"
}
trap finish EXIT

# start_server MAP FLAG ..: serves a map in the background. Its port comes into `port`, and its
# process into `server`.
start_server() {
    : > "$scratch/served"
    clearmap serve "${@:2}" < "$1" > "$scratch/served" &
    server=$!
    until port=$(sed -n 's/^LISTENING //p' "$scratch/served") && [ -n "$port" ]; do
        kill -0 "$server"
        sleep 0.1
    done
}
