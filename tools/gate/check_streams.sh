#!/bin/bash
# Tries the built program (or that of CLEARMAP) on standard streams that are closed, full or fail,
# on its command line, and on the ends that a server and `ask` can come to. Loopback only. Prints
# what differs, and counts; each run has a time limit.
set -u
cd "$(dirname "$0")/../.." || exit 1
program=$(realpath "${CLEARMAP:-crates/clearmap/out/clearmap}")
"$program" --version > /dev/null || exit 1
room=$(mktemp -d)
trap 'kill $(jobs -p) 2> /dev/null; rm -rf "$room"' EXIT # each job is one process: a server reads its map from a file
trap 'exit 1' INT TERM
tried=0
wrong=0

expect() { # expect WHAT STATUS WANTED_STATUS TEXT WANTED_TEXT
    tried=$((tried + 1))
    [ "$2" = "$3" ] && [ "$4" = "$5" ] && return
    wrong=$((wrong + 1))
    echo "$1: status $2 where $3 was wanted, text '$4' where '$5' was wanted"
}

clearmap() { timeout 20 "$program" "$@"; }

image() { printf 'P1\n3 2\n100\n000\n'; }
image > "$room/map"

# Closes each descriptor but the three standard streams: those that this script was started with
# would count among the few of a server.
no_others() {
    local open
    for open in /proc/self/fd/*; do
        open=${open##*/}
        [ "$open" -le 2 ] || eval "exec $open>&-"
    done
}

# A server of the worked map with these flags, with at most that many descriptors if `descriptors`
# is set: its port comes into `port`, its process into `server`, and what it prints into the file
# `said`.
serve() {
    : > "$room/said"
    (no_others && ulimit -n "${descriptors:-$(ulimit -n)}" && exec timeout 60 "$program" serve "$@") < "$room/map" > "$room/said" &
    server=$!
    for _ in $(seq 400); do
        port=$(sed -n 's/^LISTENING //p' "$room/said")
        [ -z "$port" ] || return 0
        kill -0 "$server" 2> /dev/null || break
        sleep 0.05
    done
    echo "no server listens with the flags $*"
    return 1
}

# What the server has said, once it has ended, without the line that has the port.
ended() {
    wait "$server"
    status=$?
    text=$(sed 1d "$room/said")
}

# A port on which nothing listened a moment ago.
free_port() {
    timeout 20 python3 -c 'import socket; s = socket.socket(); s.bind(("127.0.0.1", 0)); print(s.getsockname()[1])'
}

# `ask` with a port that is taken, and on which nobody listens.
ask_nobody() {
    timeout 20 python3 -c 'import socket, subprocess, sys; s = socket.socket(); s.bind(("127.0.0.1", 0)); sys.exit(subprocess.run([sys.argv[1], "ask", "--port", str(s.getsockname()[1])]).returncode)' "$program"
}

check_dist() {
    text=$(image | clearmap dist); expect 'a good run' $? 0 "$text" "$(printf '0 1 4\n1 2 5')"
    text=$(printf 'P1\n1 1\n11' | clearmap dist); expect 'a refused image' $? 1 "$text" 'ERR 15 BadImage JunkNotSpaced'
    text=$(clearmap dist < /dev/null); expect 'an empty input' $? 1 "$text" 'ERR 15 BadImage Truncated'
    image | clearmap dist > /dev/full; expect 'a full disk' $? 1 '' ''
    image | clearmap dist >&-; expect 'a closed standard output' $? 1 '' ''
    printf 'P1\n1 1\n11' | clearmap dist > /dev/full; expect 'a refusal on a full disk' $? 1 '' ''
    text=$(clearmap dist <&-); expect 'a closed standard input' $? 1 "$text" ''
    clearmap dist <&- >&- 2>&-; expect 'all streams closed' $? 1 '' ''
    text=$(clearmap dist < .); expect 'a folder as standard input' $? 1 "$text" ''
    text=$(cd / && image | clearmap dist | head -n 1); expect 'another folder' $? 0 "$text" '0 1 4'

    # What follows a raw image is kept, so it has to fit into memory; then it is ignored.
    text=$({ printf 'P4\n1 1\n\200'; cat /dev/zero; } | (ulimit -v 200000 && clearmap dist)); expect 'endless bytes after a raw image' $? 1 "$text" 'ERR 5 Memory'
    text=$({ printf 'P4\n1 1\n\200'; head -c 400000000 /dev/zero; } | (ulimit -v 200000 && clearmap dist)); expect 'too many bytes after a raw image' $? 1 "$text" 'ERR 5 Memory'
    text=$({ printf 'P1\n1 1\n1'; head -c 400000000 /dev/zero | tr '\0' '\n'; } | (ulimit -v 200000 && clearmap dist)); expect 'as many blank ones after a plain image' $? 0 "$text" 0
    text=$({ printf 'P4\n1 1\n\200'; head -c 100000 /dev/zero; } | (ulimit -v 200000 && clearmap dist)); expect 'some bytes after a raw image' $? 0 "$text" '0'
}

# If there is no memory for an image, one whole line says so.
check_memory() {
    (printf 'P4\n4096 4096\n'; head -c $((512 * 4096)) /dev/zero) > "$room/blank"
    (ulimit -v 40000 && clearmap dist) < "$room/blank" > "$room/said"
    expect 'dist with little memory' $? 1 "$(od -An -c "$room/said" | tr -d ' ')" 'ERR5Memory\n'
    (ulimit -v 40000 && clearmap dist --workers 2) < "$room/blank" > "$room/said"
    expect 'workers with little memory' $? 1 "$(od -An -c "$room/said" | tr -d ' ')" 'ERR5Memory\n'
    (ulimit -v 12000 && clearmap serve --connections 1) < "$room/blank" > "$room/said"
    expect 'serve with little memory' $? 1 "$(od -An -c "$room/said" | tr -d ' ')" 'ERR5Memory\n'
}

check_steps() {
    events='OPEN 64 64 3 2 1 10\nL 0\n'
    text=$(printf "$events" | clearmap steps); expect 'good steps' $? 0 "$text" "$(printf 'OPENED 1\nNOW 0 0')"
    text=$(clearmap steps < /dev/null); expect 'steps of an empty input' $? 1 "$text" 'ERR 12 BadArguments'
    printf "$events" | clearmap steps > /dev/full; expect 'steps on a full disk' $? 1 '' ''
    printf "$events" | clearmap steps >&-; expect 'steps with a closed standard output' $? 1 '' ''
    text=$(clearmap steps <&-); expect 'steps with a closed standard input' $? 1 "$text" ''
}

check_words() {
    for command in '' dist steps serve ask; do
        clearmap $command --help > /dev/null; expect "help of '$command'" $? 0 '' ''
        clearmap $command --help > /dev/full; expect "help of '$command' on a full disk" $? 1 '' ''
    done
    text=$(clearmap --version); expect 'the version' $? 0 "$text" 'clearmap 0.4.0'
    text=$(clearmap --version <&-); expect 'the version with a closed standard input' $? 0 "$text" 'clearmap 0.4.0'
    clearmap --help >&-; expect 'help with a closed standard output' $? 1 '' ''
    clearmap dist --metric no 2> /dev/null >&-; expect 'a mistake with a closed standard output' $? 2 '' ''
    text=$(clearmap 2> /dev/null); expect 'no command' $? 2 "$text" ''
    clearmap dist --metric no 2>&-; expect 'a mistake that nobody reads' $? 1 '' ''
    for words in 'dist map.pbm' 'steps events.txt' 'dist --workers 17' 'serve' 'serve --connections 0' 'serve --connections 1 --port 65536' 'ask' 'ask --port 0' 'ask --port 1 2'; do
        text=$(clearmap $words 2> /dev/null < /dev/null); expect "the words '$words'" $? 2 "$text" ''
    done
}

check_serve() {
    text=$(printf 'P1\n2 2\n1' | clearmap serve --connections 1); expect 'serve of a bad image' $? 1 "$text" 'ERR 15 BadImage Truncated'
    text=$(clearmap serve --connections 1 <&-); expect 'serve with a closed standard input' $? 1 "$text" ''
    text=$(clearmap serve --connections 1 < .); expect 'serve of a folder' $? 1 "$text" ''
    image | clearmap serve --connections 1 >&-; expect 'serve with a closed standard output' $? 1 '' ''
    image | clearmap serve --connections 1 > /dev/full; expect 'serve on a full disk' $? 1 '' ''
    text=$(image | clearmap serve --connections 1 --blocks 0); expect 'serve with a bad setting' $? 1 "$text" 'ERR 16 BadSetting Blocks'
    serve --connections 1
    text=$(printf 'P1\n2 2\n1' | clearmap serve --connections 1 --port "$port"); expect 'a bad image, and a port in use' $? 1 "$text" 'ERR 15 BadImage Truncated'
    text=$(image | clearmap serve --connections 1 --port "$port"); expect 'a port in use' $? 1 "$text" 'FAULT net'
    timeout 20 python3 -c "import socket; socket.create_connection(('127.0.0.2', $port), 5)" 2> /dev/null; expect 'another address of this machine' $? 1 '' ''
    text=$(printf 'QUIT\n' | clearmap ask --port "$port"); expect 'the one connection' $? 0 "$text" 'BYE'
    ended; expect 'a server that has served one' "$status" 0 "$text" 'SERVED 1 0'
    for _ in 1 2 3; do # another program may take it meanwhile
        wanted=$(free_port)
        serve --connections 1 --port "$wanted" && break
    done
    expect 'a port that was asked for' 0 0 "$port" "$wanted"
    clearmap ask --port "$port" < /dev/null; expect 'a client without a line' $? 0 '' ''
    ended; expect 'a server of a client without a line' "$status" 0 "$text" 'SERVED 1 0'
}

check_ask() {
    text=$(printf 'PIN\n' | ask_nobody); expect 'no server' $? 1 "$text" 'FAULT net'
    serve --connections 6
    text=$(clearmap ask --port "$port" <&-); expect 'ask with a closed standard input' $? 1 "$text" ''
    printf 'PAINT 0 0 1 1\n' | clearmap ask --port "$port" >&-; expect 'ask with a closed standard output' $? 1 '' ''
    printf 'PIN\nPIN\n' | clearmap ask --port "$port" > /dev/full; expect 'ask on a full disk' $? 1 '' ''
    text=$(clearmap ask --port "$port" < .); expect 'a folder as lines' $? 1 "$text" ''
    text=$(printf 'PIN\r\nDUMP\r\nSTAMP 0 0 9\r\nP1 1 1 1\nQUIT\r\n' | clearmap ask --port "$port"); expect 'lines that end with CR' $? 0 "$text" "$(printf 'OK 0\nOK 15\nP1\n3 2\n100\n000\nOK 1 0\nBYE')"
    text=$({ printf 'STAMP 0 0 4000008\nP1\n1 1\n1'; head -c 4000000 /dev/zero | tr '\0' '\n'; printf 'QUIT\n'; } | clearmap ask --port "$port"); expect 'a stamp of four million bytes' $? 0 "$text" "$(printf 'OK 2 0\nBYE')"
    text=$(printf 'REVERT\nQUIT\nPUBLISH\n' | clearmap ask --port "$port"); expect 'lines after QUIT' $? 0 "$text" "$(printf 'OK 3\nBYE')"
    text=$(printf 'PIN' | clearmap ask --port "$port"); expect 'a line without its end' $? 0 "$text" ''
    ended; expect 'a server of six clients, to which two others sent nothing' "$status" 0 "$text" 'SERVED 6 3'
}

# What standard error says of a run whose standard output is this: one line with these words, or no
# line if there are none.
hint() { # hint WHAT STATUS OUTPUT WORDS WORD_OF_THE_RUN ..
    what=$1 status=$2 answer=$3 words=$4
    shift 4
    text=$(timeout 20 "$program" "$@" 2> "$room/errors"); expect "$what" $? "$status" "$text" "$answer"
    lines=$(wc -l < "$room/errors")
    told=$(grep -c "^clearmap: .*$words" "$room/errors")
    [ -n "$words" ] && wanted='1 of 1' || wanted='0 of 0'
    expect "what standard error says of $what" 0 0 "$told of $lines" "$wanted"
}

# A person's mistake gets one more line, on standard error.
check_hints() {
    printf '\211PNG\r\n\032\n' > "$room/png"
    printf 'P5\n1 1\n255\n\0' > "$room/pgm"
    hint 'a PNG' 1 'ERR 15 BadImage BadMagic' 'clearmap-ros pbm' dist < "$room/png"
    hint 'a PGM and a query' 1 'ERR 15 BadImage BadMagic' 'pgmtopbm' dist --query 'AT city 0 0' < "$room/pgm"
    hint 'a PGM to serve' 1 'ERR 15 BadImage BadMagic' 'P1 or P4' serve --connections 1 < "$room/pgm"
    hint 'a query without a metric' 1 'ERR 12 BadArguments' 'AT METRIC X Y' dist --query 'AT 1 1' < "$room/map"
    hint 'a command that is no query' 1 'ERR 11 UnknownCommand' 'AT METRIC X Y' dist --query PIN < "$room/map"
    hint 'a cell off the map' 1 'ERR 1 OutOfRange' '' dist --query 'AT city 3 0' < "$room/map"
    hint 'an empty input' 1 'ERR 15 BadImage Truncated' '' dist < /dev/null
    hint 'a good table' 0 "$(printf '0 1 4\n1 2 5')" '' dist < "$room/map"
    serve --connections 2
    hint 'a taken port' 1 'FAULT net' "can't listen on port $port" serve --connections 1 --port "$port" < "$room/map"
    hint 'an answer' 0 BYE '' ask --port "$port" << 'LINES'
QUIT
LINES
    hint 'a refused command' 0 "$(printf 'OK 0\nERR 9 Crooked 1\nBYE')" 'command 2, PATH city 0 0 1 1: ERR 9 Crooked 1$' ask --port "$port" << 'LINES'
PIN
PATH city 0 0 1 1
QUIT
LINES
    ended; expect 'a server of two clients' "$status" 0 "$text" 'SERVED 2 0'
    hint 'a server that has ended' 1 'FAULT net' "no server answers on port $port" ask --port "$port" < /dev/null
    if command -v script > /dev/null; then
        { sleep 1; printf 'P1 1 1 1\n\004'; sleep 1; } | timeout 20 script -qec "'$program' dist" /dev/null > "$room/said"
        told=$(grep -c 'waiting for a PBM image .*clearmap dist < map.pbm' "$room/said")
        expect 'dist on a terminal' 0 0 "$told" 1
    else
        echo 'dist on a terminal left out: there is no script'
    fi
}

# With no descriptor left nothing can be accepted: such a connection counts, and the server waits
# before it tries again, twice as long each time, so that eight of twenty fit in two seconds. It has
# four for itself.
check_descriptors() {
    descriptors=4
    serve --connections 20; expect 'a server that may have no connection' $? 0 '' ''
    timeout 20 python3 -c "import socket, time; held = socket.create_connection(('127.0.0.1', $port), 5); time.sleep(2)"; expect 'a connection that waits' $? 0 '' ''
    kill -0 "$server" 2> /dev/null; expect 'a server that goes on' $? 0 "$(sed 1d "$room/said")" ''
    kill "$server" 2> /dev/null
    wait "$server" 2> /dev/null
    serve --connections 3; expect 'a server for three connections' $? 0 '' ''
    timeout 20 python3 -c "import socket; held = socket.create_connection(('127.0.0.1', $port), 5); held.settimeout(15); held.recv(1)" 2> /dev/null
    ended; expect 'connections that were never accepted' "$status" 0 "$text" 'SERVED 3 0'
    descriptors=5
    serve --connections 1000; expect 'a server that may have one connection' $? 0 '' ''
    text=$(timeout 30 python3 - "$port" << 'PYTHON'
import socket
import sys
first, second = (socket.create_connection(("127.0.0.1", int(sys.argv[1])), 10) for _ in range(2))
first.sendall(b"PIN\n")
print(first.recv(99))
second.sendall(b"PIN\n")
second.settimeout(0.5)
try:
    print(second.recv(99))
except socket.timeout:
    print("waits")
first.sendall(b"QUIT\n")
print(first.recv(99))
first.close()
second.settimeout(10)
print(second.recv(99))
PYTHON
    ); expect 'one descriptor for two clients' $? 0 "$text" "$(printf '%s\n' "b'OK 0\\n'" waits "b'BYE\\n'" "b'OK 0\\n'")"
    kill "$server" 2> /dev/null
    wait "$server" 2> /dev/null
    descriptors=''
}

check_dist
check_memory
check_steps
check_words
check_serve
check_ask
check_hints
check_descriptors
echo "tried $tried, wrong $wrong"
[ "$wrong" = 0 ]
