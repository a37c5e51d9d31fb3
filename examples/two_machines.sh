#!/usr/bin/env bash
# A robot's server and a desk that share no network: a link of socat leads to the server's loopback,
# is lost and comes back, and another server takes over.
# Needs socat: socat ip unshare nsenter pkill
. "$(dirname "$0")/setup.bash"

# The robot is a network of its own, with a loopback of its own, where the system lets us make one;
# else it is another port of this machine.
apart=()
inside=()
if unshare -rn true 2> /dev/null; then apart=(unshare -rn); fi
"${apart[@]}" bash -c 'ip link set lo up 2> /dev/null; exec clearmap serve --connections 100 < "$1" > "$2"' robot examples/room.pbm "$scratch/served" &
server=$!
until port=$(sed -n 's/^LISTENING //p' "$scratch/served" 2> /dev/null) && [ -n "$port" ]; do
    kill -0 "$server"
    sleep 0.1
done
if [ "${#apart[@]}" != 0 ]; then inside=(nsenter --target "$server" --user --net --preserve-credentials); fi

# The link: on the robot from a file to the server's port, and on the desk from a port to that file.
# ssh -L does the same over a network.
"${inside[@]}" socat "UNIX-LISTEN:$scratch/link,fork" "TCP:127.0.0.1:$port" 2> /dev/null &
robots_end=$!
until [ -S "$scratch/link" ]; do sleep 0.1; done
: > "$scratch/link.log"
socat -d -d TCP-LISTEN:0,bind=127.0.0.1,fork "UNIX-CONNECT:$scratch/link" 2> "$scratch/link.log" &
desks_end=$!
trap 'kill "$robots_end" "$desks_end" 2> /dev/null || true; finish' EXIT
until near=$(sed -n 's/.*listening on AF=2 127.0.0.1:\([0-9]*\)$/\1/p' "$scratch/link.log") && [ -n "$near" ]; do sleep 0.1; done
ask_robot() { "${inside[@]}" clearmap ask --port "$port" | sed 's/^/robot: /'; }
ask_desk() { clearmap ask --port "$near" | sed 's/^/desk: /'; }

# The desk pins a version through the link, and keeps its connection while the robot publishes
# another.
coproc planner { clearmap ask --port "$near"; }
told() {
    read -r reply <&"$1" || reply='nothing'
    echo "planner: $reply"
}
exec {answers}<&"${planner[0]}" {lines}>&"${planner[1]}"
printf 'PIN\nAT chess 6 4\n' >&"$lines"
told "$answers"
told "$answers"
printf 'PAINT 7 4 9 6\nPUBLISH\nCOLLECT\nQUIT\n' | ask_robot

# The link is lost, with all that goes through it. The server leaves the pin at once, and so nothing
# holds version 0 any more.
pkill -P "$desks_end"
echo 'AT chess 6 4' >&"$lines" || true
told "$answers"
sleep 1
printf 'COLLECT\nQUIT\n' | ask_robot

# Through the link again: whoever comes back pins again, and gets the newest version.
printf 'PIN\nAT chess 6 4\nQUIT\n' | ask_desk

# The desk takes the map over: its dump becomes another server's opening map, as version 0. Asked in
# between, the lost server is a fault; a line on standard error, left out here, names the port.
printf 'PIN\nDUMP\nQUIT\n' | clearmap ask --port "$near" | sed '1,2d;$d' > "$scratch/taken.pbm"
kill "$server"
printf 'PIN\nQUIT\n' | ask_desk 2> /dev/null || true
start_server "$scratch/taken.pbm" --connections 1
printf 'PIN\nAT chess 6 4\nQUIT\n' | clearmap ask --port "$port" | sed 's/^/other server: /'
wait "$server"
