#!/bin/sh
# Installs what is built into a scratch folder, and tries it there: the program, the pages of the
# manual, completion, the unit, the clients, the scripts, and the wrapper ./clearmap through a
# symbolic link and without rt. Skips, with a message, what isn't installed here. Whatever may wait
# has a time limit.
set -u
cd "$(dirname "$0")/../.." || exit 1
top=$PWD
program=$top/crates/clearmap/out/clearmap
"$program" --version > /dev/null || exit 1
scratch=$(mktemp -d)
server=''
view=''
gateway=''
store=''
publisher=''
finish() {
    for started in $server $view $gateway $store $publisher; do kill "$started" 2> /dev/null; done
    rm -rf "$scratch"
}
trap finish EXIT
trap 'exit 1' INT TERM
export PYTHONDONTWRITEBYTECODE=1
wrong=0

# The word after this one in the first line of a file, once the process that writes it has said it.
told() { # told PROCESS FILE WORD
    for _ in $(seq 300); do
        said=$(sed -n "s/^$3 //p" "$2")
        [ -z "$said" ] && kill -0 "$1" 2> /dev/null || break
        sleep 0.1
    done
    echo "$said"
}

expect() { # expect WHAT GOT WANTED
    [ "$2" = "$3" ] && return
    wrong=$((wrong + 1))
    echo "$1: '$2' where '$3' was wanted"
}

room='P1\n3 2\n100\n000\n'
version=$("$program" --version)

# The wrapper, with a path that has no rt on it; where sources are newer than the program it says so
# and runs it.
ln -s "$top/clearmap" "$scratch/linked"
for tool in sh dirname readlink find mktemp rm cat touch; do ln -s "$(command -v "$tool")" "$scratch/$tool"; done
expect 'through a link, without rt' "$(printf "$room" | PATH=$scratch "$scratch/linked" dist 2> /dev/null)" "$(printf '0 1 4\n1 2 5')"
(cd "$scratch" && ln -s linked twice && printf "$room" | PATH=$scratch ./twice dist --metric foo 2> /dev/null)
expect 'its status' "$?" 2

# The wrapper's first run, with an rt of three crates that takes its time: what is being proved is
# shown in one line on a terminal.
mkdir -p "$scratch/fresh/bin" "$scratch/fresh/tools"
for crate in low high clearmap; do mkdir -p "$scratch/fresh/crates/$crate"; done
cp clearmap "$scratch/fresh/"
cp tools/prove_below "$scratch/fresh/tools/"
cp HANDLES "$scratch/fresh/"
printf 'low:\nhigh: low\nclearmap: high low\n' > "$scratch/fresh/crates.txt"
cat > "$scratch/fresh/bin/rt" << 'RT'
#!/bin/sh
case $1 in
try)
    while [ "$1" != -- ]; do shift; done
    shift
    echo "tried $*"
    ;;
run)
    ls ../*/out/kept > /dev/null || exit 1
    printf '#!/bin/sh\necho "ran $*"\n' > out/clearmap
    chmod +x out/clearmap
    ;;
lib)
    sleep 2
    mkdir -p out/rlib
    touch out/kept
    echo 'crate: modules 1'
    echo 'logic=proved functions=1'
    ;;
*) exit 1 ;;
esac
RT
chmod +x "$scratch/fresh/bin/rt"
fresh() { PATH=$scratch/fresh/bin:$PATH timeout 60 "$@"; }
forget() { rm -r "$scratch"/fresh/crates/*/out; }
if command -v script > /dev/null; then
    shown=$(fresh script -qec "$scratch/fresh/clearmap one two" /dev/null < /dev/null | tr '\r' '\n' | sed 's/\x1b\[K//')
    expect 'a first run at a terminal' "$(echo "$shown" | sed -n 's/ took [0-9]* s/ took so long/; /^clearmap: proved/p; /^ran/p' | uniq)" \
        "$(printf '%s\n' 'clearmap: proved 0 of 2 crates; at work: low' 'clearmap: proved 1 of 2 crates; low took so long; at work: high' 'ran one two')"
    forget
    shown=$(fresh script -qec "$scratch/fresh/clearmap --unproved one" /dev/null < /dev/null | tr -d '\r')
    expect 'a run without a proof at a terminal' "$(echo "$shown" | sed 's/ [0-9:]*$/ a time/')" \
        "$(printf '%s\n' 'clearmap: --unproved: nothing is proved of what runs now' \
            'clearmap: it is built first, in a minute that shows nothing; begun at a time' 'tried one')"
else
    echo 'the first run at a terminal left out: there is no script'
fi
expect 'a first run without a terminal' "$(fresh "$scratch/fresh/clearmap" one 2>&1 | sed 's/ took [0-9]* s/ took so long/')" \
    "$(printf '%s\n' "clearmap: the first run proves and builds all crates: 15 to 25 minutes on four cores" \
        'clearmap: proved 1 of 2 crates; low took so long' 'clearmap: proved 2 of 2 crates; high took so long' 'ran one')"
forget
sed -i 's/echo .logic=proved.*/exit 1/; s/ls .*/echo "what rt says"; exit 1/' "$scratch/fresh/bin/rt"
expect 'a first run that fails' "$(fresh "$scratch/fresh/clearmap" one 2>&1; echo "status $?")" \
    "$(printf '%s\n' "clearmap: the first run proves and builds all crates: 15 to 25 minutes on four cores" \
        "clearmap: low isn't proved; no other proof begins" 'what rt says' \
        'clearmap: not proved and built; the lines above say why' 'status 3')"
expect 'a run without a proof' "$(fresh "$scratch/fresh/clearmap" --unproved one two 2> /dev/null)" 'tried one two'
expect 'what it says of itself' "$(fresh "$scratch/fresh/clearmap" --unproved one 2>&1 > /dev/null)" \
    'clearmap: --unproved: nothing is proved of what runs now'

# A checkout of somebody else: what is built runs, and what isn't is reported at once.
theirs=$scratch/theirs
as_other='setpriv --reuid=65534 --regid=65534 --clear-groups'
if [ "$(id -u)" = 0 ] && $as_other true 2> /dev/null; then
    mkdir -p "$theirs/crates/clearmap" "$theirs/bin"
    cp clearmap "$theirs/"
    cp crates.txt "$theirs/"
    printf '#!/bin/sh\nexit 1\n' > "$theirs/bin/rt"
    chmod +x "$theirs/bin/rt"
    chmod 755 "$scratch"
    run_theirs() { PATH=$theirs/bin:$PATH $as_other "$theirs/clearmap" one two 2>&1; }
    lacking="this user can't write to $theirs/crates"
    expect 'nothing built by somebody else' "$(run_theirs; echo "status $?")" \
        "$(printf '%s\n' "clearmap: nothing is built yet, and $lacking" 'status 3')"
    mkdir "$theirs/crates/clearmap/out"
    printf '#!/bin/sh\necho "ran $*"\n' > "$theirs/crates/clearmap/out/clearmap"
    chmod +x "$theirs/crates/clearmap/out/clearmap"
    sleep 1
    touch "$theirs/crates.txt" "$theirs/crates/clearmap/new.rt"
    expect 'a source of somebody else that is newer' "$(run_theirs; echo "status $?")" \
        "$(printf '%s\n' "clearmap: sources are newer than the program, and $lacking: the program runs as it was built" \
            'ran one two' 'status 0')"
else
    echo 'a checkout of somebody else left out: this needs root and setpriv'
fi

# What make install puts in place; `all` is left to the program that stands.
if command -v make > /dev/null; then
    make -s -o all install-program DESTDIR="$scratch/root" PREFIX=/usr || wrong=$((wrong + 1))
else
    echo 'make install left out: there is no make'
    exit "$wrong"
fi
usr=$scratch/root/usr
expect 'the installed program' "$("$usr/bin/clearmap" --version)" "$version"
tried_scripts() { # tried_scripts PREFIX: the scripts and the client there
    for script in clearmap-gateway clearmap-publish clearmap-ros clearmap-ros-node clearmap-view; do
        expect "$1/bin/$script" "$(timeout 60 "$1/bin/$script" --help | sed -n "1s/^usage: \($script\) .*/\1/p")" "$script"
    done
    expect "$1/bin/clearmap-backup" "$("$1/bin/clearmap-backup" --help | sed -n "s/^Usage: \([a-z-]*\) .*/\1/p")" clearmap-backup
    expect 'the client in Python' "$(PYTHONPATH=$1/share/clearmap/python python3 -c 'import clearmap, clearmap_feed, clearmap_grid, clearmap_ros; print(clearmap.CITY)')" city
    expect 'the map to start with' "$(ls "$1/share/clearmap/examples" | tr '\n' ' ')" \
        'distances_to_pgm house.png house.yaml plan.cpp plan.py '
}
tried_scripts "$usr"

# The library, where it is built, and the installed package over it.
if [ -e crates/libclearmap/out/libclearmap.so.2 ]; then
    make -s -o lib install-lib DESTDIR="$scratch/root" PREFIX=/usr || wrong=$((wrong + 1))
    arrays=$(tools/python_with numpy)
    if [ -n "$arrays" ]; then
        expect 'in process' "$(PYTHONPATH=$usr/share/clearmap/python "$arrays" -c '
import clearmap, clearmap.library as it
it.library()
print(it._found(), clearmap.distances([[True, False, False]]).tolist())')" \
            "$usr/lib/libclearmap.so.2 [[0, 1, 4]]"
        for part in "$usr"/share/clearmap/python/clearmap_*.py; do
            part=$(basename "$part" .py)
            [ "$part" = clearmap_ros2_node ] && continue # which wants ROS 2
            expect "$part by itself" "$(cd "$scratch" && PYTHONPATH=$usr/share/clearmap/python \
                "$arrays" -c "import $part; print($part.__name__)" 2>&1)" "$part"
        done
    else
        echo 'the package in process left out: there is no python3 with numpy'
    fi
else
    echo 'the library left out: it is not built (make lib)'
fi
expect 'the version of package.xml' \
    "clearmap $(sed -n 's|.*<version>\(.*\)</version>|\1|p' "$usr/share/clearmap/package.xml")" \
    "$version"

# The node of ROS: what it imports, and the launch file, as roslaunch finds them.
ros=$(tools/python_with rospy, roslaunch, sensor_msgs.msg, numpy)
if [ -n "$ros" ]; then
    expect 'what the node imports' "$(PYTHONPATH=$usr/share/clearmap/python "$ros" -c '
import clearmap_node, clearmap_layers
print(clearmap_layers.__file__)')" "$usr/share/clearmap/python/clearmap_layers.py"
    expect 'the launch file' "$(ROS_PACKAGE_PATH=$usr/share/clearmap ROS_HOME=$scratch/ros \
        timeout 60 roslaunch --args=/clearmap clearmap clearmap.launch rviz:=false |
        grep -o '[^ ]*clearmap_node.py')" "$usr/share/clearmap/python/clearmap_node.py"
else
    echo 'the node of ROS left out: there is no python3 with rospy, roslaunch and sensor_msgs'
fi
expect 'what it links' "$(ldd "$usr/bin/clearmap" | grep -v 'vdso\|libc.so\|ld-linux')" ''
expect 'the unit' "$(grep '^ExecStart' "$usr/lib/systemd/system/clearmap@.service")" 'ExecStart=/usr/bin/clearmap serve --connections 1000000 --port %i'
if command -v systemd-analyze > /dev/null; then
    sed "s|/usr/bin/clearmap |$usr/bin/clearmap |" "$usr/lib/systemd/system/clearmap@.service" > "$scratch/clearmap@.service"
    expect 'systemd-analyze' "$(systemd-analyze verify --man=no "$scratch/clearmap@7400.service" 2>&1 | grep clearmap)" ''
else
    echo 'the unit is not verified: there is no systemd-analyze'
fi

# The pages are what --help and docs/use/PROTOCOL.md say, and man reports nothing.
tools/package/make_man.py --check "$program" || wrong=$((wrong + 1))
if command -v man > /dev/null; then
    for page in man1/clearmap.1 man1/clearmap-backup.1 man1/clearmap-gateway.1 \
        man1/clearmap-publish.1 man1/clearmap-ros.1 man1/clearmap-ros-node.1 man1/clearmap-view.1 \
        man7/clearmap-protocol.7; do
        expect "man $page" "$(man --warnings -l "$usr/share/man/$page" 2>&1 > /dev/null)" ''
    done
else
    echo 'the pages are not read by man: there is none'
fi

# Completion offers each command and flag that --help names.
offered() {
    bash -c '. "$1"; shift; COMP_WORDS=(clearmap "$@"); COMP_CWORD=$#; _clearmap; printf "%s\n" "${COMPREPLY[@]}"' bash "$usr/share/bash-completion/completions/clearmap" "$@" | sort
}
commands=$("$program" --help | sed -n 's/^  \([a-z]*\)  *[A-Z].*/\1/p')
expect 'the commands' "$(offered '' | grep -v '^-')" "$(echo "$commands" | sort)"
for command in $commands; do
    [ "$command" = help ] && continue
    flags=$("$program" "$command" --help | sed -n 's/^ *\(-., \)\{0,1\}\(--[a-z]*\) .*/\2/p' | sort)
    expect "the flags of $command" "$(offered "$command" --)" "$flags"
done
expect 'metrics' "$(offered dist --metric c)" "$(printf 'chess\ncity')"

# The header, as pkg-config and CMake find it, in a project of ten lines.
cat > "$scratch/main.cpp" << 'CPP'
#include <clearmap.hpp>
#include <cstdio>
int main(int, char** words) {
    clearmap::Client client(static_cast<std::uint16_t>(std::atoi(words[1])));
    clearmap::Pinned map = client.pin();
    std::printf("%g\n", map.clearance({{2, 0}, {2, 1}}));
}
CPP
cat > "$scratch/CMakeLists.txt" << 'CMAKE'
cmake_minimum_required(VERSION 3.13)
project(ten_lines CXX)
find_package(clearmap 0.4 REQUIRED)
add_executable(by_cmake main.cpp)
target_link_libraries(by_cmake clearmap::clearmap)
CMAKE
: > "$scratch/port"
printf "$room" > "$scratch/map"
timeout 300 "$program" serve --connections 20 < "$scratch/map" > "$scratch/port" &
server=$!
port=$(told "$server" "$scratch/port" LISTENING)
if command -v pkg-config > /dev/null && command -v g++ > /dev/null; then
    flags=$(PKG_CONFIG_SYSROOT_DIR=$scratch/root PKG_CONFIG_PATH=$usr/share/pkgconfig PKG_CONFIG_ALLOW_SYSTEM_CFLAGS=1 pkg-config --cflags 'clearmap >= 0.1')
    g++ -std=c++17 $flags -o "$scratch/by_pkg_config" "$scratch/main.cpp"
    expect 'by pkg-config' "$(timeout 60 "$scratch/by_pkg_config" "$port")" 2
else
    echo 'clearmap.pc left out: there is no pkg-config, or no g++'
fi
if command -v cmake > /dev/null && command -v g++ > /dev/null; then
    (cd "$scratch" && timeout 120 cmake -S . -B by -DCMAKE_PREFIX_PATH="$usr" && timeout 120 cmake --build by) > "$scratch/log" 2>&1 || cat "$scratch/log"
    expect 'by CMake' "$(timeout 60 "$scratch/by/by_cmake" "$port")" 2
else
    echo 'clearmapConfig.cmake left out: there is no cmake, or no g++'
fi
# The installed backup of this server, which asks by the program next to it, and one of no server.
expect 'a backup' "$(timeout 60 "$usr/bin/clearmap-backup" --port "$port")" "$(printf "$room")"
expect 'a backup of nothing' "$(timeout 60 "$usr/bin/clearmap-backup" --port 1 2> /dev/null; echo "status $?")" 'status 1'

# The installed page of this server.
web=$(tools/python_with aiohttp, numpy)
if [ -n "$web" ]; then
    : > "$scratch/url"
    timeout 300 "$web" "$usr/bin/clearmap-view" --port "$port" --web 0 > "$scratch/url" &
    view=$!
    url=$(told "$view" "$scratch/url" VIEW)
    expect 'the installed page' "$(timeout 60 "$web" -c 'import sys, urllib.request as it; print(it.urlopen(sys.argv[1]).read().decode())' "$url" | grep '^<title>')" '<title>clearmap</title>'
    kill "$view" 2> /dev/null
else
    echo 'the installed page left out: there is no python3 with aiohttp and numpy'
fi

# The installed gateway to this server, which finds the installed package and library.
arrays=$(tools/python_with numpy)
if [ -n "$arrays" ] && [ -e "$usr/lib/libclearmap.so.2" ]; then
    : > "$scratch/gate"
    timeout 300 "$arrays" "$usr/bin/clearmap-gateway" --port "$port" --links 2 > "$scratch/gate" &
    gateway=$!
    gate=$(told "$gateway" "$scratch/gate" LISTENING)
    expect 'the installed gateway' "$(printf 'PIN\nAT city 2 1\nQUIT\n' | timeout 60 "$usr/bin/clearmap" ask --port "$gate")" \
        "$(printf 'OK 0\nOK 3 0 0\nBYE')"
    kill "$gateway" 2> /dev/null
else
    echo 'the installed gateway left out: there is no python3 with numpy, or no library (make lib)'
fi

# The installed publisher of this server, and a follower, by the installed package and library.
shared=$(tools/python_with numpy, redis)
if [ -n "$shared" ] && [ -e "$usr/lib/libclearmap.so.2" ] \
    && command -v redis-server > /dev/null; then
    redis-server --port 0 --unixsocket "$scratch/redis" --save '' --dir "$scratch" > /dev/null &
    store=$!
    : > "$scratch/publishing"
    timeout 300 "$shared" "$usr/bin/clearmap-publish" --port "$port" --name room \
        --redis "unix://$scratch/redis" > "$scratch/publishing" 2> /dev/null &
    publisher=$!
    expect 'the installed publisher' "$(told "$publisher" "$scratch/publishing" PUBLISHING)" room
    expect 'a follower' "$(PYTHONPATH=$usr/share/clearmap/python timeout 60 "$shared" -c '
import clearmap, sys
with clearmap.Follower(sys.argv[1], "room") as follower:
    print(follower.wait(timeout=30).map.at(2, 1, "city"))' "unix://$scratch/redis")" \
        'Near(distance=3, obstacle=(0, 0))'
    kill "$publisher" "$store" 2> /dev/null
else
    echo 'the installed publisher left out: there is no redis-server, no python3 with numpy and' \
        'redis, or no library (make lib)'
fi
kill "$server" 2> /dev/null

expect 'what is left' "$(make -s uninstall DESTDIR="$scratch/root" PREFIX=/usr && find "$scratch/root" ! -type d)" ''
echo "install: wrong $wrong"
[ "$wrong" = 0 ]
