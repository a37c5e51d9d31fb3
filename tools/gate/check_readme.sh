#!/bin/bash
# Runs README.md's blocks as they stand, with the built program (or that of CLEARMAP), in the order
# of the page: each command prints what stands below it. The lines marked `>` are sent by `ask` to
# the page's server, and get the replies that stand there. The blocks for Python and C run where the
# library, numpy and gcc are, and print the block of text below them. The lines that run from source
# do so where rt and the tree's own program are. What installs packages is run by check_packages.sh,
# and the gate is who runs this.
set -u
cd "$(dirname "$0")/../.." || exit 1
program=$(realpath "${CLEARMAP:-crates/clearmap/out/clearmap}")
"$program" --version > /dev/null || exit 1
room=$(mktemp -d)
trap 'kill $(jobs -p) 2> /dev/null; rm -rf "$room"' EXIT
trap 'exit 1' INT TERM
mkdir "$room/bin"
ln -s "$program" "$room/bin/clearmap"
pictures=''
[ ! -e crates/libclearmap/out/libclearmap.so.2 ] || pictures=$(tools/python_with PIL)
printf '#!/bin/sh\nexec %s %s "$@"\n' "$pictures" "$PWD/tools/ros/clearmap_ros.py" \
    > "$room/bin/clearmap-ros"
chmod +x "$room/bin/clearmap-ros"
cp examples/house.yaml examples/house.png "$room/"
PATH="$room/bin:$PATH"
tried=0
wrong=0

expect() { # expect WHAT GOT WANTED
    tried=$((tried + 1))
    [ "$2" = "$3" ] && return
    wrong=$((wrong + 1))
    echo "$1: '$2' where '$3' was wanted"
}

answer=''
command=''
server=''
sent='' replies='' in_talk=''
judged() { # compares what the last command printed with the page
    [ -z "$command" ] || expect "$command" "$printed" "$answer"
    command='' answer=''
}
while IFS= read -r line; do
    case $line in
        '    $ '*' serve '*)
            judged
            timeout 60 bash -c "${line#    $ }" > "$room/served" &
            server=$!
            for _ in $(seq 100); do
                grep -q LISTENING "$room/served" && break
                sleep 0.1
            done
            ;;
        *'| clearmap-ros '*)
            judged
            [ -n "$pictures" ] || { echo 'the plan left out: no PIL, or no library'; continue; }
            command=${line#    $ }
            printed=$(cd "$room" && timeout 60 bash -c "$command" 2>&1)
            ;;
        '    $ '*)
            judged
            command=${line#    $ }
            printed=$(cd "$room" && timeout 60 bash -c "$command" 2>&1)
            ;;
        '    > '*)
            judged
            sent=$sent${line#    > }$'\n'
            in_talk=yes
            ;;
        '    LISTENING '* | '    SERVED '*) echo "${line#    }" >> "$room/wanted" ;;
        '    '*)
            [ -z "$command" ] || answer=$answer${answer:+$'\n'}${line#    }
            [ -z "$in_talk" ] || replies=$replies${line#    }$'\n'
            ;;
        *) judged; in_talk='' ;;
    esac
done < README.md
judged
got=$(printf %s "$sent" | timeout 60 clearmap ask --port 7400)$'\n'
expect 'the replies to the lines' "$got" "$replies"
[ -z "$server" ] || wait "$server"
expect 'the served terminal' "$(cat "$room/served")" "$(cat "$room/wanted")"

block() { # block LANGUAGE: the page's block of this language
    sed -n "/^\`\`\`$1\$/,/^\`\`\`\$/{/^\`\`\`/d;p}" README.md
}
output() { # output LANGUAGE: the block of text after the block of this language
    sed -n "/^\`\`\`$1\$/,\$p" README.md | sed -n '/^```text$/,/^```$/{/^```$/q;/^```/d;p}'
}
built=$PWD/crates/libclearmap/out
python=$(tools/python_with numpy)
if [ -n "$python" ] && [ -e "$built/libclearmap.so.2" ]; then
    block python > "$room/block.py"
    printed=$(PYTHONPATH=clients/python timeout 60 "$python" "$room/block.py")
    expect 'the block for Python' "$printed" "$(output python)"
else
    echo 'the block for Python left out: there is no numpy, or the library is not built'
fi
if command -v gcc > /dev/null && [ -e "$built/libclearmap.so.2" ]; then
    block c > "$room/plan.c"
    gcc -std=c11 -Wall -Wextra -Werror -Iclients/c "$room/plan.c" -L"$built" -l:libclearmap.so.2 \
        -o "$room/plan"
    expect 'the block for C' "$(LD_LIBRARY_PATH=$built timeout 60 "$room/plan")" "$(output c)"
else
    echo 'the block for C left out: there is no gcc, or the library is not built'
fi
if command -v rt > /dev/null && [ -x crates/clearmap/out/clearmap ]; then
    grep '^    \./clearmap .*dist' README.md > "$room/lines"
    expect 'lines to run from source' "$(wc -l < "$room/lines")" 1
    while IFS= read -r line; do
        printed=$(timeout 600 bash -c "$line" 2> "$room/said")
        expect "$line" "$printed" "$("$program" dist < examples/room.pbm)"
    done < "$room/lines"
else
    echo 'the lines to run from source left out: there is no rt, or the program is not built here'
fi
echo "README: tried $tried, wrong $wrong"
[ "$wrong" = 0 ]
