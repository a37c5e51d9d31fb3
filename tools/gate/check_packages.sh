#!/bin/sh
# Tries what others get of clearmap, each in a folder of its own and without rt: all of it by `make
# install`, the packages for Debian, unpacked, and the package for Python by pip, in a fresh
# environment. The program and the library have to be built. Skips, with a message, what isn't
# installed here.
set -u
cd "$(dirname "$0")/../.." || exit 1
program=$PWD/crates/clearmap/out/clearmap
scratch=$(mktemp -d)
trap 'rm -rf "$scratch"' EXIT
trap 'exit 1' INT TERM
export PYTHONDONTWRITEBYTECODE=1 PIP_NO_INDEX=1 PIP_DISABLE_PIP_VERSION_CHECK=1
wrong=0

wants() { # wants TOOL WHAT: whether the tool is there; otherwise says what is skipped
    command -v "$1" > /dev/null && return
    echo "$2 left out: there is no $1"
    return 1
}

expect() { # expect WHAT GOT WANTED
    [ "$2" = "$3" ] && return
    wrong=$((wrong + 1))
    echo "$1: '$2' where '$3' was wanted"
}

if [ ! -x "$program" ] || [ ! -e crates/libclearmap/out/libclearmap.so.2 ]; then
    echo 'the packages left out: the program or the library is not built'
    exit 0
fi
wants make 'the packages' || exit 0
version=$("$program" --version)
sed -n '/^```cpp$/,/^```$/{/^```/d;p}' docs/use/LIBRARY.md > "$scratch/plan.cpp"
cat > "$scratch/CMakeLists.txt" << 'PROJECT'
cmake_minimum_required(VERSION 3.16)
project(plan CXX)
find_package(clearmap 0.4 REQUIRED)
add_executable(plan plan.cpp)
target_link_libraries(plan clearmap::clearmap)
PROJECT
cpp_says='the path is clear: 0.680954 m free at its tightest; 0.929289 m free at (2.5, 2)'
row='import clearmap; print(clearmap.distances([[True, False, False]]).tolist())'
arrays=$(tools/python_with numpy)
needs='import importlib.metadata as it; print(*it.requires("clearmap"))'
needs_are='numpy; extra == "numpy" pillow; extra == "pillow" redis; extra == "redis"'
awk 'BEGIN { printf "P2 4 3 255\n0 205 254 254 254 254 254 0 254 254 254 254\n" }' > "$scratch/map.pgm"
printf '%s\n' 'image: map.pgm' 'resolution: 0.05' 'origin: [-1.0, -2.0, 0.0]' 'negate: 0' \
    'occupied_thresh: 0.65' 'free_thresh: 0.196' > "$scratch/map.yaml"
metres='import clearmap; at = clearmap.read_map("map.yaml"); robot = at.frame.footprint(
    [(0.0125, 0.0125), (-0.0125, 0.0125), (-0.0125, -0.0125), (0.0125, -0.0125)]); print(at.frame.size,
    robot.clearance(at.map(), "-0.975", "-1.975", 0),
    clearmap.clear_distance("0.22", at.frame.resolution))'
metres_says='(4, 3) 0.0625 34'

# The page's program in C++ with what is installed to a root: by pkg-config and by CMake.
tried_cpp() { # tried_cpp ROOT LIBRARY_FOLDER PKG_CONFIG_FOLDER
    wants g++ 'the program of the page' || return
    if wants pkg-config 'the program of the page by pkg-config'; then
        flags=$(PKG_CONFIG_SYSROOT_DIR=$1 PKG_CONFIG_PATH=$1$3 PKG_CONFIG_ALLOW_SYSTEM_CFLAGS=1 \
            PKG_CONFIG_ALLOW_SYSTEM_LIBS=1 pkg-config --cflags --libs libclearmap)
        g++ -std=c++17 -Wall -Wextra -Werror "$scratch/plan.cpp" $flags -pthread -o "$scratch/plan"
        expect "$1 by pkg-config" "$(LD_LIBRARY_PATH=$1$2 "$scratch/plan")" "$cpp_says"
    fi
    wants cmake 'the program of the page by CMake' || return
    built=$(mktemp -d -p "$scratch")
    { cmake -S "$scratch" -B "$built" -DCMAKE_PREFIX_PATH="$1/usr" && cmake --build "$built"; } \
        > "$scratch/log" 2>&1 || cat "$scratch/log"
    expect "$1 by CMake" "$(LD_LIBRARY_PATH=$1$2 "$built/plan")" "$cpp_says"
}

tried_program() { # tried_program ROOT LIBRARY_FOLDER
    expect "$1: the program" "$("$1/usr/bin/clearmap" --version)" "$version"
    for script in clearmap-ros clearmap-ros-node clearmap-view; do
        expect "$1: $script" "$(timeout 60 "$1/usr/bin/$script" --help \
            | sed -n "1s/^usage: \($script\) .*/\1/p")" "$script"
    done
    [ -n "$arrays" ] || { echo 'the package in Python left out: there is no numpy'; return; }
    expect "$1: in process" "$(cd "$scratch" && LD_LIBRARY_PATH=$1$2 \
        PYTHONPATH=$1/usr/share/clearmap/python "$arrays" -c "$row")" '[[0, 1, 4]]'
    expect "$1: in metres" "$(cd "$scratch" && LD_LIBRARY_PATH=$1$2 \
        PYTHONPATH=$1/usr/share/clearmap/python "$arrays" -c "$metres")" "$metres_says"
    for part in answers costmap draft feed follow grid layers messages order server; do
        expect "$1: clearmap_$part by itself" "$(cd "$scratch" && \
            PYTHONPATH=$1/usr/share/clearmap/python "$arrays" -c "import clearmap_$part" 2>&1)" ''
    done
}

# All of it by one command.
all=$scratch/all
make -s -o all -o lib install DESTDIR="$all" PREFIX=/usr || wrong=$((wrong + 1))
tried_program "$all" /usr/lib
tried_cpp "$all" /usr/lib /usr/share/pkgconfig
make -s uninstall DESTDIR="$all" PREFIX=/usr || wrong=$((wrong + 1))
expect 'what is left' "$(find "$all" ! -type d)" ''

# Another checkout of the same sources, with what is built here. Packages from it are the same.
twin=$scratch/twin
mkdir -p "$twin"
git ls-files -z | tar -c --null -T - 2> /dev/null | tar -x -C "$twin"
for crate in clearmap libclearmap; do
    mkdir -p "$twin/crates/$crate/out"
    find "crates/$crate/out" -maxdepth 1 -type f -exec cp {} "$twin/crates/$crate/out/" \;
done
[ ! -d crates/libclearmap/out/aarch64 ] \
    || cp -r crates/libclearmap/out/aarch64 "$twin/crates/libclearmap/out/"
find "$twin" -type f -exec touch {} +
SOURCE_DATE_EPOCH=$(git log -1 --format=%ct 2> /dev/null || date +%s)
export SOURCE_DATE_EPOCH

# The packages for Debian, unpacked over one another. No path is in two of them.
if wants dpkg-deb 'the packages for Debian' && wants strip 'the packages for Debian'; then
    debs=$(timeout 300 tools/package/make_deb.sh "$scratch/packages") || wrong=$((wrong + 1))
    expect 'their names' "$(echo "$debs" | sed 's|.*/||; s|_.*||' | tr '\n' ' ')" \
        'clearmap libclearmap2 libclearmap-dev '
    for deb in $debs; do
        expect "the version of $deb" "clearmap $(dpkg-deb -f "$deb" Version)" "$version"
        dpkg-deb -x "$deb" "$scratch/unpacked"
        dpkg-deb --fsys-tarfile "$deb" | tar -t | grep -v '/$' >> "$scratch/paths"
    done
    timeout 300 "$twin/tools/package/make_deb.sh" "$scratch/again" > /dev/null || wrong=$((wrong + 1))
    for deb in $debs; do
        cmp "$deb" "$scratch/again/${deb##*/}" || wrong=$((wrong + 1))
    done
    expect 'paths in two packages' "$(sort "$scratch/paths" | uniq -d)" ''
    folder=$(cd "$scratch/unpacked" && dirname "$(find usr/lib -name libclearmap.so.2)")
    tried_program "$scratch/unpacked" "/$folder"
    expect "Debian's python3" "clearmap $(
        cd "$scratch" && PYTHONPATH=$scratch/unpacked/usr/lib/python3/dist-packages /usr/bin/python3 \
            -c 'import clearmap; print(clearmap.__version__)'
    )" "$version"
    tried_cpp "$scratch/unpacked" "/$folder" "/$folder/pkgconfig"
    if wants lintian 'errors of the packages'; then
        expect 'lintian' "$(timeout 300 lintian --allow-root $debs 2>&1 | grep '^E:')" ''
    fi
fi

# The wheels, and the one of this machine in an environment without anything else; then in one that
# sees numpy. The tools that the path finds are Debian's.
bare() { env -i HOME="$scratch" PATH=/usr/bin:/bin PIP_NO_INDEX=1 "$@"; }
python=${arrays:-python3}
if "$python" -c 'import ensurepip, venv' 2> /dev/null; then
    wheels=$(clients/python/build_wheel.py "$scratch/wheels") || wrong=$((wrong + 1))
    "$twin/clients/python/build_wheel.py" "$scratch/wheels-again" > /dev/null || wrong=$((wrong + 1))
    for wheel in $wheels; do
        cmp "$wheel" "$scratch/wheels-again/${wheel##*/}" || wrong=$((wrong + 1))
    done
    wheel=$(echo "$wheels" | grep "linux_$(uname -m)\.whl$")
    for kind in '' --system-site-packages; do
        venv=$scratch/venv$kind
        extra=''
        [ -z "$kind" ] || [ -z "$arrays" ] || extra='[numpy]' # which is there: nothing is fetched
        timeout 300 "$python" -m venv $kind "$venv" \
            && (cd "$scratch" && bare "$venv/bin/pip" install -q --no-cache-dir "$wheel$extra") \
            || wrong=$((wrong + 1))
        found=$(cd "$scratch" && bare "$venv/bin/python" -c \
            'import clearmap.library as it; it.library(); print(it._found())')
        expect "what $wheel may need" "$(bare "$venv/bin/python" -c "$needs")" "$needs_are"
        expect "the library of $wheel" "${found#"$venv"/lib/python*/}" \
            'site-packages/clearmap/libclearmap.so.2'
    done
    if [ -n "$arrays" ]; then
        expect 'distances' "$(cd "$scratch" && bare "$venv/bin/python" -c "$row")" '[[0, 1, 4]]'
        expect 'metres' "$(cd "$scratch" && bare "$venv/bin/python" -c "$metres")" "$metres_says"
    fi
    expect 'the program of the wheel' "$(bare "$venv/bin/clearmap" --version)" "$version"
    bare "$venv/bin/pip" uninstall -q -y clearmap
    before=$(git status --porcelain clients/python)
    bare "$venv/bin/pip" install -q --no-cache-dir -e clients/python || wrong=$((wrong + 1))
    expect 'pip install -e' "$(cd "$scratch" && bare "$venv/bin/python" -c \
        'import clearmap; print(clearmap.__file__)')" "$PWD/clients/python/clearmap/__init__.py"
    expect 'what it leaves in the tree' "$(git status --porcelain clients/python)" "$before"
    expect 'no rt' "$(bare sh -c 'command -v rt')" ''
else
    echo 'the wheel left out: python3 has no venv, or no ensurepip'
fi

# A release, by `make release` in a clone of this commit: all packages with their sums, and none by
# the log of a gate that failed. The gate's log is made up here.
if wants git 'a release' && wants dpkg-deb 'a release'; then
    git clone -q . "$scratch/clone"
    for crate in clearmap libclearmap; do
        ln -s "$PWD/crates/$crate/out" "$scratch/clone/crates/$crate/out"
    done
    commit="commit $(git rev-parse HEAD)"
    release() { # release COMMIT LAST_LINE: by a log that says so
        printf '%s\n' "$@" > "$scratch/clone/gate.log"
        timeout 300 make -s -C "$scratch/clone" -o all -o lib release > "$scratch/log" 2>&1
    }
    release "$commit" '243 passed, 1 failed' && expect 'a release of what failed' made refused
    release 'commit 0123456' '243 passed, 0 failed' \
        && expect 'a release by the log of another commit' made refused
    release "$commit" '243 passed, 0 failed' || { wrong=$((wrong + 1)); cat "$scratch/log"; }
    expect 'sums of a release' "$(cd "$scratch/clone/packages" && sha256sum -c --quiet SHA256SUMS \
        2>&1 && ls | sed 's/[-_].*//' | LC_ALL=C sort -u | tr '\n' ' ')" \
        'SHA256SUMS clearmap gate libclearmap libclearmap2 '
    expect 'what a release tells of the gate' "$(cat "$scratch"/clone/packages/gate-*.txt)" \
        "$(printf '%s\n' "$commit" '243 passed, 0 failed')"
    expect 'what a release leaves in the tree' "$(git -C "$scratch/clone" status --porcelain \
        --untracked-files=no)" ''
fi

# The package by pip from its folder, with its types.
if python3 -m pip --version > /dev/null 2>&1; then
    timeout 120 python3 -m pip install --no-cache-dir --root-user-action ignore -q \
        --target "$scratch/pip" clients/python || wrong=$((wrong + 1))
    expect 'by pip' "clearmap $(cd "$scratch" && PYTHONPATH=$scratch/pip python3 -c \
        'import clearmap, importlib.metadata as it; print(it.version("clearmap"))')" "$version"
    for part in py.typed libclearmap.so.2; do
        [ -e "$scratch/pip/clearmap/$part" ] || { wrong=$((wrong + 1)); echo "pip: no $part"; }
    done
else
    echo 'pip install ./clients/python left out: there is no pip'
fi
echo "packages: wrong $wrong"
[ "$wrong" = 0 ]
