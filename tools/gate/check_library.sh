#!/bin/sh
# Builds libclearmap where it has to, and tries it from C and C++: the header against the source,
# what the shared library shows, the memory and the names of the library, the tests (also under
# valgrind, the sanitizers and, for ARM, qemu), and the programs of docs/use/LIBRARY.md. Skips, with
# a message, what isn't installed here. MAPS is how many random maps. The C++ test asks servers of
# the built program too; CLEARMAP names another one. Footprints are tried on cases that the model in
# Python has answered.
set -u
cd "$(dirname "$0")/../.." || exit 1
library=$PWD/crates/libclearmap/out
program=${CLEARMAP:-$PWD/crates/clearmap/out/clearmap}
scratch=$(mktemp -d)
servers=''
trap 'for server in $servers; do kill "$server" 2> /dev/null; done; rm -rf "$scratch"' EXIT
trap 'exit 1' INT TERM
export PYTHONDONTWRITEBYTECODE=1
failed=0

wants() { # wants TOOL WHAT: whether the tool is there; otherwise says what is skipped
    command -v "$1" > /dev/null && return
    echo "$2 left out: there is no $1"
    return 1
}

try() { # try WHAT COMMAND ..: says how it ended, and what it wrote if it failed
    what=$1
    shift
    if timeout 600 "$@" > "$scratch/log" 2>&1; then
        echo "$what: $(tail -n 1 "$scratch/log")"
    else
        failed=1
        echo "$what FAILED:"
        tail -n 30 "$scratch/log"
    fi
}

try 'header' tools/lint/check_header.py
wants gcc 'the library' && wants make 'the library' || exit "$failed"
timeout 1100 make -s lib > "$scratch/log" 2>&1 || { tail -n 30 "$scratch/log"; exit 1; }

try 'uses' tools/gate/check_uses.sh
tools/gate/check_library_promises.py || failed=1

flags="-std=c11 -Wall -Wextra -Wshadow -Wconversion -Wpedantic -Werror -g -Iclients/c"
test="clients/c/test_clearmap.c"

# The heap of clearmap.c, which the library hides, for the tests alone.
heap() { # heap COMPILER FILE
    "$1" $flags -O2 -Dclearmap_version=heap_version -Dclearmap_status_text=heap_status_text \
        -c clients/c/clearmap.c -o "$2" || exit 1
}
heap gcc "$scratch/heap.o"

# The shared library shows the calls of the header, has its own name, and needs the C library alone.
nm -D --defined-only "$library/libclearmap.so.2" | sed 's/.* //' | sort > "$scratch/shown"
sed '/^static inline/d' clients/c/clearmap.h | grep -oE '\*?clearmap_[a-z_]+\(' \
    | grep -oE 'clearmap_[a-z_]+' | sort -u > "$scratch/told"
try 'shown names' diff "$scratch/told" "$scratch/shown"
readelf -d "$library/libclearmap.so.2" > "$scratch/dynamic"
grep -q 'SONAME.*\[libclearmap.so.2\]' "$scratch/dynamic" \
    || { failed=1; echo 'the soname is another one'; }
[ "$(grep -c NEEDED "$scratch/dynamic")" = "$(grep -c 'NEEDED.*\[libc.so' "$scratch/dynamic")" ] \
    || { failed=1; echo 'it needs more than the C library'; }

# The tests, with the static library; each request for memory can be refused there.
if gcc $flags -O2 $test "$scratch/heap.o" "$library/libclearmap.a" -Wl,--wrap=malloc -lpthread \
    -o "$scratch/test"; then
    try 'test' "$scratch/test" "${MAPS:-40}"
    wants valgrind 'valgrind' \
        && try 'valgrind' valgrind -q --error-exitcode=9 --leak-check=full "$scratch/test" 5
else
    failed=1
fi

if gcc $flags -O2 clients/c/test_planning.c "$scratch/heap.o" "$library/libclearmap.a" \
    -Wl,--wrap=malloc -o "$scratch/test"; then
    try 'calls for planners' "$scratch/test" "${MAPS:-60}"
    wants valgrind 'valgrind' \
        && try 'valgrind, of calls for planners' valgrind -q --error-exitcode=9 --leak-check=full \
            "$scratch/test" 5
else
    failed=1
fi

if gcc $flags -O2 clients/c/test_hits.c "$library/libclearmap.a" -Wl,--wrap=malloc -lm \
    -o "$scratch/test"; then
    try 'calls for footprints' "$scratch/test" "${MAPS:-400}"
    wants valgrind 'valgrind' \
        && try 'valgrind, of calls for footprints' valgrind -q --error-exitcode=9 "$scratch/test" 20
else
    failed=1
fi

# Where compilers take it that no number is NaN.
for compiler in gcc clang; do
    wants "$compiler" "-ffast-math by $compiler" || continue
    "$compiler" $flags -O3 -ffast-math $test "$scratch/heap.o" "$library/libclearmap.a" \
        -Wl,--wrap=malloc -lpthread -o "$scratch/fast" || failed=1
    try "test by $compiler -ffast-math" "$scratch/fast" 1
done

# The C side's threads; the library's own code isn't compiled for the sanitizer.
if gcc $flags -O1 -fsanitize=thread $test "$scratch/heap.o" "$library/libclearmap.a" \
    -Wl,--wrap=malloc -lpthread -o "$scratch/threads" 2> "$scratch/log"; then
    try 'thread sanitizer' "$scratch/threads" 1
else
    echo 'thread sanitizer left out: it does not link here'
fi

# The library for ARM, with the same test. It is linked with its C library, so that qemu needs none.
if wants aarch64-linux-gnu-gcc 'the library for ARM' && wants qemu-aarch64 'the library for ARM'; then
    try 'make lib-arm' make -s lib-arm
    heap aarch64-linux-gnu-gcc "$scratch/heap_arm.o"
    if aarch64-linux-gnu-gcc $flags -O2 -static $test "$scratch/heap_arm.o" \
        "$library/aarch64/libclearmap.a" -Wl,--wrap=malloc -lpthread -o "$scratch/arm"; then
        try 'test on ARM' qemu-aarch64 "$scratch/arm" 5
    else
        failed=1
    fi
    if aarch64-linux-gnu-gcc $flags -O2 -static clients/c/test_planning.c "$scratch/heap_arm.o" \
        "$library/aarch64/libclearmap.a" -Wl,--wrap=malloc -o "$scratch/arm"; then
        try 'calls for planners on ARM' qemu-aarch64 "$scratch/arm" 5
    else
        failed=1
    fi
fi

# The headers for C++, their tests by both compilers and under the sanitizers; the answers of a map
# against those of two servers too.
serve() { # serve FLAG ..: starts a server of a blank map, whose port is added to `ports`
    : > "$scratch/port"
    timeout 900 "$program" serve --connections 1000 "$@" < "$scratch/blank" > "$scratch/port" &
    servers="$servers $!"
    port=''
    for _ in $(seq 400); do
        port=$(sed -n 's/^LISTENING //p' "$scratch/port")
        [ -z "$port" ] && kill -0 "$!" 2> /dev/null || break
        sleep 0.05
    done
    ports="$ports $port"
    [ -n "$port" ] || { failed=1; echo 'no server listens'; }
}
ports=''
if [ -x "$program" ]; then
    { printf 'P1\n64 48\n'; yes "$(printf '%064d' 0)" | head -n 48; } > "$scratch/blank"
    serve
    serve --edge wall
else
    echo 'maps of a server left out: the program is not built'
fi

# Footprints and poses with the answers of the model in Python.
arrays=$(tools/python_with numpy)
cases=''
if [ -n "$arrays" ]; then
    cases=$scratch/cases
    PYTHONPATH=clients/python timeout 300 "$arrays" clients/python/footprint_model.py \
        "$((10 * ${MAPS:-40}))" > "$cases" || { failed=1; echo 'no cases of footprints'; }
else
    echo 'footprints of the model in Python left out: there is no python3 with numpy'
fi

header_test() { # header_test NAME MAPS COMPILER FLAG ..: a test of the headers for C++, built so
    name=$1 count=$2
    shift 2
    wants "$1" "test_$name.cpp by $1" || return
    case $name in
        map | many) links='' asked=$ports ;;
        field) links='-Wl,--wrap=malloc' asked='' ;;
        footprint) links='' asked=$cases ;;
        signed) links='' asked='' ;;
        limits) links='-Wl,--wrap=clearmap_version' asked='' ;;
    esac
    if ! "$@" -std=c++17 -Wall -Wextra -Wconversion -Wpedantic -Werror -g1 -pthread -Iclients/c \
        -Iclients/cpp -c "clients/cpp/test_$name.cpp" -o "$scratch/test.o"; then
        failed=1
    elif "$@" -pthread $links "$scratch/test.o" "$library/libclearmap.a" -o "$scratch/test" \
        2> "$scratch/log"; then
        try "$name by $*" "$scratch/test" "$count" $asked
    else
        case "$*" in
            *-fsanitize=*) echo "$name by $* left out: it does not link here" ;;
            *) failed=1; echo "$name by $* does not link"; tail -n 3 "$scratch/log" ;;
        esac
    fi
}
for name in map many field footprint signed limits; do
    header_test "$name" "${MAPS:-40}" g++ -O2
    header_test "$name" 5 clang++ -O1
    for compiler in g++ clang++; do
        header_test "$name" 5 "$compiler" -O1 -fsanitize=address,undefined \
            -fno-sanitize-recover=all
        header_test "$name" 5 "$compiler" -O1 -fsanitize=thread
    done
done
for compiler in g++ clang++; do # which take it here that no number is NaN
    header_test limits 5 "$compiler" -O3 -ffast-math -DNDEBUG
done

# Installed into an empty prefix: the page's programs by pkg-config and by CMake.
prefix=$scratch/usr
try 'make install-lib' make -s install-lib PREFIX="$prefix"
for language in c cpp; do
    sed -n "/^\`\`\`$language\$/,/^\`\`\`\$/{/^\`\`\`/d;p}" docs/use/LIBRARY.md \
        > "$scratch/page.$language"
done

says() { # says WHAT WORDS PROGRAM ..: runs a program of the page, which says so
    what=$1 words=$2
    shift 2
    try "$what" env LD_LIBRARY_PATH="$prefix/lib" "$@"
    [ "$(cat "$scratch/log")" = "$words" ] || { failed=1; echo "$what should say: $words"; }
}
python_says='0.179 m free in any case, nearest (7, 4)'
c_says='0.250 m from middle to middle, nearest (7, 4); the path is clear'
cpp_says='the path is clear: 0.680954 m free at its tightest; 0.929289 m free at (2.5, 2)'

if wants pkg-config "the page's programs by pkg-config"; then
    found=$(PKG_CONFIG_PATH=$prefix/share/pkgconfig pkg-config --cflags --libs libclearmap)
    page() { # page FILE WORDS COMPILER FLAG ..: a program of the page, built so
        file=$1 words=$2
        shift 2
        wants "$1" "the page's program by $1" || return
        "$@" -Wall -Wextra -Werror "$scratch/$file" -x none $found -lm -pthread -o "$scratch/page" \
            && says "$file by $*" "$words" "$scratch/page" || failed=1
    }
    page page.c "$c_says" gcc -std=c11
    page page.c "$c_says" g++ -std=c++20 -x c++
    page page.cpp "$cpp_says" g++ -std=c++17
    page page.cpp "$cpp_says" clang++ -std=c++17
    found=$(PKG_CONFIG_PATH=$prefix/share/pkgconfig pkg-config --static --cflags --libs libclearmap)
    page page.c "$c_says" gcc -std=c11 -static
    page page.cpp "$cpp_says" g++ -std=c++17 -static
fi

# A processor without SSE 4.2 isn't given the shared library: the loader says why.
if [ "$(uname -m)" = x86_64 ]; then
    readelf -n "$library/libclearmap.so.2" | grep -q 'ISA needed: .*x86-64-v2' \
        || { failed=1; echo 'the shared library does not say that it needs x86-64-v2'; }
    if wants qemu-x86_64 'a processor without SSE 4.2'; then
        gcc -std=c11 -Iclients/c "$scratch/page.c" "$library/libclearmap.so.2" -lm \
            -Wl,-rpath,"$library" -o "$scratch/page" || failed=1
        timeout 60 qemu-x86_64 -cpu core2duo "$scratch/page" > "$scratch/log" 2>&1
        grep -q 'CPU ISA level is lower than required' "$scratch/log" \
            || { failed=1; echo 'a processor without SSE 4.2:'; cat "$scratch/log"; }
    fi
fi
# The page's lines in Python, by a package and a library that are installed to this prefix.
sed -n '/^```python$/,/^```$/{/^```/d;p}' docs/use/LIBRARY.md > "$scratch/page.py"
mkdir -p "$prefix/share/clearmap/python"
cp -r clients/python/clearmap "$prefix/share/clearmap/python/"
if [ -n "$arrays" ]; then
    export PYTHONPATH="$prefix/share/clearmap/python"
    says 'page by Python' "$python_says" "$arrays" "$scratch/page.py"
    try 'its library' "$arrays" -c 'import clearmap.library as it; it.library(); print(it._found())'
    [ "$(cat "$scratch/log")" = "$prefix/lib/libclearmap.so.2" ] || failed=1
    unset PYTHONPATH
else
    echo "the page's lines in Python left out: there is no python3 with numpy"
fi
rm -r "$prefix/share/clearmap/python"

# The same in a folder lib64, by CMake with either library, and which versions are found.
version=$(sed -n 's/^version = "\(.*\)"/\1/p' clients/python/pyproject.toml)
line=${version%.*}
if wants cmake "the page's programs by CMake"; then
    mkdir "$scratch/project"
    cp "$scratch/page.c" "$scratch/page.cpp" "$scratch/project/"
    cat > "$scratch/project/CMakeLists.txt" << 'PROJECT'
cmake_minimum_required(VERSION 3.19)
project(page C CXX)
foreach(asked IN LISTS ASKED)
  find_package(clearmap ${asked} QUIET)
  if(clearmap_FOUND)
    string(APPEND found " ${asked}")
  endif()
endforeach()
file(WRITE ${CMAKE_BINARY_DIR}/found "found${found}\n")
find_package(clearmap REQUIRED)
add_executable(page page.c)
target_link_libraries(page clearmap::clearmap m)
add_executable(page_cpp page.cpp)
target_link_libraries(page_cpp clearmap::clearmap)
add_executable(page_static page.cpp)
target_link_libraries(page_static clearmap::clearmap_static)
PROJECT
    try 'make install-lib in lib64' make -s install-lib PREFIX="$scratch/other" \
        LIBDIR="$scratch/other/lib64"
    for folder in "$prefix" "$scratch/other"; do
        rm -rf "$scratch/built"
        try "cmake $folder" cmake -S "$scratch/project" -B "$scratch/built" \
            -DCMAKE_PREFIX_PATH="$folder" \
            "-DASKED=0.1;$line;$version;$version.0;$line.999;${line}1;1;0.1...$line;0.1...<$version"
        [ "$(cat "$scratch/built/found")" = "found $line $version $version.0 0.1...$line" ] \
            || { failed=1; echo "other versions: $(cat "$scratch/built/found")"; }
        try 'cmake --build' cmake --build "$scratch/built"
        says 'page.c by CMake' "$c_says" "$scratch/built/page"
        says 'page.cpp by CMake' "$cpp_says" "$scratch/built/page_cpp"
        says 'page.cpp by CMake with libclearmap.a' "$cpp_says" "$scratch/built/page_static"
        readelf -d "$scratch/built/page_static" | grep -q libclearmap \
            && { failed=1; echo 'page_static needs the shared library'; }
    done
fi

# Nothing is left of it, and what the program's installation shares with it stays with the other.
installed() { find "$prefix" ! -type d; }
if [ -x crates/clearmap/out/clearmap ]; then
    alone=$(installed | sort)
    try 'make install-program' make -s -o all install-program PREFIX="$prefix"
    try 'make uninstall-program' make -s uninstall-program PREFIX="$prefix"
    [ "$(installed | sort)" = "$alone" ] || { failed=1; echo 'make uninstall-program took of the library'; }
    try 'make install-program' make -s -o all install-program PREFIX="$prefix"
    try 'make uninstall-lib' make -s uninstall-lib PREFIX="$prefix"
    [ -e "$prefix/include/clearmap.hpp" ] || { failed=1; echo 'the client is gone'; }
    try 'make uninstall-program' make -s uninstall-program PREFIX="$prefix"
else
    try 'make uninstall-lib' make -s uninstall-lib PREFIX="$prefix"
fi
[ -z "$(installed)" ] || { failed=1; installed; }
exit "$failed"
