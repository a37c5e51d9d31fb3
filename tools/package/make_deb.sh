#!/bin/sh
# Writes packages for Debian into a folder: clearmap, libclearmap2 and libclearmap-dev. Together
# they are what `make install` installs. The program and the library have to be built. Needs
# dpkg-deb, and strip and objdump of binutils. Made twice of one commit and one build they are the
# same bytes.
#   tools/package/make_deb.sh FOLDER
set -eu
[ $# = 1 ] || { echo 'make_deb.sh: name the folder for the packages' >&2; exit 2; }
mkdir -p "$1"
folder=$(cd "$1" && pwd)
cd "$(dirname "$0")/../.."
for tool in make dpkg-deb gzip strip objdump; do
    command -v "$tool" > /dev/null || { echo "make_deb.sh: there is no $tool" >&2; exit 1; }
done
umask 022
roots=$(mktemp -d)
trap 'rm -rf "$roots"' EXIT
trap 'exit 1' INT TERM
version=$(sed -n 's/^version = "\(.*\)"/\1/p' clients/python/pyproject.toml)
arch=$(dpkg --print-architecture)
lib=/usr/lib/$(dpkg-architecture -q DEB_HOST_MULTIARCH 2> /dev/null || gcc -print-multiarch)
maintainer='The clearmap authors <authors@clearmap.example>'
date=${SOURCE_DATE_EPOCH:-$(git log -1 --format=%ct 2> /dev/null || date +%s)}
export SOURCE_DATE_EPOCH="$date" # of what dpkg-deb writes, too

# All that is installed goes to the package clearmap; the library's parts are taken out of it.
root=$roots/clearmap
make -s -o all -o lib install DESTDIR="$root" PREFIX=/usr LIBDIR="$lib" \
    PKGCONFIGDIR="$lib/pkgconfig"
rm "$root/usr/share/doc/clearmap/LICENSE"
strip --strip-unneeded "$root/usr/bin/clearmap" "$root$lib/libclearmap.so.2"
strip --strip-debug "$root$lib/libclearmap.a"
for script in "$root"/usr/share/clearmap/python/*.py "$root"/usr/share/clearmap/view/*.py \
    "$root"/usr/share/clearmap/gateway/*.py "$root"/usr/share/clearmap/fleet/*.py \
    "$root"/usr/share/clearmap/examples/*.py; do
    sed -i '1s|^#!/usr/bin/env python3$|#!/usr/bin/python3|' "$script"
done
mkdir -p "$root/usr/lib/python3/dist-packages" # where Debian's python3 finds it
ln -s ../../../share/clearmap/python/clearmap "$root/usr/lib/python3/dist-packages/clearmap"
find "$root/usr/share/man" -type f -exec gzip -9n {} +

take() { # take PACKAGE PATH ..: moves files or folders to another package
    to=$roots/$1
    shift
    for path in "$@"; do
        mkdir -p "$to${path%/*}"
        mv "$root$path" "$to${path%/*}/"
    done
}
take libclearmap2 "$lib/libclearmap.so.2"
take libclearmap-dev /usr/include "$lib" /usr/share/clearmap/cmake /usr/share/pkgconfig

copyright() {
    echo 'Format: https://www.debian.org/doc/packaging-manuals/copyright-format/1.0/'
    echo 'Upstream-Name: clearmap'
    echo
    echo 'Files: *'
    sed -n 's/^Copyright (c) /Copyright: /p' LICENSE
    echo 'License: Expat'
    sed '1,/^Copyright/d; /^$/{1d}' LICENSE | sed 's/^$/./; s/^/ /' | sed '1{/^ \.$/d}'
}

changelog() { # changelog: one entry, which says what there is
    printf 'clearmap (%s) unstable; urgency=medium\n\n' "$version"
    printf '  * The program with its clients and tools, the library, and its headers.\n\n'
    printf ' -- %s  %s\n' "$maintainer" "$(LC_ALL=C date -u -R -d "@$date")"
}

libc_of() { # libc_of FILE: the C library that it wants
    needed=$(objdump -T "$1" | sed -n 's/.*GLIBC_\([0-9.]*\).*/\1/p' | sort -V | tail -n 1)
    echo "libc6 (>= $needed)"
}

package() { # package NAME SECTION FIELD ..: writes it; the description comes on standard input
    name=$1 section=$2 place=$roots/$1
    shift 2
    mkdir -p "$place/usr/share/doc/$name" "$place/DEBIAN"
    copyright > "$place/usr/share/doc/$name/copyright"
    changelog | gzip -9n > "$place/usr/share/doc/$name/changelog.gz"
    (cd "$place" && find usr -type f -print0 | LC_ALL=C sort -z | xargs -0 md5sum) \
        > "$place/DEBIAN/md5sums"
    {
        printf '%s\n' "Package: $name" 'Source: clearmap' "Version: $version" \
            "Architecture: $arch" "Maintainer: $maintainer" "Section: $section" \
            'Priority: optional' "Installed-Size: $(du -sk --exclude=DEBIAN "$place" | cut -f 1)" \
            "$@"
        cat
    } > "$place/DEBIAN/control"
    find "$place" -exec touch -h -d "@$date" {} +
    file=$folder/${name}_${version}_$arch.deb
    dpkg-deb --root-owner-group --build "$place" "$file" > /dev/null
    echo "$file"
}

libc=$(libc_of "$root/usr/bin/clearmap")
package clearmap science "Depends: $libc, python3" \
    "Recommends: libclearmap2 (= $version), python3-numpy, python3-pil" \
    "Suggests: python3-aiohttp, python3-redis, python3-uvloop, python3-rospy, \
python3-nav-msgs, python3-map-msgs, python3-sensor-msgs, python3-visualization-msgs, \
python3-roslaunch, redis-server, rviz" << 'DESCRIPTION'
Description: clearance maps of robots, with a proved server
 Distances of each cell of a map to its nearest obstacle, by three metrics,
 and a server of one map that painters change while planners ask about the
 version that they have pinned. The program is proved.
 .
 A client for Python, a page for the browser (clearmap-view), a node of ROS
 (clearmap-ros-node) and conversions of ROS's maps are tested, not proved.
DESCRIPTION

mkdir "$roots/libclearmap2/DEBIAN"
echo "libclearmap 2 libclearmap2 (>= $version)" > "$roots/libclearmap2/DEBIAN/shlibs"
echo 'activate-noawait ldconfig' > "$roots/libclearmap2/DEBIAN/triggers"
libc=$(libc_of "$roots/libclearmap2$lib/libclearmap.so.2")
package libclearmap2 libs "Depends: $libc" 'Multi-Arch: same' << 'DESCRIPTION'
Description: exact distances to the nearest obstacle of a map
 Distances and nearest obstacles of a map in the caller's own memory: of all
 cells of some rows, of one cell, of a rectangle or along a path. What each
 call does is proved.
DESCRIPTION

package libclearmap-dev libdevel "Depends: libclearmap2 (= $version)" << 'DESCRIPTION'
Description: exact distances to the nearest obstacle of a map, headers
 Headers for C and C++ and the static library of libclearmap2, and the client
 for C++ of the server in the package clearmap, found by pkg-config and CMake.
 The headers are tested and not proved.
DESCRIPTION
