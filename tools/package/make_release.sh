#!/bin/sh
# Writes what a release has into a folder: the packages for Debian, the wheels, the sources of this
# commit, the gate's log, what it said in two lines, and SHA256SUMS of all that. The program and the
# library have to be built (`make release` does). ARM is in it where `make lib-arm` was run.
#   tools/package/make_release.sh FOLDER GATE_LOG
#   tools/package/make_release.sh --check GATE_LOG  (only whether there may be a release)
set -eu
refuse() {
    echo "make_release.sh: $1" >&2
    exit 1
}
[ $# = 2 ] || { echo 'make_release.sh: name the folder and the log of the gate' >&2; exit 2; }
wanted='.ci/run 2>&1 | tee gate.log'
[ -f "$2" ] || refuse "there is no $2, the log of a gate that passed: $wanted"
log=$(realpath "$2")
folder=''
if [ "$1" != --check ]; then
    mkdir -p "$1"
    folder=$(cd "$1" && pwd)
fi
cd "$(dirname "$0")/../.."
commit="commit $(git rev-parse HEAD)"
said=$(tail -n 1 "$log")
case $said in
    *' passed, 0 failed') ;;
    *) refuse "$2 is no log of a gate that passed: $wanted" ;;
esac
grep -qx "$commit" "$log" || refuse "$2 is the log of another commit: $wanted"
[ -z "$(git status --porcelain --untracked-files=no)" ] \
    || refuse 'there are changes that are not committed'
version=$(sed -n 's/^version = "\(.*\)"/\1/p' clients/python/pyproject.toml)
grep -q "^## $version\$" CHANGELOG.md || refuse "CHANGELOG.md says nothing of $version"
[ -n "$folder" ] || exit 0
rm -f "$folder"/*
tools/package/make_deb.sh "$folder" > /dev/null
clients/python/build_wheel.py "$folder" > /dev/null
git archive --prefix="clearmap-$version/" -o "$folder/clearmap-$version.tar.gz" HEAD
gzip -9n < "$log" > "$folder/gate-$version.log.gz"
printf '%s\n%s\n' "$commit" "$said" > "$folder/gate-$version.txt"
(cd "$folder" && sha256sum clearmap* gate* libclearmap* > SHA256SUMS && cat SHA256SUMS)
