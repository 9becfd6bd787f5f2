#!/bin/sh
# Makes a release of the commit that is checked out: runs the gate, and writes into a new folder
#
#     vx-VERSION-SYSTEM.tar.gz    the program, the library and all else that tools/install.sh installs
#     vx-VERSION-*.whl            the Python package with the library (tools/wheel.sh)
#     vx-VERSION.crate            the Rust package
#     vx-VERSION.tar.gz           the sources
#     AUDIT.md                    what is proved, tested and trusted (tools/audit.py)
#     RELEASE                     the version, the commit, the kit, how to install it, and how the gate ended
#     SHA256SUMS                  the checksums of these, for `sha256sum -c`
#
#     tools/release.sh FOLDER
#     tools/release.sh --without-gate FOLDER      to try it, over what an earlier gate built
#
# The times in the files are that of the commit, so that two releases of it are alike: `diff -r` of the folders shows
# what isn't.
set -eu
gate=true
if [ "${1:-}" = --without-gate ]; then
    gate=false
    shift
fi
[ $# -eq 1 ] || {
    echo "usage: tools/release.sh [--without-gate] FOLDER" >&2
    exit 2
}
umask 022
mkdir "$1"
folder=$(realpath "$1")
cd "$(dirname "$0")/.."
room=$(mktemp -d)
trap 'rm -r "$room"' EXIT
version=$(sed -n 's/^#define VX_VERSION "\(.*\)"$/\1/p' include/vx.h)
name=vx-$version
installed=$name-$(uname -s | tr '[:upper:]' '[:lower:]')-$(uname -m)
SOURCE_DATE_EPOCH=$(git log -1 --format=%ct)
export SOURCE_DATE_EPOCH

# The gate, and the last line of each of its tools.
run_gate() {
    if ! .ci/run >"$room/gate.log" 2>&1; then
        tail -40 "$room/gate.log"
        echo "release: the gate failed"
        exit 1
    fi
    grep -E '^([a-z]+: )?[0-9]+ [^:]*, [0-9]+ (failed|bad)$' "$room/gate.log" >"$room/ended"
}

# What tools/install.sh installs.
pack_installed() {
    DESTDIR=$room tools/install.sh "/$installed"
    tar -C "$room" --sort=name --mtime="@$SOURCE_DATE_EPOCH" --owner=0 --group=0 --numeric-owner -cf - "$installed" |
        gzip -9n >"$folder/$installed.tar.gz"
}

pack_rust() {
    (cd bindings/rust && cargo package -q --offline --no-verify --allow-dirty --target-dir "$room/cargo")
    cp "$room/cargo/package/$name.crate" "$folder"
}

pack_sources() {
    git archive --format=tar --prefix="$name/" HEAD | gzip -9n >"$folder/$name.tar.gz"
}

if [ -n "$(git status --porcelain)" ]; then
    echo "release: what is here isn't what the commit has"
    git status --short
    exit 1
fi
echo "the gate was left out" >"$room/ended"
: >"$room/gate.log"
! $gate || run_gate
pack_installed
tools/wheel.sh "$folder"
pack_rust
pack_sources
tools/audit.py "$room/gate.log" bindings/out/build.log >"$folder/AUDIT.md"
{
    echo "vx $version"
    echo "commit $(git rev-parse HEAD)"
    rt version
    echo "unpack $installed.tar.gz where it may stay, or into a PREFIX by tar -C PREFIX --strip-components=1 -xf"
    cat "$room/ended"
} >"$folder/RELEASE"
(cd "$folder" && LC_ALL=C sha256sum -- * >"$room/sums" && mv "$room/sums" SHA256SUMS)
echo "release: $(wc -l <"$folder/SHA256SUMS") files in $folder"
$gate || echo "release: the gate was left out"
