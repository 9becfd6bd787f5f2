#!/bin/sh
# Installs below PREFIX what the gate built, or takes it away again:
#
#     bin/vx              the program
#     include/            vx.h, vx_arrow.h, and vx.hpp for C++
#     lib/                libvx.a, libvx.so.VERSION and its links, and what pkg-config and CMake read
#     share/              manual pages, completions for bash, zsh and fish, the license and the changes
#     share/vx/installed  the list of these files, and of the folders that were made for them
#
# An earlier installation is taken away first, by its list. No file says where it is, so that PREFIX may be moved. With
# the variable DESTDIR all of it is put below that folder. Where PREFIX/lib is one of the system's folders of libraries, as
# /usr/local/lib is, `ldconfig` tells the system of the library.
#
#     tools/install.sh PREFIX
#     tools/install.sh --uninstall PREFIX
#
# Run it after the gate. Where the library isn't there, it is built (tools/library.sh).
set -eu
umask 022
uninstalls=false
if [ "${1:-}" = --uninstall ]; then
    uninstalls=true
    shift
fi
case $#${1:-} in
    1/*) prefix=$(realpath -m "${DESTDIR:-}$1") ;;
    *)
        echo "usage: tools/install.sh [--uninstall] PREFIX, which begins with /" >&2
        exit 2
        ;;
esac
cd "$(dirname "$0")/.."
list=share/vx/installed
room=$(mktemp -d)
trap 'rm -r "$room"' EXIT

# Takes away what the list names: the files, and then the folders that are empty without them.
uninstall() {
    [ -e "$prefix/$list" ] || {
        echo "install: nothing was installed below $prefix: there is no $list" >&2
        exit 1
    }
    cp "$prefix/$list" "$room/old"
    grep -v '/$' "$room/old" | (cd "$prefix" && xargs -d '\n' rm -f)
    grep '/$' "$room/old" | sort -r | (cd "$prefix" && xargs -r -d '\n' rmdir --ignore-fail-on-non-empty)
}

# Puts a file under its path, in that mode.
put() {
    install -D -m "$1" "$2" "$room/new/$3"
}

# Puts a file of that mould, which says the version.
filled() {
    sed -e "s/@VERSION@/$version/" -e "s/@MAJOR@/${version%%.*}/" "$1" >"$room/filled"
    put 644 "$room/filled" "$2"
}

# Puts all files below a folder of their own.
gather() {
    [ -x crates/vx/out/vx ] || {
        echo "install: there is no program crates/vx/out/vx: run \`rt ci\` first" >&2
        exit 1
    }
    put 755 crates/vx/out/vx bin/vx
    put 644 bindings/out/libvx.a lib/libvx.a
    put 644 "bindings/out/libvx.so.$version" "lib/libvx.so.$version"
    cp -P "bindings/out/libvx.so.${version%%.*}" bindings/out/libvx.so "$room/new/lib"
    for header in include/*; do
        put 644 "$header" "$header"
    done
    filled bindings/c/vx.pc.in lib/pkgconfig/vx.pc
    for name in vxConfig vxConfigVersion; do
        filled "bindings/cmake/$name.cmake.in" "lib/cmake/vx/$name.cmake"
    done
    tools/help_pages.py crates/vx/out/vx "$room/new/share"
    for document in LICENSE CHANGELOG.md; do
        put 644 "$document" "share/doc/vx/$document"
    done
}

# Makes the folder and those above it, and lists each that wasn't there.
make_folder() {
    [ -d "$prefix/$1" ] && return
    make_folder "$(dirname "$1")"
    mkdir "$prefix/$1"
    echo "$1/" >>"$room/list"
}

# Copies what was gathered, and writes the list.
copy() {
    mkdir -p "$prefix"
    (cd "$room/new" && find . ! -type d | cut -c 3- | LC_ALL=C sort) >"$room/files"
    echo "$list" >>"$room/files"
    while IFS= read -r path; do
        make_folder "$(dirname "$path")"
    done <"$room/files"
    cat "$room/files" >>"$room/list"
    put 644 "$room/list" "$list"
    while IFS= read -r path; do
        cp -P "$room/new/$path" "$prefix/$path"
    done <"$room/files"
}

if $uninstalls; then
    uninstall
    echo "uninstalled: what was below $prefix"
    exit
fi
version=$(sed -n 's/^#define VX_VERSION "\(.*\)"$/\1/p' include/vx.h)
[ -e "bindings/out/libvx.so.$version" ] || tools/library.sh
gather
[ ! -e "$prefix/$list" ] || uninstall
copy
echo "installed: $(wc -l <"$room/files") files below $prefix"
