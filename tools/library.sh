#!/bin/sh
# Builds the library of include/vx.h in bindings/out: libvx.a, libvx.so.VERSION of the version in the header, and the
# links libvx.so.MAJOR, which is the name that programs look for, and libvx.so. Ends with status 1, and the last lines
# of bindings/out/build.log, where it can't be built.
#
#     tools/library.sh
#
# Run it after the gate, over the crates that this proved. Elsewhere `rt lib` proves what isn't proved yet.
set -eu
cd "$(dirname "$0")/.."
out=$PWD/bindings/out
version=$(sed -n 's/^#define VX_VERSION "\(.*\)"$/\1/p' include/vx.h)
name=libvx.so.${version%%.*}

# The gate leaves each crate that it proved, as a library without the mark by which `rt lib` would know
# it; so it is named to the compiler here, which proves the exports over these crates and compiles them.
compiled() {
    kit=$(dirname "$(rt doc)")
    set -- --crate-name vx_ffi src/lib.rt --crate-type staticlib
    set -- "$@" --extern "std=$kit/rlibs/std.rlib" -L "dependency=$kit/rlibs"
    uses=$(sed -n 's/^vx_ffi staticlib: //p' crates.txt)
    for crate in $uses; do
        set -- "$@" --extern "$crate=../$crate/out/rlib/$crate.rlib"
    done
    for folder in crates/*/out/rlib; do
        set -- "$@" -L "dependency=../../$folder"
    done
    set -- "$@" --antt-project "$kit/rattle/logic/antt-project.json" --logic-built "$kit/logic_built"
    (cd crates/vx_ffi && mkdir -p out && "$kit/bin/rattle" build "$@" --toolchain "$kit/toolchain" \
        -o out/libvx_ffi.a)
}

# The exports, as crates/vx_ffi/out/libvx_ffi.a.
exports() {
    rlib=crates/vx_ffi_calls/out/rlib
    if [ -d "$rlib" ] && [ ! -e "$rlib/stamp" ]; then
        compiled
    else
        (cd crates/vx_ffi && rt lib)
    fi
}

# The objects of bindings/arrow, which are C.
arrow_objects() {
    mkdir "$out/objects/arrow"
    for file in bindings/arrow/*.c; do
        gcc -std=c11 -Wall -Wextra -Wpedantic -Wconversion -Werror -O2 -fPIC -Iinclude \
            -c "$file" -o "$out/objects/arrow/$(basename "$file" .c).o"
    done
}

# One object of several, in which the calls alone have names for others.
joined() {
    object=$1
    shift
    ld -r -o "$object" "$@"
    objcopy --wildcard --keep-global-symbol="vx_*" "$object"
}

mkdir -p "$out"
rm -rf "$out/objects" "$out"/libvx.*
exports >"$out/build.log" 2>&1 || {
    tail -20 "$out/build.log"
    exit 1
}
mkdir "$out/objects"
arrow_objects
# beside the exports, the three calls of C's allocator that they make
(cd "$out/objects" && ar x ../../../crates/vx_ffi/out/libvx_ffi.a && ar x "$(dirname "$(rt doc)")/c/liblibc_c.a")
joined "$out/vx.o" "$out"/objects/*.o
joined "$out/vx_arrow.o" "$out"/objects/arrow/*.o
cd "$out"
ar rcsD libvx.a vx.o vx_arrow.o
gcc -shared -Wl,-soname,"$name" -Wl,--version-script=../c/exports.map -o "libvx.so.$version" vx.o vx_arrow.o
ln -s "libvx.so.$version" "$name"
ln -s "$name" libvx.so
