#!/bin/sh
# Installs what was built into a folder (tools/install.sh), moves that elsewhere, and tries it from outside the repository:
# the programs of bindings/tests/outside find the library by pkg-config and by CMake, shared and static, the manual pages
# are laid out without a warning, and the shells complete. Then nothing is left where it is uninstalled. Ends with a line
# `install: N passed, M failed`, and with status 1 where something failed. What lacks here is named, and left out.
#
#     tools/install_test.sh
set -eu
cd "$(dirname "$0")/.."
outside=$PWD/bindings/tests/outside
room=$(mktemp -d)
trap 'rm -r "$room"' EXIT
prefix=$room/moved/vx
completions=$prefix/share
passed=0
failed=0

# Runs the rest of the line, which is what the first word says, where the second is a command that is here.
try() {
    what=$1
    if ! command -v "$2" >/dev/null; then
        echo "install: $what wasn't tried, without $2"
        return
    fi
    shift 2
    if "$@"; then
        passed=$((passed + 1))
    else
        failed=$((failed + 1))
        echo "install: $what FAILED"
    fi
}

# Whether the command prints these lines.
prints() {
    wanted=$1
    shift
    [ "$(LD_LIBRARY_PATH=$prefix/lib "$@")" = "$wanted" ]
}

c_prints() {
    prints 'bool?
bytes 0 to 6' "$1"
}

cpp_prints() {
    prints 'bool?
1
0
1' "$1"
}

# Twice: what the list has of an earlier one is taken away first, and a file of others stays.
installs() {
    export DESTDIR="$room/staged"
    tools/install.sh /opt/vx >/dev/null && touch "$DESTDIR/opt/vx/lib/other" "$DESTDIR/opt/vx/lib/earlier" &&
        echo lib/earlier >>"$DESTDIR/opt/vx/share/vx/installed" && tools/install.sh /opt/vx &&
        mkdir "$room/moved" && mv "$DESTDIR/opt/vx" "$prefix" || return 1
    unset DESTDIR
    [ ! -e "$prefix/lib/earlier" ] && prints "vx $(sed -n 's/^#define VX_VERSION "\(.*\)"$/\1/p' include/vx.h)" "$prefix/bin/vx" --version
}

# A program of that compiler and source, with the library that pkg-config finds, and with the static one.
by_pkg_config() {
    export PKG_CONFIG_PATH="$prefix/lib/pkgconfig"
    flags=$(pkg-config --cflags --libs 'vx >= 0.1')
    includes=$(pkg-config --cflags vx)
    archive=$(pkg-config --variable=libdir vx)/libvx.a
    # shellcheck disable=SC2086
    "$1" -o "$room/shared" "$outside/$2" $flags && "$3" "$room/shared" &&
        readelf -d "$room/shared" | grep -q 'NEEDED.*\[libvx.so.0\]' &&
        "$1" -o "$room/static" "$outside/$2" $includes "$archive" && "$3" "$room/static"
}

cmake_of() {
    cmake -S "$outside" -B "$room/build_$1" -DCMAKE_PREFIX_PATH="$prefix" -DASKED="$1" >"$room/cmake.log" 2>&1
}

by_cmake() {
    if ! cmake_of 0.1 || ! cmake --build "$room/build_0.1" >"$room/cmake.log" 2>&1; then
        cat "$room/cmake.log"
        return 1
    fi
    for kind in vx shared static; do
        c_prints "$room/build_0.1/c_$kind" && cpp_prints "$room/build_0.1/cpp_$kind" || return 1
    done
}

# A later version, or one of another major number, isn't found.
other_versions() {
    ! cmake_of 0.2 && ! cmake_of 1.0
}

manual() {
    for page in "$prefix"/share/man/man1/*; do
        LC_ALL=C.UTF-8 MANWIDTH=80 man --warnings -E UTF-8 -l -Tutf8 -Z "$page" 2>>"$room/warnings" >/dev/null
    done
    [ ! -s "$room/warnings" ] && MANPATH=$prefix/share/man man -P cat vx-filter | grep -q -e '--count'
}

bash_completes() {
    # shellcheck disable=SC2016
    prints 'filter json csv --decimals' bash -c '
        . "$1"
        completed() { COMP_WORDS=("$@"); COMP_CWORD=$(($# - 1)); _vx; echo "${COMPREPLY[@]}"; }
        echo $(completed vx fi) $(completed vx eval x --format "") $(completed vx check --dec)' \
        bash "$completions/bash-completion/completions/vx"
}

zsh_completes() {
    # shellcheck disable=SC2016
    zsh -f -c '
        _arguments() { print -rl -- "$words[1]" "$@" }
        words=(vx filter x ""); CURRENT=4
        . "$1"' zsh "$completions/zsh/site-functions/_vx" >"$room/zsh" &&
        [ "$(head -n 1 "$room/zsh")" = filter ] && grep -q '^--output\[.*\]:FORM:(json csv table)$' "$room/zsh"
}

fish_completes() {
    # shellcheck disable=SC2016
    HOME=$room fish -c '
        source $argv[1]
        complete -C "vx fi"; complete -C "vx eval x --output t"; complete -C "vx plan --chu"' \
        "$completions/fish/vendor_completions.d/vx.fish" | cut -f 1 >"$room/fish"
    [ "$(tr '\n' ' ' <"$room/fish")" = 'filter table --chunks ' ]
}

# The file of others alone is left.
uninstalls() {
    tools/install.sh --uninstall "$prefix" >/dev/null
    [ "$(cd "$prefix" && find . | tr '\n' ' ')" = '. ./lib ./lib/other ' ]
}

try "the installation" sh installs
try "a C program by pkg-config" pkg-config by_pkg_config gcc program.c c_prints
try "a C++ program by pkg-config" pkg-config by_pkg_config g++ program.cpp cpp_prints
try "programs by CMake" cmake by_cmake
try "another version by CMake" cmake other_versions
try "manual pages" man manual
try "bash" bash bash_completes
try "zsh" zsh zsh_completes
try "fish" fish fish_completes
try "what is left" sh uninstalls
echo "install: $passed passed, $failed failed"
[ "$failed" -eq 0 ]
