#!/bin/sh
# Makes the Python package as a wheel that holds the library, for this system and any Python 3.9 or later: the file
# vx-VERSION-py3-none-PLATFORM.whl in the folder. The same files give the same bytes; the times in it are that of
# SOURCE_DATE_EPOCH, or the first that a wheel can have. It needs setuptools and wheel, as Debian has
# them for /usr/bin/python3 (or another PYTHON), and no network.
#
#     tools/wheel.sh FOLDER
#
# Run it after tools/library.sh.
set -eu
[ $# -eq 1 ] || {
    echo "usage: tools/wheel.sh FOLDER" >&2
    exit 2
}
mkdir -p "$1"
folder=$(realpath "$1")
cd "$(dirname "$0")/.."
room=$(mktemp -d)
trap 'rm -r "$room"' EXIT
cp -r bindings/python/vx bindings/python/setup.py bindings/python/pyproject.toml LICENSE "$room"
cp bindings/out/libvx.so "$room/vx/"
chmod -R u=rwX,go=rX "$room"
cd "$room"
export SOURCE_DATE_EPOCH="${SOURCE_DATE_EPOCH:-315532800}"
"${PYTHON:-/usr/bin/python3}" -c 'import sys; from setuptools import build_meta; build_meta.build_wheel(sys.argv[1])' "$folder" >log 2>&1 || {
    cat log
    exit 1
}
