#!/bin/sh
# Fetches Debian packages that hold files of records, unpacks them into a folder of its own, and runs twenty
# filters over each of their CSV, TSV and JSON files (tools/real_files.py): by `vx filter`, whose program is
# what is given, else the one that `rt ci` has built, and by Python's readers. Prints how the records differ,
# and at the end a count; the status is 1 where some do. Needs the network; nothing is installed.
set -eu
cd "$(dirname "$0")/.."
program=$(realpath "${1:-crates/vx/out/vx}")
packages="distro-info-data iso-codes python-matplotlib-data python3-sklearn python3-statsmodels
    r-cran-data.table r-cran-readr"
room=$(mktemp -d)
trap 'rm -r "$room"' EXIT
chmod 755 "$room"
# (the names are words)
# shellcheck disable=SC2086
(cd "$room" && apt-get -qq download $packages)
for package in "$room"/*.deb; do
    dpkg-deb -x "$package" "$room/files"
done
find "$room/files" -name '*.csv.gz' -exec gzip -d {} +
python3 tools/real_files.py "$program" "$room/files"
