#!/bin/sh
# Tries the wrong bodies of planted/, those of the crates that are named or all of them: the prover
# has to refuse each. They stand in a copy of the repository in the place of the gate's own edits,
# and are tried over what `rt check` kept of their crate. docs/audit/PLANTED.md says what they are.
#
# With --changed it tries those of the crates whose src/, specs/ or proofs/, or whose edits, differ
# between a commit and the files as they stand, and of these crates the gate's own, too. It leaves out
# the crates above them, whose edits are tried over a changed contract by the next run for all.
#
# usage: tools/planted.sh [CRATE ..]
#        tools/planted.sh --changed COMMIT
set -eu
cd "$(dirname "$0")/.."

# The crates that differ from the commit and have edits.
changed() {
    {
        git diff --name-only --no-renames "$1" -- crates planted
        git ls-files --others --exclude-standard -- crates planted
    } | sed -nE 's,^crates/([^/]+)/(src|specs|proofs|must-fail)/.*,\1,p; s,^planted/([^/]+)/.*,\1,p' |
        sort -u |
        while read -r crate; do
            set -- "planted/$crate"/*.edit "crates/$crate/must-fail"/*.edit
            for edit in "$@"; do
                [ ! -e "$edit" ] || [ ! -d "crates/$crate/src" ] || { echo "$crate" && break; }
            done
        done
}

own=no
if [ "${1:-}" = --changed ]; then
    own=yes
    git rev-parse --quiet --verify "${2:-}^{commit}" >/dev/null || {
        echo "planted: --changed takes a commit" >&2
        exit 2
    }
    base=$2
    set -- $(changed "$base")
    if [ $# -eq 0 ]; then
        echo "planted: no crate with edits differs from $base"
        exit 0
    fi
    echo "planted: differs from $base: $*"
fi
[ $# -gt 0 ] || set -- $(ls planted)
top=$PWD
room=$(mktemp -d)
trap 'rm -r "$room"' EXIT
tar -cf - --no-wildcards-match-slash --exclude='crates/*/out' --exclude='crates/*/must-fail' \
    crates crates.txt HANDLES | tar -xf - -C "$room"

# What the checkout has proved serves the copy, too, so that it proves only what is changed. It is
# given second names, or copied where these can't be made: rt looks by checksum whether it fits, and
# puts new files in the place of these. Of what a check goes on with (out/incremental) that is only
# sure of the files .oantt, and the others are copied.
for kept in crates/*/out/rlib crates/*/out/incremental; do
    if [ -d "$kept" ]; then
        mkdir -p "$room/${kept%/*}"
        cp -Rlp "$kept" "$room/$kept" 2>"$room/why" || {
            rm -rf "${room:?}/$kept"
            cp -Rp "$kept" "$room/$kept" 2>"$room/why" || rm -rf "${room:?}/$kept"
        }
        find "$room/$kept" -path '*/incremental/*' -type f ! -name '*.oantt' -exec \
            sh -c 'for file; do cp -p "$file" "$file.own" && mv -f "$file.own" "$file"; done' - {} +
    fi
done

cd "$room"
edits=0
for crate in "$@"; do
    to=crates/$crate/must-fail
    mkdir "$to"
    if [ "$own" = yes ]; then
        for edit in "$top/$to"/*.edit "$top/planted/$crate"/*.edit; do
            [ ! -e "$edit" ] || cp "$edit" "$to"
        done
    else
        cp "$top/planted/$crate"/*.edit "$to"
    fi
    edits=$((edits + $(ls "$to" | wc -l)))
    rt must-fail "$crate" | tee -a said
done

# Of how many edits it was said that they came to this.
came_to() {
    grep -c "\.edit: $1" said || true
}

refused=$(came_to refused)
echo "planted: $edits edits, $refused refused, $(came_to 'NOT REFUSED') not refused," \
    "$(came_to 'BAD EDIT') bad"
[ "$edits" -gt 0 ] && [ "$refused" -eq "$edits" ]
