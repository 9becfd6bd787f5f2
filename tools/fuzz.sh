#!/bin/sh
# Looks for so many minutes for inputs at which a call of include/vx.h does what none may do: libFuzzer by
# bindings/fuzz/calls.c, which says what that is, over the inputs of bindings/fuzz/corpus.py and what it makes of them;
# and on one processor random buffers and columns (bindings/c), from other seeds each time. With 0 minutes each input is
# run once. It uses all processors, or as many as the variable JOBS says.
#
#     tools/fuzz.sh MINUTES
#     tools/fuzz.sh --keep        adds what the last run made, where it shows something new, to bindings/fuzz/corpus.txt
#
# What it found is written to bindings/out/fuzz/found: an input, which `bindings/out/fuzz/calls FILE` runs again, or a
# seed. Ends with a line `fuzz: N inputs, M found`, and with status 1 where something was found. Run it after
# tools/bindings.sh. It needs clang with libFuzzer, as of Debian's packages clang and libclang-rt-dev.
set -eu
case $#${1:-} in
    1[0-9]* | 1--keep) what=$1 ;;
    *)
        echo "usage: tools/fuzz.sh MINUTES | --keep" >&2
        exit 2
        ;;
esac
cd "$(dirname "$0")/.."
out=$PWD/bindings/out/fuzz
calls=$out/calls

# The inputs that it begins with, and the program.
build() {
    rm -rf "$out"
    mkdir -p "$out/begin" "$out/corpus" "$out/found"
    bindings/fuzz/corpus.py read "$out/begin"
    clang -std=c11 -Wall -Wextra -Wpedantic -Werror -O1 -g -Iinclude -fsanitize=fuzzer,address,undefined \
        -fno-sanitize-recover=undefined -Wl,--wrap=malloc,--wrap=realloc,--wrap=free \
        bindings/fuzz/calls.c bindings/arrow/*.c bindings/out/libvx.a -o "$calls"
}

# libFuzzer, which goes on behind what it finds.
guided() {
    "$calls" -fork="$1" -ignore_crashes=1 -ignore_timeouts=1 -ignore_ooms=1 -max_total_time=$((what * 60)) \
        -max_len=4096 -timeout=60 -rss_limit_mb=2048 -dict=bindings/fuzz/words.dict -artifact_prefix="$out/found/" \
        "$out/corpus" "$out/begin" >"$out/log" 2>&1 || true
}

# Buffers and columns of one seed after another, until the time is over.
random() {
    end=$(($(date +%s) + what * 60))
    seed=$(date +%s)
    while [ "$(date +%s)" -lt "$end" ]; do
        for kind in fuzz arrow; do
            left=$((end - $(date +%s)))
            status=0
            # (0 would be no limit; 124 says that the time was over)
            timeout "$((left > 0 ? left : 1))" bindings/out/test_sanitized "$kind" 10000 "$seed" \
                >"$out/random" 2>&1 || status=$?
            [ "$status" -eq 0 ] || [ "$status" -eq 124 ] || mv "$out/random" "$out/found/$kind-of-seed-$seed"
        done
        seed=$((seed + 1))
    done
}

# Each input once, in one process.
once() {
    "$calls" -runs=0 -artifact_prefix="$out/found/" "$out/begin" >"$out/log" 2>&1 || tail -40 "$out/log"
}

# The inputs that show what those before them don't, beside the ones that it begins with.
keep() {
    rm -rf "$out/kept"
    cp -r "$out/begin" "$out/kept"
    "$calls" -merge=1 "$out/kept" "$out/corpus" >"$out/merge.log" 2>&1
    bindings/fuzz/corpus.py write "$out/kept"
}

if [ "$what" = --keep ]; then
    keep
    echo "fuzz: $(wc -l <bindings/fuzz/corpus.txt) lines in bindings/fuzz/corpus.txt"
    exit
fi
build
if [ "$what" -eq 0 ]; then
    once
else
    jobs=$((${JOBS:-$(nproc)} - 1))
    random &
    guided "$((jobs > 0 ? jobs : 1))"
    wait
fi
found=$(find "$out/found" -type f | wc -l)
echo "fuzz: $(find "$out/begin" "$out/corpus" -type f | wc -l) inputs, $found found"
[ "$found" -eq 0 ]
