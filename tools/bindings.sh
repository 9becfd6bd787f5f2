#!/bin/sh
# Builds the library of include/vx.h (tools/library.sh), and runs what tests it: the header against the exports,
# the tests in C, C++, Python and Rust, texts of ten megabytes through each call, random buffers and columns of
# Arrow's through each under sanitizers, what docs/embed/FFI.md shows, the programs of examples, the wheel and the
# installation (tools/wheel.sh, tools/install_test.sh), and the 216 expressions of bindings/tests, which the program
# and the three languages have to answer alike. Ends with a line `bindings: N passed, M failed`, and with status 1
# where something failed.
#
#     tools/bindings.sh [BUFFERS]     so many random buffers through each call, 100,000 where none is said
#
# Run it after the gate, over the crates that this proved. Compilers that aren't there are installed of Debian's
# packages, where that is allowed.
set -eu
cd "$(dirname "$0")/.."
buffers=${1:-100000}
top=$PWD
out=$top/bindings/out
mkdir -p "$out"
passed=0
failed=0

# Runs the rest of the line, which is what the first word says.
try() {
    what=$1
    shift
    if "$@"; then
        passed=$((passed + 1))
    else
        failed=$((failed + 1))
        echo "bindings: $what FAILED"
    fi
}

# Installs the package where there is no such command.
need() {
    if ! command -v "$1" >/dev/null; then
        apt-get update -qq && apt-get install -qq --no-install-recommends "$2" >/dev/null
    fi
}

# The shared library's own name, by which a program that is linked to it finds it.
named() {
    readelf -d "$out/libvx.so" | grep -q "SONAME.*\[libvx.so.0\]" &&
        g++ -std=c++17 -Iinclude -pthread -o "$out/test_shared" bindings/cpp/test.cpp "$out/libvx.so" &&
        LD_LIBRARY_PATH=$out "$out/test_shared"
}

# The C program, in four builds, of which two have Arrow's columns under sanitizers; the headers are C++, too.
c_program() {
    flags="-std=c11 -Wall -Wextra -Wpedantic -Werror -Iinclude -Wl,--wrap=malloc,--wrap=realloc -pthread"
    gcc $flags -O1 -o "$out/test" bindings/c/*.c "$out/libvx.a" &&
        gcc $flags -O2 -o "$out/test" bindings/c/*.c "$out/libvx.a" &&
        gcc $flags -O1 -g -fsanitize=address,undefined -fno-sanitize-recover=undefined \
            -o "$out/test_sanitized" bindings/c/*.c bindings/arrow/*.c "$out/libvx.a" &&
        gcc $flags -Wl,--wrap=free -O1 -g -fsanitize=thread \
            -o "$out/test_threads" bindings/c/*.c bindings/arrow/*.c "$out/libvx.a" &&
        g++ -std=c++11 -Wall -Wextra -Wpedantic -Werror -fsyntax-only -x c++ include/vx.h &&
        g++ -std=c++11 -Wall -Wextra -Wpedantic -Werror -fsyntax-only -x c++ include/vx_arrow.h
}

# As it is, and under the thread sanitizer, which some kernels run only where addresses aren't by chance.
threads() {
    "$out/test" threads && "$out/test_threads" threads || setarch "$(uname -m)" -R "$out/test_threads" threads
}

cpp_program() {
    flags="-std=c++17 -Wall -Wextra -Wpedantic -Werror -Iinclude"
    g++ $flags -O1 -g -fsanitize=address,undefined -fno-sanitize-recover=undefined \
        -pthread -o "$out/test_cpp" bindings/cpp/test.cpp "$out/libvx.a" && "$out/test_cpp"
}

python_tests() {
    VX_LIBRARY=$out/libvx.so python3 -m unittest discover -q -s bindings/python/tests
}

# The Python that Debian's packages are for, with the package that has the module.
debian_python() {
    if ! /usr/bin/python3 -c "import $1" 2>/dev/null; then
        apt-get update -qq && apt-get install -qq --no-install-recommends "$2" >/dev/null
    fi
}

# The same of numpy's arrays.
numpy_tests() {
    debian_python numpy python3-numpy && for tests in test_numpy test_capsules test_days test_floats; do
        VX_LIBRARY=$out/libvx.so /usr/bin/python3 -m unittest discover -q -s bindings/python/tests -p "$tests.py" || return 1
    done
}

# The programs of examples: a table in chunks, scanned by Python, which numpy checks, and alike by C++.
examples() {
    rm -rf "$out/chunks"
    debian_python numpy python3-numpy && /usr/bin/python3 examples/make_chunks.py "$out/chunks" &&
        VX_LIBRARY=$out/libvx.so PYTHONPATH=bindings/python /usr/bin/python3 examples/scan.py "$out/chunks" \
            >"$out/scan_python.txt" &&
        g++ -std=c++17 -Wall -Wextra -Wpedantic -Werror -O2 -Iinclude -pthread -o "$out/scan" examples/scan.cpp \
            "$out/libvx.a" && "$out/scan" "$out/chunks" >"$out/scan_cpp.txt" &&
        diff "$out/scan_python.txt" "$out/scan_cpp.txt"
}

# A wheel that holds the library is for this system, and is whole: installed where nothing else is, it runs the examples
# of its docstrings.
wheel() {
    rm -rf "$out/wheel"
    debian_python setuptools python3-setuptools && debian_python wheel python3-wheel &&
        debian_python ensurepip python3-venv && PYTHON=/usr/bin/python3 tools/wheel.sh "$out/wheel" &&
        /usr/bin/python3 -m venv --clear "$out/venv" &&
        "$out/venv/bin/pip" install -q --no-index "$out/wheel/vx-0.1.0-py3-none-linux_$(uname -m).whl" &&
        (cd "$out/wheel" && env -u VX_LIBRARY "$out/venv/bin/python" "$top/bindings/tests/docstrings.py") |
        tee "$out/docstrings.txt" && grep -q " 0 failed, of $out/venv/" "$out/docstrings.txt"
}

# The types of the package, where there is mypy.
python_types() {
    if ! command -v mypy >/dev/null; then
        echo "bindings: Python's types weren't checked, without mypy"
        return
    fi
    (cd bindings/python && mypy --no-error-summary --cache-dir "$out/mypy" vx)
}

# What the fuzzer begins with, through each call, where there is its compiler.
fuzzer_inputs() {
    if ! command -v clang >/dev/null; then
        echo "bindings: the fuzzer's inputs weren't tried, without clang"
        return
    fi
    tools/fuzz.sh 0
}

rust_tests() {
    (cd bindings/rust && cargo test -q --offline && cargo build -q --offline --lib --examples &&
        RUSTDOCFLAGS="-D warnings" cargo doc -q --offline --no-deps)
}

# Where no variable names the folder of the library, the build says which one has to.
rust_without_library() {
    if (cd bindings/rust && env -u VX_LIBRARY_DIR cargo build -q --offline --lib --target-dir "$out/rust_without") \
        >"$out/rust_without.log" 2>&1; then
        return 1
    fi
    grep -q "VX_LIBRARY_DIR isn't set" "$out/rust_without.log"
}

# What each of them answers of the expressions.
answers() {
    expressions=bindings/tests/expressions.tsv
    python3 bindings/tests/program.py crates/vx/out/vx "$expressions" >"$out/program.txt" &&
        "$out/test" answers "$expressions" >"$out/c.txt" &&
        VX_LIBRARY=$out/libvx.so PYTHONPATH=bindings/python \
            python3 bindings/tests/package.py "$expressions" >"$out/python.txt" &&
        "$CARGO_TARGET_DIR/debug/examples/answers" "$expressions" >"$out/rust.txt" || return 1
    for name in c python rust; do
        diff -u "$out/program.txt" "$out/$name.txt" | head -40
        cmp -s "$out/program.txt" "$out/$name.txt" || return 1
    done
    echo "answers: $(wc -l <"$expressions") expressions, $(grep -c '^# ' "$out/c.txt") answers, alike"
}

need gcc gcc
need g++ g++
need python3 python3
need cargo cargo
export PYTHONDONTWRITEBYTECODE=1 CARGO_TARGET_DIR="$out/rust" VX_LIBRARY_DIR="$out"
try "the library" tools/library.sh
if [ "$failed" -eq 0 ]; then
    try "the header" tools/header.py "$out/libvx.a"
    try "the shared library's name" named
    try "the C program's build" c_program
    try "C" "$out/test"
    try "C under a sanitizer" "$out/test_sanitized"
    try "long texts" "$out/test" long
    try "random buffers" "$out/test_sanitized" fuzz "$buffers" 1
    try "random columns" "$out/test_sanitized" arrow "$buffers" 1
    try "the fuzzer's inputs" fuzzer_inputs
    try "threads over a batch" threads
    try "C++" cpp_program
    try "Python" python_tests
    try "numpy" numpy_tests
    try "Python's types" python_types
    try "the wheel" wheel
    try "the installation" tools/install_test.sh
    try "the examples" examples
    try "Rust" rust_tests
    try "Rust without the library" rust_without_library
    try "docs/embed/FFI.md" env VX_LIBRARY="$out/libvx.so" python3 bindings/tests/guide.py "$out"
    try "the same answers" answers
fi
echo "bindings: $passed passed, $failed failed"
[ "$failed" -eq 0 ]
