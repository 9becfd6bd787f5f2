#!/usr/bin/env python3
"""Runs calls over trees and scopes of great width and size, and prints what each takes.

Each is a table of one scope and one line, which the proved program `vx_table_tests` reads, runs through the
public calls and judges: so the answers are compared, too. `rt ci` or `rt run vx_table_tests` has built it.
docs/develop/SIZES.md has what was measured. A size in place of 100,000 may be given: `tools/sizes.py 10000`.
"""
import os
import resource
import subprocess
import sys
import tempfile

PROGRAM = os.path.abspath(os.path.join(os.path.dirname(__file__), "..", "crates/vx_table_tests/out/vx_table_tests"))
SECONDS = 120


def wide(n):
    """A scope of n fields, and the last of them."""
    last = f"c{n - 1}"
    scope = [f"scope | {{{n}*c#=i32?}}", f"batch | {{{n}*7}}"]
    return scope, last, [
        ("type", f"type | {last} | i32?"),
        ("text", f"text | {last} | $.{last}"),
        ("optimized", f"optimized | {last} | $.{last} : i32?"),
        ("rows", f"rows | {last} | [7i32]"),
        ("paths", f"paths | {last} | $.{last}"),
        ("planned split", f"planned split | {last} | root: $.{last}.{last}_0 {{{last}: pack({last}_0: $.{last})}}"),
        ("scan", f"scan | {last} | [7i32] : i32?"),
    ]


def chosen(n):
    """A scope of n fields, of which a selection keeps half or leaves half out; a pack of all of them."""
    names = [f"c{i}" for i in range(n)]
    half, last = ", ".join(names[: n // 2]), names[-1]
    scope = [f"scope | {{{n}*c#=i32?}}", f"batch | {{{n}*7}}"]
    return scope, None, [
        ("type of half of them", f"type | ${{{half}}}.c0 | i32?"),
        ("type of the others", f"type | ${{~ {half}}}.{last} | i32?"),
        ("rows of the others", f"rows | ${{~ {half}}}.{last} | [7i32]"),
        ("paths of the others", f"paths | ${{~ {half}}}.{last} | $.{last}"),
        ("optimized item of a pack", f"optimized | pack({', '.join(f'{it}: {it}' for it in names)}).{last} | $.{last} : i32?"),
    ]


def conjuncts(n):
    """n conjuncts over one field, in a chain, which is joined in rounds."""
    tree = f"times({n - 1}) a >= # and end a >= {n - 1}"
    rounds, left = 0, n
    while left > 1:
        rounds, left = rounds + 1, (left + 1) // 2
    return ["scope | {a=i32}", f"batch | {{{n}}} {{0}}"], None, [
        ("depth", f"depth | {tree} | {rounds + 3}"),
        ("type", f"type | {tree} | bool"),
        ("optimized or none", f"optimized or none | {tree} | none"),
        ("fused as", f"fused as | {tree} | {tree} | equal"),
        ("rows", f"rows | {tree} | [true, false]"),
        ("paths", f"paths | {tree} | $.a"),
        ("size", f"size | {tree} | {5 * n - 1}"),
        ("covers", f"covers | {tree} | true"),
        ("split rows", f"split rows | {tree} | [true, false]"),
        ("query", f"query | all fuse split | {tree} | [true, false]"),
        ("scan", f"scan | {tree} | [true, false] : bool"),
    ]


def ranges(n, joined=None):
    """n fields, each between two bounds: the lower bounds all before the upper ones, joined in rounds or
    in a chain to the right."""
    last = f"c{n - 1}"
    lower, upper = (f"times({n - 1}) c# {sign} and end {last} {sign}" for sign in (">= 0", "< 9"))
    tree = joined or f"({lower}) and ({upper})"
    return [f"scope | {{{n}*c#=i32}}", f"batch | {{{n}*7}}"], None, [
        ("type", f"type | {tree} | bool"),
        ("fused rows", f"fused rows | {tree} | [true]"),
        ("query", f"query | fuse split | {tree} | [true]"),
        ("scan", f"scan | {tree} | [true] : bool"),
    ]


def chained(n):
    """The same in a chain to the right."""
    lower, upper = f"times({n}) c# >= 0 and ( end", f"times({n - 1}) c# < 9 and ( end c{n - 1} < 9"
    return ranges(n, f"{lower} {upper} times({2 * n - 1}) ) end")


def name(n):
    """A name of ten times n bytes."""
    word = "n" * (10 * n)
    return [f"scope | {{{word}=i32}}", "batch | {7}"], None, [
        ("type", f"type | {word} | i32"),
        ("text length", f"text length | {word} | {10 * n + 2}"),
        ("rows", f"rows | {word} | [7i32]"),
        ("paths", f"paths | {word} | $.{word}"),
        ("scan", f"scan | {word} | [7i32] : i32"),
    ]


def twice(n):
    """A field that is kept twice, n times over: its type has 2^n fields at the bottom."""
    tree = f"times({n}) pack(x: end x times({n}) ){{x, x}} end"
    item = f"{tree} times({n}) .x end"
    return ["scope | {x=i32}", "batch | {7}"], None, [
        ("size", f"size | {tree} | {2 * n + 2}"),
        ("rows", f"rows | {item} | [7i32]"),
        ("optimized rows", f"optimized rows | {item} | [7i32]"),
    ]


def joined(items):
    """The text of a chain of the items: neighbours are joined in pairs, round after round."""
    while len(items) > 1:
        pairs = [f"({lhs} and {rhs})" for lhs, rhs in zip(items[::2], items[1::2])]
        items = pairs + items[len(items) & ~1 :]
    return items[0]


def texts(n):
    """Great texts: of 100 n bytes, of 10 n brackets, of a thousand digits, of n conjuncts and n items."""
    most = 100 * n
    number = "expected a number in its type's range: i32, f64 with a point, or one with a suffix of i8, i16, i32, i64, u8, u16, u32, u64"
    items = ", ".join(["1"] * n)
    return [], None, [
        ("blanks", f"parse | x{' ' * most}+ 1 | ($.x + 1i32)"),
        ("a text", f'parse | "{"a" * most}" | "{"a" * most}"'),
        ("a field", f"parse | {'a' * most} | $.{'a' * most}"),
        ("brackets", f"parse | {'(' * (10 * n)} | at byte 200: expected less nesting"),
        ("`case when`", f"parse | {'case when ' * (10 * n)} | at byte 2000: expected less nesting"),
        ("digits", f"parse | {'9' * 1000}u64 | at byte 0: {number}"),
        ("conjuncts", f"parse | {' and '.join(f'a >= {i}' for i in range(n))} | {joined([f'($.a >= {i}i32)' for i in range(n)])}"),
        ("items", f"parse | [{items}]::list(u8) | [{items}]::list(u8)"),
    ]


def measured(scope, line):
    """The seconds and the bytes at the peak that the line takes, and whether it was answered."""
    with tempfile.TemporaryDirectory() as room:
        with open(os.path.join(room, "one.table"), "w", encoding="utf-8") as table:
            table.write("\n".join([*scope, line]) + "\n")
        before = resource.getrusage(resource.RUSAGE_CHILDREN).ru_utime
        try:
            ran = subprocess.run([PROGRAM, "one.table"], cwd=room, capture_output=True, text=True, timeout=SECONDS)
        except subprocess.TimeoutExpired:
            return f"over {SECONDS} s", ""
        usage = resource.getrusage(resource.RUSAGE_CHILDREN)
        if ran.returncode == 0:
            return f"{usage.ru_utime - before:.2f} s", ""
        if ran.returncode < 0:
            return f"killed by signal {-ran.returncode}", ""
        return "ANOTHER ANSWER", ran.stdout[:300]


def main():
    n = int(sys.argv[1]) if len(sys.argv) > 1 else 100_000
    shapes = [
        (f"{n} fields", wide(n)),
        (f"{n} fields, chosen", chosen(n)),
        (f"{n} conjuncts", conjuncts(n)),
        (f"{n // 100} ranges", ranges(n // 100)),
        (f"{n // 100} ranges in a chain", chained(n // 100)),
        (f"a name of {10 * n} bytes", name(n)),
        (f"texts of {100 * n} bytes", texts(n)),
        *[(f"kept twice {k} times over", twice(k)) for k in (5, 10, 15)],
    ]
    print("| Shape | Line | Time |\n|---|---|---:|")
    wrong = False
    for shape, (scope, _, lines) in shapes:
        empty, _ = measured(scope, "text | 1 | 1i32")
        print(f"| {shape} | nothing but the scope and its batch | {empty} |", flush=True)
        for call, line in lines:
            took, said = measured(scope, line)
            wrong |= bool(said)
            print(f"| {shape} | {call} | {took} |{said}", flush=True)
    return 1 if wrong else 0


if __name__ == "__main__":
    sys.exit(main())
