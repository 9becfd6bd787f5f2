#!/bin/sh
# Whether README.md, docs/embed/GUIDE.md and docs/use/PROGRAM.md show what is proved and run. Each block of Rattle
# has to stand in a file of crates/*/src, line by line, but for indentation and empty lines; where its
# first line names a file, in that one. Its `use` lines may stand apart from the rest there, and name
# less than the file does; `crate` in a file is the name of its crate. Each screen, a block of
# `console`, has to be a stored run of runs/*/*.txt, byte for byte. Prints where each block is that
# doesn't stand so, and its first line; then the status is 1. So it is where docs/develop/MAP.md has another table of
# crates than crates.txt gives (tools/map.py).
set -eu
cd "$(dirname "$0")/.."
status=0
tools/map.py --check || status=1
python3 - README.md docs/embed/GUIDE.md docs/use/PROGRAM.md <<'PYTHON' || status=1
import pathlib, re, sys

USE = re.compile(r"^[ \t]*(?:pub )?use ([^;]+);\n?", re.MULTILINE)
NAMED = re.compile(r"^// (crates/\S+\.rt)\b.*\n")
BLOCK = re.compile(r"^```(rust|console)\n(.*?)^```$", re.MULTILINE | re.DOTALL)


def names(tree):
    """The paths that a `use` line names."""
    tree = " ".join(tree.split())
    head, brace, rest = tree.partition("{")
    if not brace:
        return {tree}
    parts, depth, part = [], 0, ""
    for c in rest[: rest.rindex("}")]:
        depth += (c == "{") - (c == "}")
        if c == "," and depth == 0:
            parts.append(part)
            part = ""
        else:
            part += c
    parts.append(part)
    return {head + name for p in parts if p.strip() for name in names(p.strip())}


def read(text):
    """The names that a text uses, and its other lines."""
    used = set().union(*map(names, USE.findall(text)))
    lines = [line.strip() for line in USE.sub("", text).splitlines()]
    return used, [line for line in lines if line]


def stands(block, file):
    """Whether the block stands in the file."""
    (used, lines), (all_used, all_lines) = block, file
    count = len(lines)
    starts = range(len(all_lines) - count + 1)
    return used <= all_used and any(all_lines[i : i + count] == lines for i in starts)


def is_passage(block):
    """Whether the block of Rattle stands in the file that it names, or in one of all."""
    named = NAMED.match(block)
    block = read(NAMED.sub("", block))
    among = [files[named[1]]] if named and named[1] in files else [] if named else files.values()
    return any(stands(block, file) for file in among)


screens = {path.read_text() for path in pathlib.Path("runs").glob("*/*.txt")}
files = {}
for path in pathlib.Path("crates").glob("*/src/**/*.rt"):
    crate = path.parts[1]
    files[str(path)] = read(re.sub(r"\bcrate::", crate + "::", path.read_text()))

failed = count = 0
for document in sys.argv[1:]:
    text = pathlib.Path(document).read_text()
    for match in BLOCK.finditer(text):
        kind, block = match.groups()
        count += 1
        if block not in screens if kind == "console" else not is_passage(block):
            failed += 1
            line = text.count("\n", 0, match.start()) + 1
            place = "no stored run" if kind == "console" else "in no file"
            print(f"{document}:{line}: {place}: {block.splitlines()[0]}")
print(f"guide: {count} blocks, {failed} failed")
sys.exit(failed > 0)
PYTHON
exit "$status"
