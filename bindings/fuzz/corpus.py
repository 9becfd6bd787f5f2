#!/usr/bin/env python3
"""The inputs with which calls.c begins: each expression of bindings/tests/expressions.tsv in each call, a batch in each
of those that take one, and what earlier runs found, as the lines of corpus.txt have it.

usage: corpus.py read FOLDER        writes a file for each input into the folder
       corpus.py write FOLDER       adds the files of the folder that are new to corpus.txt, the shortest ones
"""
import codecs
import hashlib
import pathlib
import sys

HERE = pathlib.Path(__file__).resolve().parent
KEPT = HERE / "corpus.txt"
# How many inputs are added at most.
MOST = 200
TEXT_CALLS, BATCH_CALLS = range(6), range(6, 10)
SCHEMA = b"{x=i32?, s=utf8, l=list(bool)?, f=fixed_size_list(i8)[2], g=f64?}"
BATCH = [b"", b"\1", b"\1\0\0\0\2\0\0\0", b"", b"\0\0\0\0\1\0\0\0\3\0\0\0", b"t\303\244", b"\3"]
BATCH += [b"\0\0\0\0\1\0\0\0\2\0\0\0", b"\3", b"\2", b"\3", b"\17", b"\1\2\3\4", b"\1", bytes(6) + b"\360\77" + bytes(6) + b"\370\177"]
EXPRESSIONS = [b"$", b"x + 1", b'x > 1 and s like "t%"', b"l", b"g + 1.5 > 2.0", b"x + 2147483647"]


def inputs():
    for line in (HERE.parent / "tests" / "expressions.tsv").read_text(encoding="utf-8").splitlines():
        expression, schema, records, statistics = line.replace("¶", "\n").encode().split(b"\t")
        for call in TEXT_CALLS:
            yield bytes([call, 255, 0]) + b"\x1f".join([expression, schema, statistics if call == 5 else records])
    for call in BATCH_CALLS:
        for expression in EXPRESSIONS:
            yield bytes([call, 34, 0]) + b"\x1f".join([expression, SCHEMA, *BATCH])
    for line in KEPT.read_bytes().splitlines():
        yield codecs.escape_decode(line)[0]


def main(what, folder):
    folder = pathlib.Path(folder)
    if what == "read":
        for it in inputs():
            (folder / hashlib.sha256(it).hexdigest()[:16]).write_bytes(it)
        return
    known = set(inputs())
    new = sorted({path.read_bytes() for path in folder.iterdir()} - known, key=lambda it: (len(it), it))
    with KEPT.open("ab") as kept:
        kept.writelines(codecs.escape_encode(it)[0] + b"\n" for it in new[:MOST])


if __name__ == "__main__":
    if len(sys.argv) != 3 or sys.argv[1] not in ("read", "write"):
        sys.exit(__doc__.rsplit("\n", 3)[1])
    main(*sys.argv[1:])
