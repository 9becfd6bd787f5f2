#!/usr/bin/env python3
"""Compares include/vx.h with what crates/vx_ffi exports: each call with its parameters, the structs with
their fields, the numbers of statuses and texts, and the version. With an archive, also that it defines these
calls, those of include/vx_arrow.h and no other. Prints each difference, and at the end how many there are; the status is 1 where there is
one.

    tools/header.py [ARCHIVE]
"""

from __future__ import annotations

import pathlib
import re
import subprocess
import sys
from typing import Iterator

TOP = pathlib.Path(__file__).resolve().parents[1]

EXPORT = re.compile(r'#\[unsafe\(no_mangle\)\]\s+pub (?:unsafe )?extern "C" fn (\w+)\((.*?)\)(?:\s*->\s*(\w+))?', re.DOTALL)
STRUCT = re.compile(
    r"#\[repr\(C\)\]\s+(?:#\[.*?\]\s+)*pub struct (\w+)(?:<.*?>)? \{\n(.*?)^\}", re.DOTALL | re.MULTILINE
)
FIELD = re.compile(r"^    (?:pub )?(?!pub|ghost)(\w+): (.+),$", re.MULTILINE)
ARM = re.compile(r"(?:Status|Given)::(\w+) => (\d+),")

CALL = re.compile(r"^(\w+) (vx_\w+)\(([^)]*)\);", re.MULTILINE)
TYPEDEF = re.compile(r"^typedef struct (\w+) \{\n(.*?)^\} \1;", re.DOTALL | re.MULTILINE)
MEMBER = re.compile(r"^    (\w[^;/]*);$", re.MULTILINE)
NUMBER = re.compile(r"^    VX_(\w+) = (\d+)", re.MULTILINE)

# What stands in the header for a type of Rattle, of which `{}` is the name.
PARAMETERS = {
    "Global": [],
    "usize": ["size_t {}"],
    "&[u8]": ["const char *{}", "size_t {}_length"],
    "&mut [u8]": ["char *{}", "size_t {}_length"],
    "&[Buffer<'_>]": ["const vx_buffer *{}", "size_t {}_length"],
    "&mut Answer": ["vx_answer *{}"],
    "&mut PlanHandle": ["vx_plan *{}"],
}
FIELDS = {
    "Global": [],
    "usize": ["size_t {}"],
    "u64": ["uint64_t {}"],
    "Place": ["vx_place {}"],
    "*mut ()": ["void *{}"],
    "&'a [u8]": ["const void *{}", "size_t length"],
}
RESULTS = {"": "void", "u32": "vx_status"}
STRUCTS = {"Place": "vx_place", "Answer": "vx_answer", "PlanHandle": "vx_plan", "Buffer": "vx_buffer"}


def one_line(text: str) -> str:
    """The text with one blank between its words, and none behind a star."""
    return re.sub(r"\* ", "*", " ".join(text.split()))


def in_c(types: dict[str, list[str]], name: str, dtype: str) -> list[str]:
    """What stands in the header for that parameter or field."""
    if dtype not in types:
        raise SystemExit(f"header: no C type stands for {dtype}")
    return [it.format(name) for it in types[dtype]]


def sources(folder: str) -> str:
    """All code of the crates of that name."""
    paths = sorted((TOP / "crates").glob(f"{folder}/src/**/*.rt"))
    return "\n".join(path.read_text(encoding="utf-8") for path in paths)


def exports() -> dict[str, str]:
    """Each export as the header should declare it."""
    found = {}
    for name, parameters, result in EXPORT.findall(sources("vx_ffi")):
        pairs = [one_line(it).split(": ", 1) for it in parameters.split(",") if it.strip()]
        parts = [part for pair in pairs for part in in_c(PARAMETERS, *pair)]
        found[name] = f"{RESULTS[result]} {name}({', '.join(parts)})"
    return found


def declared(header: str) -> dict[str, str]:
    """Each call as the header declares it."""
    return {name: one_line(f"{result} {name}({parameters})") for result, name, parameters in CALL.findall(header)}


def structs() -> dict[str, list[str]]:
    """The fields of each struct that crosses to C, as the header should have them."""
    return {
        STRUCTS[name]: [part for pair in FIELD.findall(body) for part in in_c(FIELDS, *pair)]
        for name, body in STRUCT.findall(sources("vx_*"))
        if name in STRUCTS
    }


def typedefs(header: str) -> dict[str, list[str]]:
    """The members of each struct of the header."""
    return {name: MEMBER.findall(body) for name, body in TYPEDEF.findall(header)}


def shouted(name: str) -> str:
    """The name of a variant, as C spells it."""
    return re.sub(r"(?<=[a-z])(?=[A-Z])", "_", name).upper()


def numbers() -> dict[str, int]:
    """The numbers of statuses and texts, as the header should name them."""
    arms = ARM.findall(sources("vx_ffi_calls"))
    return {"NOWHERE": 0, **{shouted(name): int(number) for name, number in arms}}


def enumerators(header: str) -> dict[str, int]:
    """The numbers of the header."""
    return {name: int(number) for name, number in NUMBER.findall(header)}


def versions() -> dict[str, str]:
    """The version, by each file that says it."""
    patterns = {
        "include/vx.h": r'#define VX_VERSION "(.*)"',
        "crates/vx_ffi_calls/src/version.rt": r'b"(.*)\\n"',
        "crates/vx/src/line.rt": r'^const VERSION: &str = "(.*)"',
        "bindings/python/pyproject.toml": r'^version = "(.*)"',
        "bindings/python/vx/__init__.py": r'^__version__ = "(.*)"',
        "bindings/rust/Cargo.toml": r'^version = "(.*)"',
    }
    texts = {name: (TOP / name).read_text(encoding="utf-8") for name in patterns}
    return {name: re.search(pattern, texts[name], re.MULTILINE)[1] for name, pattern in patterns.items()}


def arrow_calls() -> set[str]:
    """The calls of include/vx_arrow.h, which the compiler compares with their C."""
    return set(declared((TOP / "include/vx_arrow.h").read_text(encoding="utf-8")))


def symbols(archive: str) -> set[str]:
    """What the archive defines for others."""
    listed = subprocess.run(["nm", "--defined-only", archive], capture_output=True, text=True, check=True)
    return set(re.findall(r" [A-Z] (\w+)$", listed.stdout, re.MULTILINE))


def differences(archive: str | None) -> Iterator[str]:
    """What the header says otherwise than the code."""
    header = (TOP / "include/vx.h").read_text(encoding="utf-8")
    compared = [(exports(), declared(header)), (structs(), typedefs(header)), (numbers(), enumerators(header))]
    for code, said in compared:
        for name in sorted({*code, *said}):
            if code.get(name) != said.get(name):
                yield f"{name}: the code has {code.get(name)}, the header {said.get(name)}"
    if len(set(versions().values())) != 1:
        yield f"versions: {versions()}"
    if archive:
        for name in sorted(symbols(archive) ^ {*exports(), *arrow_calls()}):
            yield f"{name}: stands in one of {archive} and the code"


def main(archive: str | None = None) -> int:
    found = list(differences(archive))
    for it in found:
        print(f"header: {it}")
    print(f"header: {len(exports())} calls and {len(arrow_calls())} over Arrow, {len(found)} differences")
    return 1 if found else 0


if __name__ == "__main__":
    sys.exit(main(*sys.argv[1:]))
