"""Whether the programs of docs/embed/FFI.md print what stands behind them.

    guide.py OUT

A block of `c`, `cpp`, `python` or `rust` is a whole program where a block of `text` follows, which is what it
prints. OUT is the folder with the library, in which they are compiled.
"""

from __future__ import annotations

import os
import pathlib
import re
import subprocess
import sys

TOP = pathlib.Path(__file__).resolve().parents[2]
SHOWN = re.compile(r"^```(c|cpp|python|rust)\n(.*?)^```\n\n```text\n(.*?)^```$", re.MULTILINE | re.DOTALL)

# How the program of a source becomes one that can be run. What has no line is run as it stands.
COMPILERS = {
    "c": "gcc -std=c11 -Wall -Wextra -Wpedantic -Werror -I{top}/include -x c {source} -x none {out}/libvx.a -o {built}",
    "cpp": "g++ -std=c++17 -Wall -Wextra -Wpedantic -Werror -I{top}/include {source} {out}/libvx.a -o {built}",
    "rust": "rustc --edition 2021 --crate-name main --extern vx={out}/rust/debug/libvx.rlib {source} -o {built}",
}


def printed(language: str, program: str, out: pathlib.Path) -> tuple[bool, str]:
    """Whether the program runs to its end, and what it prints, or what its compiler does."""
    folder = out / "guide"
    folder.mkdir(exist_ok=True)
    source, built = folder / f"main.{language}", folder / f"main_{language}"
    source.write_text(program, encoding="utf-8")
    if language in COMPILERS:
        words = [word.format(top=TOP, source=source, out=out, built=built) for word in COMPILERS[language].split()]
        compiled = subprocess.run(words, capture_output=True, text=True, check=False)
        if compiled.returncode:
            return False, compiled.stderr
    words = [str(built)] if language in COMPILERS else [sys.executable, str(source)]
    environment = {**os.environ, "PYTHONPATH": str(TOP / "bindings/python")}
    ran = subprocess.run(words, capture_output=True, text=True, check=False, env=environment)
    return ran.returncode == 0, ran.stdout + ran.stderr


def main(folder: str) -> int:
    out = pathlib.Path(folder).resolve()
    shown = SHOWN.findall((TOP / "docs/embed/FFI.md").read_text(encoding="utf-8"))
    failed = 0
    for language, program, wanted in shown:
        is_right, found = printed(language, program, out)
        if not is_right or found != wanted:
            failed += 1
            print(f"docs/embed/FFI.md: {language} prints\n{found}and not\n{wanted}")
    print(f"docs/embed/FFI.md: {len(shown)} programs, {failed} failed")
    return 1 if failed or not shown else 0


if __name__ == "__main__":
    sys.exit(main(*sys.argv[1:]))
