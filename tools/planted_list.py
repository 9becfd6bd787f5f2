#!/usr/bin/env python3
"""Prints all wrong bodies (docs/audit/PLANTED.md), crate by crate in the order of crates.txt: what is wrong, by the
first lines of their files, the files of src/ in which it is, and which of them the gate tries. Counts follow.

usage: tools/planted_list.py
"""
import os


def crates():
    """The crates of crates.txt, in its order."""
    with open("crates.txt") as file:
        names = [line.split(":")[0].split() for line in file if not line.startswith("#")]
    return [words[0] for words in names if words]


def edits(folder):
    """The names of the folder's edits, if there is one."""
    names = os.listdir(folder) if os.path.isdir(folder) else []
    return sorted(name.removesuffix(".edit") for name in names if name.endswith(".edit"))


def in_gate(crate):
    return f"crates/{crate}/must-fail"


def in_planted(crate):
    return f"planted/{crate}"


def read(path):
    """What the edit says is wrong, and the files that it changes."""
    with open(path, encoding="utf-8", errors="replace") as file:
        bug, *lines = file.read().splitlines() or [""]
    return bug, list(dict.fromkeys(line.removeprefix("file: ") for line in lines if line.startswith("file: ")))


def row(place, crate, name):
    """The line of an edit in the table of its crate."""
    bug, files = read(f"{place(crate)}/{name}.edit")
    places = ", ".join(f"`{it.removeprefix('src/').removesuffix('.rt')}`" for it in files)
    return f"| {bug} | {places} | `{name}` | {'yes' if place is in_gate else ''} |"


def count(place):
    """How many edits stand in that place, and of how many crates."""
    counts = [len(edits(place(crate))) for crate in crates()]
    return f"{sum(counts)} edits, of {sum(map(bool, counts))} crates"


def main():
    os.chdir(os.path.join(os.path.dirname(os.path.abspath(__file__)), ".."))
    for crate in crates():
        rows = [row(place, crate, name) for place in (in_gate, in_planted) for name in edits(place(crate))]
        if rows:
            print(f"### `{crate}`\n\n| What is wrong | In `src/` | Edit | In the gate |\n|---|---|---|---|")
            print(*rows, sep="\n", end="\n\n")
    print(f"The gate tries {count(in_gate)}; planted/ has {count(in_planted)}.")


if __name__ == "__main__":
    main()
