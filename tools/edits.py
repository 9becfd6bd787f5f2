#!/usr/bin/env python3
"""Whether each wrong body of crates/*/must-fail and planted/* still applies to the code as it stands, and each
that docs/audit/PLANTED.md names is there. It proves nothing, and takes less than a second.

An edit is a first line that says what is wrong, and then lines `file: PATH` and pairs of lines `old: TEXT`
and `new: TEXT`. The file has to be in the edit's crate, the old text to stand once in it, as the pairs
before have left it, and the new text to differ. Prints each edit that is bad, and why.

usage: tools/edits.py
"""
import functools
import glob
import os
import re
import sys

sys.dont_write_bytecode = True
import planted_list  # noqa: E402

DOCUMENT = "docs/audit/PLANTED.md"
NAMED = re.compile(r"`(vx_\w+)/([\w.-]+)`")
NAME = re.compile(r"[A-Za-z0-9_-][A-Za-z0-9_.-]*\.edit")
PLACE = re.compile(r"(src|specs|proofs)/[^/]+(/[^/]+)*")


@functools.cache
def read(path):
    with open(path, encoding="utf-8") as file:
        return file.read()


def split(line):
    """The word before the line's colon, and what is behind it."""
    word, _, rest = line.partition(":")
    return word, rest.removeprefix(" ")


def steps(lines):
    """The edit's pairs as (file, old, new), or a ValueError of what is wrong with its lines."""
    path, old = None, None
    for line in lines:
        word, rest = split(line)
        if old is not None and word != "new":
            raise ValueError(f"no 'new:' behind the 'old:' {old.strip()}")
        if word == "file":
            path = rest.strip()
        elif word == "old" and path and rest:
            old = rest
        elif word == "new" and old is not None:
            yield path, old, rest
            old = None
        elif line.strip():
            raise ValueError(f"a line that doesn't belong there: {line.strip()}")
    if old is not None:
        raise ValueError(f"no 'new:' behind the 'old:' {old.strip()}")


def why_bad(edit, crate):
    """Why the edit of the crate doesn't apply, or None."""
    texts = {}
    try:
        bug, *lines = read(edit).split("\n")
        if not bug.strip() or split(bug)[0] in ("file", "old", "new"):
            return "its first line doesn't say what is wrong"
        for path, old, new in steps(lines):
            file = f"crates/{crate}/{path}"
            if not PLACE.fullmatch(path) or ".." in path.split("/") or not os.path.isfile(file):
                return f"there is no file {path} in src/, specs/ or proofs/ of {crate}"
            text = texts.get(file, read(file))
            if old == new:
                return f"it changes nothing of: {old.strip()}"
            if text.count(old) != 1:
                return f"stands {text.count(old)} times in {path}: {old.strip()}"
            texts[file] = text.replace(old, new)
    except ValueError as error:
        return str(error)
    if not texts:
        return "it has no pair of 'old:' and 'new:'"
    if all(text == read(file) for file, text in texts.items()):
        return "all its pairs together change nothing"
    return None


def main():
    os.chdir(os.path.join(os.path.dirname(os.path.abspath(__file__)), ".."))
    crates = planted_list.crates()
    count, bad, homes = 0, [], {}
    for place in (planted_list.in_gate, planted_list.in_planted):
        for path in sorted(glob.glob(f"{place('*')}/**", recursive=True)):
            if os.path.isdir(path) or path.endswith(".md"):
                continue
            crate, name = path.split("/")[1], os.path.basename(path)
            count += 1
            if crate not in crates:
                why = f"{crate} is no crate of crates.txt"
            elif os.path.dirname(path) != place(crate) or not NAME.fullmatch(name):
                why = "an edit stands right in its folder, and its name is of letters, digits, _, - and . and ends in .edit"
            elif homes.setdefault((crate, name), path) != path:
                why = f"stands in {os.path.dirname(homes[crate, name])}, too"
            else:
                why = why_bad(path, crate)
            if why:
                bad.append(f"{path}: {why}")
    print(*bad, sep="\n", end="\n" if bad else "")
    named = NAMED.findall(read(DOCUMENT))
    lost = [f"{crate}/{name}" for crate, name in named if (crate, f"{name}.edit") not in homes]
    for edit in lost:
        print(f"{DOCUMENT}: names {edit}, which is no edit")
    print(f"edits: {count} edits, {len(bad)} bad")
    return 1 if bad or lost else 0


if __name__ == "__main__":
    sys.exit(main())
