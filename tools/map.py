#!/usr/bin/env python3
"""Prints the table of crates that docs/develop/MAP.md has, out of crates.txt alone: by subject, each crate with its
purpose, which is the comment above its line, and with the libraries that it stands on, but for those that
another one of these brings.

usage: tools/map.py            prints the table
       tools/map.py CRATE ..   prints the lines of those crates, each with its files in src/ and specs/ and the
                               first sentence of their opening comments
       tools/map.py --write    writes the table into docs/develop/MAP.md, between its two comments
       tools/map.py --check    prints what is wrong: a crate without a purpose, or another table in docs/develop/MAP.md;
                               then the status is 1
"""
import functools
import glob
import os
import re
import sys

DOCUMENT = "docs/develop/MAP.md"
TABLE = re.compile(r"(?<=<!-- the crates: tools/map.py --write -->\n).*(?=<!-- end -->\n)", re.DOTALL)
COMMENT = re.compile(r"(?://[/!]?|--) ?(.*)")


def crates():
    """The crates of crates.txt in its order: the subject, the purpose, and the libraries of each by its name."""
    found, subject, purpose = {}, "", ""
    with open("crates.txt", encoding="utf-8") as file:
        for line in map(str.strip, file):
            if line.startswith("### "):
                subject = line.removeprefix("### ")
            elif line.startswith("# "):
                purpose = line.removeprefix("# ")
            elif ":" in line:
                name, _, uses = line.partition(":")
                found[name.split()[0]] = subject, purpose, uses.split()
                purpose = ""
            else:
                purpose = ""
    return found


def own(found):
    """The libraries of each crate, without those that another library of its line brings."""

    @functools.cache
    def brought(name):
        """All that the library brings, however far below."""
        uses = found[name][2] if name in found else []
        return frozenset(uses).union(*map(brought, uses))

    return {
        name: [it for it in uses if not any(it in brought(other) for other in uses)]
        for name, (_, _, uses) in found.items()
    }


def table(found):
    """The table of each subject below its heading."""
    lines, before, libraries = [], "", own(found)
    for name, (subject, purpose, _) in found.items():
        if subject != before:
            lines += ["", f"### {subject}", "", "| Crate | What it is for | Stands on |", "|---|---|---|"]
            before = subject
        lines.append(f"| `{name}` | {purpose} | {', '.join(f'`{it}`' for it in libraries[name]) or 'nothing'} |")
    return "\n".join([*lines, "", ""])


def opening(path):
    """The first sentence of the comment that the file opens with."""
    said = ""
    with open(path, encoding="utf-8") as file:
        for comment in map(COMMENT.match, file):
            if not comment or said.endswith("."):
                break
            said = f"{said} {comment[1]}".strip()
    return re.split(r"(?<=\.) (?=[A-Z])", said)[0] or "(no comment)"


def files(name):
    """A line for each file of the crate's code and definitions."""
    for part, ending in (("src", "rt"), ("specs", "antt")):
        for path in sorted(glob.glob(f"crates/{name}/{part}/**/*.{ending}", recursive=True)):
            if not path.endswith("/specs/Lib.antt"):
                yield f"{path}: {opening(path)}"


def main():
    os.chdir(os.path.join(os.path.dirname(os.path.abspath(__file__)), ".."))
    found, words = crates(), sys.argv[1:]
    if words in (["--write"], ["--check"]):
        with open(DOCUMENT, encoding="utf-8") as file:
            text = file.read()
        wanted = TABLE.sub(lambda _: table(found), text)
        if words == ["--write"]:
            with open(DOCUMENT, "w", encoding="utf-8") as file:
                file.write(wanted)
            return 0
        wrong = [f"crates.txt: no purpose above {name}" for name in found if not found[name][1]]
        if wanted != text or not TABLE.search(text):
            wrong.append(f"{DOCUMENT}: another table than crates.txt gives: run tools/map.py --write")
        print(*wrong, f"map: {len(found)} crates, {len(wrong)} wrong", sep="\n")
        return 1 if wrong else 0
    if not set(words) <= set(found):
        sys.exit(f"map: no crate of crates.txt: {', '.join(it for it in words if it not in found)}")
    libraries = own(found)
    for name in words:
        print(f"{name}: {found[name][1]}\nstands on: {', '.join(libraries[name]) or 'nothing'}")
        print(*files(name), "", sep="\n")
    if not words:
        print(table(found), end="")
    return 0


if __name__ == "__main__":
    sys.exit(main())
