#!/usr/bin/env python3
"""Prints where a public function or type is, by its name: the file and line of its declaration; then, of the
definitions that its contract cites, the file and line of each; the lines of docs/audit/PROMISES.md and TABLES.md
that name it; and the wrong bodies that change it or the rest of its file (docs/audit/PLANTED.md). The name may have
a crate, modules and a type before it: `vx_tree::exact::new`, `ExactBoundExpr::new`.

usage: tools/where.py NAME ..
"""
import glob
import os
import pathlib
import re
import sys

# (within an `impl` too, where the line is indented, and of a whole module under another name)
GHOST = re.compile(r"^ *ghost use Rattle\.(\w+)\.specs\.([\w.]+?)(?:\.\{([^}]*)\}| as (\w+));", re.MULTILINE)
MODULE = re.compile(r"^pub use Rattle\.(\w+)\.specs\.(\w+)(?: as (\w+))?$", re.MULTILINE)
NAMES = re.compile(r"^pub use Rattle\.(\w+)\.specs\.([\w.]+)\.\{([^}]*)\}", re.MULTILINE)
KINDS = "fn|struct|enum|trait|type"
DECLARATION = re.compile(rf"^ *(?:pub(?:\(\w+\))? |const |final |extern \"C\" )*(?:{KINDS}|impl)\b.*", re.MULTILINE)
OWNER = re.compile(r"^(?:impl|(?:pub )?trait)\b.*|^\}", re.MULTILINE)
CLAUSES = re.compile(r"^ *(?:requires|ensures|ghost)\b.*", re.MULTILINE | re.DOTALL)
PROMISES, TABLES = "docs/audit/PROMISES.md", "docs/audit/TABLES.md"


def read(path):
    """The text of the file, or none."""
    return pathlib.Path(path).read_text("utf-8") if os.path.exists(path) else ""


def line_of(text, place):
    return text.count("\n", 0, place) + 1


def declared(name):
    """Each public declaration of that name: its file, the file's text, its line, owner, contract and whole text."""
    *parts, last = name.split("::")
    head = re.compile(rf"^ *(pub )?(?:const |final |extern \"C\" )*({KINDS}) {re.escape(last)}\b.*", re.MULTILINE)
    for path in sorted(glob.glob("crates/*/src/**/*.rt", recursive=True)):
        text = read(path)
        for found in head.finditer(text):
            own = ["", *OWNER.findall(text, 0, found.start())][-1].strip(" {}")
            # (a method of a trait has no `pub`)
            is_public = found[1] or found[2] == "fn" and re.search(r"\btrait\b| for ", own)
            if is_public and set(re.findall(r"\w+", f"{path} {own}")).issuperset(parts):
                # (a function's contract ends where its body begins, and a type's is all of it)
                ends = r"^ *\{$|[{;]$" if found[2] == "fn" else r"^\}|^\S.*;$"
                body = re.compile(ends, re.MULTILINE).search(text, found.start())
                after = DECLARATION.search(text, found.end())
                contract = text[found.start() : body.end() if body else None]
                whole = text[found.start() : after.start() if after else None]
                yield path, text, line_of(text, found.start()), own, contract, whole


def definition(crate, module, name):
    """The file and line of a definition, which another crate's specs may re-export."""
    if module.startswith("declared."):
        parts = module.split(".")[1:]
        files = [f"crates/{crate}/src/{'/'.join(parts[:n])}.rt" for n in range(len(parts), 0, -1)]
        return next((f"made of {it}" for it in files if os.path.exists(it)), None)
    path = f"crates/{crate}/specs/{module.replace('.', '/')}.antt"
    text = read(path)
    if not text:
        for other, last, renamed in MODULE.findall(read(f"crates/{crate}/specs/Lib.antt")):
            if module == (renamed or last):
                return definition(other, last, name)
    found = re.search(rf"^ *(?:abbrev |pub |unfoldable |data |record )*{re.escape(name)}(?= *[:({{])", text, re.MULTILINE)
    if found:
        return f"{path}:{line_of(text, found.start())}"
    for other, last, names in NAMES.findall(text):
        if name in re.split(r"[\s,]+", names):
            return definition(other, last, name)
    return None


def cited(text, contract):
    """The name and place of each definition that the contract's clauses cite."""
    clauses = re.sub("//.*|ghost use .*", "", "".join(CLAUSES.findall(contract)))
    for crate, module, names, renamed in GHOST.findall(text):
        # (definitions of Rattle's library are in the toolchain)
        if os.path.isdir(f"crates/{crate}"):
            words = re.findall(rf"(?<![\w.-]){renamed}\.([\w-]+)", clauses) if renamed else re.split(r"[\s,]+", names)
            for word in dict.fromkeys(filter(None, words)):
                place = definition(crate, module, word)
                # (what stands before a dot may be a parameter of that name, too)
                if place if renamed else re.search(rf"(?<![\w.-]){re.escape(word)}(?![\w-])", clauses):
                    yield word, place or f"not found in {crate}/specs/{module}"


def naming(document, crate, own_words, name):
    """The lines of the document that name it: of PROMISES.md those about its crate. What stands before `::` is of
    its path or owner."""
    named = re.compile(rf"(?:^|[:{{]|, |\.\. ){re.escape(name)}(?=$|[}},(]|::| \.\.)")
    here = document == TABLES
    for number, line in enumerate(read(document).splitlines(), 1):
        about = re.match(r"(?:### |\| )`(vx_\w+)`", line)
        if document == PROMISES and (about or line.startswith("#")):
            here = about and about[1] == crate
        elif document == TABLES and line.startswith("| "):
            # (the first cell has kinds of lines, or their columns)
            line = re.split(r"(?<!\\)\|", line, maxsplit=2)[2]
        spans = ((span, named.search(span)) for span in re.findall("`([^`]*)`", line) if here)
        if any(at and own_words.issuperset(re.findall(r"(\w+)::", span[: at.end()])) for span, at in spans):
            yield f"{document}:{number}"


def edits(path, whole):
    """The wrong bodies that change that part of the file, and those that change the rest."""
    crate, file = path.split("/")[1], path.split("/", 2)[2]
    found = sorted(glob.glob(f"planted/{crate}/*.edit") + glob.glob(f"crates/{crate}/must-fail/*.edit"))
    found = [edit for edit in found if f"\nfile: {file}\n" in read(edit)]
    own = [edit for edit in found if any(old in whole for old in re.findall(r"^old: ?(.+)$", read(edit), re.MULTILINE))]
    return own, [edit for edit in found if edit not in own]


def main():
    os.chdir(os.path.join(os.path.dirname(os.path.abspath(__file__)), ".."))
    if not sys.argv[1:]:
        sys.exit(__doc__.rsplit("\n", 2)[1])
    lost = []
    for name in sys.argv[1:]:
        places = list(declared(name))
        lost += [] if places else [name]
        for path, text, line, own, contract, whole in places:
            print(f"{path}:{line}: {contract.splitlines()[0].strip()}{own and f'  (in {own})'}")
            for word, place in dict.fromkeys(cited(text, contract)):
                print(f"    {word}: {place}")
            crate, last, own_words = path.split("/")[1], name.split("::")[-1], set(re.findall(r"\w+", f"{path} {own}"))
            print(f"    promised: {', '.join(naming(PROMISES, crate, own_words, last)) or 'by no line of its own'}")
            print(f"    tested: {', '.join(naming(TABLES, crate, own_words, last)) or 'by no kind of line of its own'}")
            of_it, others = edits(path, whole)
            print(f"    wrong bodies: {', '.join(of_it) or 'none of its own'}")
            print(f"    of the rest of the file: {', '.join(others) or 'none'}")
    if lost:
        sys.exit(f"where: nothing public has the name {', '.join(lost)}")


if __name__ == "__main__":
    main()
