#!/usr/bin/env python3
"""Prints, out of the code alone, what a reader has to look at who trusts nothing: every trusted thing by name, each public
function that promises nothing, each that may give up for want of memory, and what is tested and not proved.

Public is what a crate exports; the crates for examples, tests and the benchmark are left out. With logs of checks, as
bindings/out/build.log and what `rt ci` printed, it also has what their last lines say, and which functions in C the
checks reached.

usage: tools/audit.py [LOG ..]
"""
import dataclasses
import glob
import os
import pathlib
import re
import subprocess
import sys

sys.dont_write_bytecode = True
import map as crate_map  # noqa: E402

OTHERS = ("Examples", "Tests and the benchmark")
FUNCTION = re.compile(r'( *)(pub )?(?:(?:const|final|unsafe|extern "C") )*fn (\w+)')
BLOCK = re.compile(r"(?:pub )?(?:unsafe )?(trait|impl)\b(?:<.*?>(?= ))? ?(.*?)(?: \{)?$")
CLAUSE = re.compile(r"\s*(requires|ensures)\b\*?(.*)", re.DOTALL)
RESULT = re.compile(r"-> (.*?)(?: \{.*|;)?$", re.MULTILINE)
ENUM = re.compile(r"^pub(?:\(crate\))? enum (\w+)[^{;]*\{(.*?)^\}", re.MULTILINE | re.DOTALL)
USED = re.compile(r"^pub use ([^;]+);", re.MULTILINE)
FOREIGN = re.compile(r'^(?:unsafe )?extern "C" \{(.*?)^\}', re.MULTILINE | re.DOTALL)
# A clause that speaks of success alone.
OF_SUCCESS = re.compile(r"(?: \w+)? \{ (?:IfOk|OnOk|WritesOnOk)\b")
AXIOMS = re.compile(r"^axioms (\w+): (.*)$", re.MULTILINE)
VERDICT = re.compile(r"^logic=proved (.*)$", re.MULTILINE)


BY_HAND = """
## One theorem by hand, in an hour

`referenced_field_paths` says which fields an expression reads, and its clause `fixes` that no other field matters.

1. `tools/where.py referenced_field_paths` prints where it is, each definition that its contract cites, and its wrong
   bodies.
2. Read the contract, then `FixTheMeaning` and what that cites in its turn, down to what a node means at a row
   (`Rows` of `crates/vx_fn/specs`). Ask whether you would say it so. `proofs/` needn't be read: the kit checks it.
3. `rt ci vx_rewrite_paths` proves it, and those below it, on a copy, and ends with `0 failed`. The line `logic=proved`
   of each crate has no word of trust that isn't above.
4. Change a thing in the body, and run `rt check` in `crates/vx_rewrite_paths`: it prints the goal that is open.
   `tools/planted.sh vx_rewrite_paths` does so for bodies that are wrong in other ways.
"""


@dataclasses.dataclass
class Function:
    """A function that a crate exports, with its contract."""

    name: str
    result: str
    ensures: list


def exported(root):
    """The names that the root file of a crate hands on, and the modules that are public."""
    names = {word for tree in USED.findall(root) for word in re.findall(r"\w+(?=\s*[,}]|$)", tree)}
    return names, {"lib", *re.findall(r"^pub mod (\w+);", root, re.MULTILINE)}


def read_head(line, lines):
    """The head of the function that begins on the line, and its clauses, up to its body."""
    head, clauses = [line], []
    while not re.search(r"[{;}]$", line):
        line = next(lines)
        if CLAUSE.match(line):
            while line.count("{") > line.count("}"):
                line += "\n" + next(lines)
            clauses.append(CLAUSE.match(line).groups())
            line = ""
        head.append(line)
    return "\n".join(head), clauses


def functions_in(path, module, is_public):
    """The functions of the file that are public, by their names or those of their types."""
    lines = iter(pathlib.Path(path).read_text(encoding="utf-8").splitlines())
    owner, kind = "", ""
    for line in lines:
        block, function = BLOCK.match(line), FUNCTION.match(line)
        if block:
            kind, owner = "for" if " for " in block[2] else block[1], re.match(r"\w*", block[2])[0]
        if line == "}":
            owner = kind = ""
        # (a method of a trait's impl has the trait's contract)
        if not function or len(function[1]) > 4 or kind == "for" or not (function[2] or kind == "trait"):
            continue
        head, clauses = read_head(line, lines)
        if is_public(owner or function[3]):
            result = RESULT.search(head)
            ensures = [text for word, text in clauses if word == "ensures"]
            yield Function("::".join(filter(None, [module, owner, function[3]])), result[1] if result else "", ensures)


def functions(crate):
    """The functions that the crate exports; a program exports none."""
    source = pathlib.Path(f"crates/{crate}/src")
    if not (source / "lib.rt").exists():
        return
    names, modules = exported((source / "lib.rt").read_text(encoding="utf-8"))
    for path in sorted(source.rglob("*.rt")):
        parts = path.relative_to(source).with_suffix("").parts
        is_whole = parts[0] in modules or "no_mangle" in path.read_text(encoding="utf-8")
        module = "::".join([crate, *(part for part in parts if part != "lib")])
        yield from functions_in(path, module, lambda name, is_whole=is_whole: is_whole or name in names)


def memory_errors():
    """The enums that say that memory ran out, or have one inside that does."""
    texts = [pathlib.Path(it).read_text(encoding="utf-8") for it in glob.glob("crates/*/src/**/*.rt", recursive=True)]
    bodies = {name: set(re.findall(r"\w+", re.sub("//.*", "", body))) for text in texts for name, body in ENUM.findall(text)}
    found = {"AllocError", "OutOfMemory"}
    while True:
        more = {name for name, words in bodies.items() if found & words}
        if more <= found:
            return found
        found |= more


def gives_up(function, errors):
    """Whether the result may say that memory ran out: an error of a Result, a status, or in C its number."""
    result = function.result
    error = re.search(r"\bResult<.*\b(\w+)(?:<[^<>]*>)?>$", result)
    return "VortexResult<" in result or (error[1] in errors if error else result == "Status" or function.name.startswith("vx_ffi::") and result == "u32")


def kit():
    """The folder of the kit, and the line by which it names itself."""
    said = [subprocess.run(["rt", word], capture_output=True, text=True, check=True).stdout for word in ("doc", "version")]
    return pathlib.Path(said[0]).parent, said[1].strip()


def kit_crates(folder, names):
    """The crates of the kit that these stand on, however far below: whether each is built, which no crate is that isn't
    proved, and its functions in C."""
    found, left = {}, {*names, "std"}
    while left:
        name = left.pop()
        file = folder / "rlibs" / f"{name}.rlib" / "format"
        texts = [path.read_text(encoding="utf-8") for path in (folder / "rattle" / name / "src").rglob("*.rt")]
        blocks = [block for text in texts for block in FOREIGN.findall(text)]
        found[name] = file.exists(), sorted({it for block in blocks for it in re.findall(r"\bfn (\w+)", block)})
        uses = re.findall(r"^dep (\w+)$", file.read_text(encoding="utf-8"), re.MULTILINE) if file.exists() else []
        left |= set(uses) - set(found)
    return dict(sorted(found.items()))


def section(title, text, items, count=None):
    """A part of the page: what it is, and a line for each item."""
    print(f"\n## {title} ({len(items) if count is None else count:,})\n\n{text}\n")
    print("\n".join(f"- {it}" for it in items) or "None.")


def section_of(title, text, functions):
    """The same of functions, with a line for each crate."""
    lines = {}
    for it in functions:
        crate, _, name = it.name.partition("::")
        lines.setdefault(crate, []).append(f"`{name}`")
    section(title, text, [f"`{crate}`, {len(names)}: {', '.join(names)}" for crate, names in lines.items()], len(functions))


def count_lines(pattern):
    """How many lines the files have that say something."""
    paths = glob.glob(pattern, recursive=True)
    return sum(bool(line.strip()) and not line.startswith("#") for path in paths for line in open(path, encoding="utf-8"))


def trusted(found, logs):
    """What no proof covers."""
    folder, version = kit()
    crates = kit_crates(folder, {use for _, _, uses in found.values() for use in uses} - set(found))
    said = "\n".join(pathlib.Path(it).read_text(encoding="utf-8", errors="replace") for it in logs)
    words = sorted({word for line in VERDICT.findall(said) for word in line.split() if "trusted" in word or "native" in word})
    section("Trusted: the kit", f"`{version}`: its prover, its two compilers, its linker, and what a check's last line names.", words)
    unproved = [name for name, (is_built, _) in crates.items() if not is_built]
    section("Trusted: crates of the kit without proof", f"All that the crates stand on: {', '.join(crates)}.", unproved)
    declared = [f"`{name}`: {', '.join(names)}" for name, (_, names) in crates.items() if names]
    section("Trusted: functions in C that crates of the kit declare", "Their contracts are taken as written.", declared)
    reached = sorted({f"`{name}`: {names}" for name, names in AXIOMS.findall(said)})
    section("Trusted: which of these a check reached", "By the logs that were given.", reached)
    own = sorted(path for path in glob.glob("crates/**/*.rt", recursive=True) if FOREIGN.search(pathlib.Path(path).read_text(encoding="utf-8")))
    section("Trusted: functions in C that crates of the repository declare", pathlib.Path("HANDLES").read_text().strip(), own)
    files = sorted([*glob.glob("bindings/arrow/*.[ch]"), *glob.glob("include/*"), *glob.glob("bindings/python/vx/*.py")])
    files += sorted([*glob.glob("bindings/rust/src/*.rs"), "bindings/rust/build.rs"])
    section("Trusted: files in C, C++, Python and Rust", "Their compilers, and the C library. The files are tested.", files)


def tested():
    """What is tested, by how many cases."""
    counts = {
        "lines of tables": count_lines("crates/*/data/*.table"),
        "stored runs of the programs": len(glob.glob("runs/*/*.txt")),
        "edits that the gate sees rejected": len(glob.glob("crates/*/must-fail/*.edit")),
        "edits of `planted/`": len(glob.glob("planted/*/*")),
        "expressions that four languages answer alike": count_lines("bindings/tests/expressions.tsv"),
    }
    section("Tested", "Beside the tests of the gate's tools.", [f"{count:,} {what}" for what, count in counts.items()])


def main():
    logs = [os.path.abspath(it) for it in sys.argv[1:]]
    os.chdir(os.path.join(os.path.dirname(os.path.abspath(__file__)), ".."))
    found = crate_map.crates()
    public = [it for name, (subject, _, _) in found.items() if subject not in OTHERS for it in functions(name)]
    errors = memory_errors()
    giving_up = [it for it in public if gives_up(it, errors)]
    print(f"# What is proved, tested and trusted\n\nMade of the code by tools/audit.py. {len(found)} crates, {len(public):,} public functions.")
    text = "Each is proved to be safe and to end, where what it requires holds."
    section_of("Public functions without an `ensures`", text, [it for it in public if not it.ensures])
    text = "The contract of each allows a result that says that memory ran out."
    section_of("Public functions that may give up", text, giving_up)
    text = "Of those the ones whose contract speaks of success alone, so that any error meets it."
    silent = [it for it in giving_up if it.ensures and all(map(OF_SUCCESS.match, it.ensures))]
    section_of("Public functions whose errors aren't said", text, silent)
    tested()
    trusted(found, logs)
    print(BY_HAND, end="")


if __name__ == "__main__":
    main()
