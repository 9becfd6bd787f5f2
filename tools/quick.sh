#!/bin/sh
# A quick look at the whole, from nothing and without proofs, which ends within minutes. Side by side:
#
#   edits   tools/edits.py: each wrong body applies to the code
#   guide   tools/guide.sh: what the documents show stands in the crates and the stored runs
#   runs    tools/runs.sh: the program `vx` over its stored runs, but those over 100,000 records
#   tables  the program `vx_table_tests` over the first lines of its tables, and over all that have to fail
#   tests   the tests of `vx_front_tests`, of all that a caller needs under one name
#
# The programs are built unproved, with checks of addresses and overflow (tools/unproved.py). Prints
# how each part ended, and all that a failed one said; at the end a count. The status is 1 where one
# failed. Names of parts may be given, to run those alone.
#
# usage: tools/quick.sh [PART ..]
set -eu
cd "$(dirname "$0")/.."
exec python3 - "$@" <<'PYTHON'
import os, pathlib, re, shutil, signal, subprocess, sys, tempfile, time

# How many lines of a table are run.
LINES = 40
# Each line of these judges many trees made by chance.
SLOW_TABLES = ["chance.table", "wrong-chance.table"]
# A line that tells how a part ended.
TOLD = re.compile(r"(edits|guide|runs|test result|unproved): .*|\d+ rows, .*")

PARTS = {
    "edits": "tools/edits.py",
    "guide": "tools/guide.sh",
    "runs": """
        { [ ! -d runs/show ] || tools/unproved.py vx_show "$ROOM/vx_show" kleene; } & show=$!
        tools/unproved.py vx "$ROOM/vx" --help; built=$?
        wait "$show" && [ "$built" -eq 0 ] && "$ROOM/top/tools/runs.sh" "$ROOM/vx"
    """,
    "tables": """
        tools/unproved.py vx_table_tests "$ROOM/vx_table_tests" && cd "$ROOM/tables" && "$ROOM/vx_table_tests" *.table
    """,
    "tests": "cd crates/vx_front_tests && rt try --test",
}


def copy_runs(top):
    """Copies what tools/runs.sh needs, and gives the names of the runs that it left out: checked as the
    program is, it takes too long for 100,000 records."""
    shutil.copytree("tools", top / "tools")
    shutil.copytree("runs", top / "runs")
    slow = [run for run in top.glob("runs/*/*.txt") if "many." in run.read_text().partition("\n")[0]]
    for run in slow:
        run.unlink()
    return sorted(str(run.relative_to(top)) for run in slow)


def copy_tables(to):
    """Copies the tables that `vx_table_tests` is given in the gate, and of those that have to pass the first lines."""
    to.mkdir()
    for name in pathlib.Path("crates/vx_table_tests/args").read_text().split():
        lines = pathlib.Path(f"crates/vx_table_tests/data/{name}").read_text().splitlines(keepends=True)
        if name not in SLOW_TABLES:
            is_whole = name.startswith(("wrong-", "unread-"))
            (to / name).write_text("".join(lines if is_whole else lines[:LINES]))


def main():
    names = sys.argv[1:] or list(PARTS)
    if not set(names) <= set(PARTS):
        sys.exit(f"usage: tools/quick.sh [{' | '.join(PARTS)} ..]")
    for told in (signal.SIGTERM, signal.SIGINT):
        signal.signal(told, lambda number, _: sys.exit(128 + number))
    begin, running, failed = time.monotonic(), {}, 0
    with tempfile.TemporaryDirectory(prefix="quick-") as room:
        slow = copy_runs(pathlib.Path(room, "top"))
        copy_tables(pathlib.Path(room, "tables"))
        if "runs" in names:
            print("runs: without those over 100,000 records,", ", ".join(slow))
        if "tables" in names:
            print(f"tables: the first {LINES} lines of each that has to pass, without", ", ".join(SLOW_TABLES), flush=True)
        for name in names:
            said = open(f"{room}/{name}.said", "w+", errors="replace")
            how = {"stdin": subprocess.DEVNULL, "stdout": said, "stderr": said, "start_new_session": True}
            part = subprocess.Popen(["sh", "-c", PARTS[name]], env={**os.environ, "ROOM": room}, **how)
            running[name] = part, said
        try:
            while running:
                time.sleep(0.2)
                for name, (part, said) in list(running.items()):
                    if part.poll() is None:
                        continue
                    del running[name]
                    said.seek(0)
                    lines = said.read().splitlines()
                    told = [line for line in lines if TOLD.fullmatch(line)] or lines or ["it said nothing"]
                    if part.returncode:
                        failed += 1
                        print(*lines, sep="\n")
                    how = f"FAILED (status {part.returncode})" if part.returncode else "passed"
                    minutes = (time.monotonic() - begin) / 60
                    print(f"{name}: {how} after {minutes:.1f} minutes: {told[-1]}", flush=True)
        finally:
            for part, _ in running.values():
                os.killpg(part.pid, signal.SIGTERM)
                part.wait()
    print(f"quick: {len(names) - failed} passed, {failed} failed")
    return 1 if failed else 0


sys.exit(main())
PYTHON
