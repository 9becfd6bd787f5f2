#!/usr/bin/env python3
"""Runs the gate from nothing, `rt ci --anew`, or `rt ci` by a kit that keeps nothing; or proves named
crates and those below them for it, `rt ci CRATE ..`, which leaves out what the machine has kept, where
the kit takes names. Prints what each crate took of it: the
processor minutes of its proof, of its tests and of its must-fail edits, as read off the provers'
processes every second; their sums, and the minutes of the whole; and the longest chain of crates that
stand on one another, by the minutes of their proofs. Nothing else may be proved meanwhile on the
processors that it may run on. docs/develop/BENCHMARKS.md has what it printed.

usage: [taskset -c PROCESSORS] tools/gate_times.py [CRATE ..]
"""
import collections
import functools
import os
import subprocess
import sys
import time

TICKS = os.sysconf("SC_CLK_TCK")
TASKS = ("proof", "tests", "edits")


def provers():
    """Each prover on our processors: the process, its crate and task, its processor seconds so far."""
    ours = os.sched_getaffinity(0)
    for pid in filter(str.isdigit, os.listdir("/proc")):
        try:
            with open(f"/proc/{pid}/cmdline") as file:
                words = file.read().split("\0")
            with open(f"/proc/{pid}/stat") as file:
                stat = file.read().rsplit(")", 1)[1].split()
            folder = os.readlink(f"/proc/{pid}/cwd")
            if os.sched_getaffinity(int(pid)) != ours:
                continue
        except OSError:
            continue
        if os.path.basename(words[0]) != "rattle" or "--crate-name" not in words:
            continue
        crate = words[words.index("--crate-name") + 1]
        is_edit = os.path.basename(folder).startswith("rt-edit-")
        task = "edits" if is_edit else "tests" if "--test" in words else "proof"
        # a process is known by its number and the time of its start
        yield (pid, stat[19]), (crate, task), (int(stat[11]) + int(stat[12])) / TICKS


def crates():
    """The crates of crates.txt, in its order, each with those that it depends on."""
    with open("crates.txt") as file:
        lines = [line.partition(":") for line in file if not line.startswith("#") and ":" in line]
    below = {name.split()[0]: uses.split() for name, _, uses in lines}
    return {crate: [it for it in uses if it in below] for crate, uses in below.items()}


def longest_chain(below, cost):
    """The chain of crates, each of which depends on the one before, that costs most together."""

    @functools.cache
    def up_to(crate):
        """What the costliest chain that ends in the crate costs, and the chain."""
        before, chain = max(map(up_to, below[crate]), default=(0, ()))
        return before + cost(crate), (*chain, crate)

    return max(map(up_to, below), default=(0, ()))


def from_nothing():
    """The words for a run from nothing: a kit that keeps what passed has one that asks for it."""
    told = subprocess.run(["rt", "help"], capture_output=True, text=True)
    return ["--anew"] if "--anew" in told.stdout + told.stderr else []


def main():
    os.chdir(os.path.join(os.path.dirname(os.path.abspath(__file__)), ".."))
    begin, seen = time.monotonic(), {}
    gate = subprocess.Popen(["rt", "ci", *(sys.argv[1:] or from_nothing())])
    while gate.poll() is None:
        for process, of, seconds in provers():
            seen[process] = of, seconds
        time.sleep(1)
    taken = (time.monotonic() - begin) / 60
    minutes = collections.Counter()
    for of, seconds in seen.values():
        minutes[of] += seconds / 60
    print("| Crate | Proof | Tests | Edits |\n|---|---:|---:|---:|")
    below = crates()
    for crate in below:
        cells = [minutes[crate, task] for task in TASKS]
        if any(cells):
            print(f"| `{crate}` |", " | ".join(f"{it:.1f}" if it else "" for it in cells), "|")
    sums = [sum(minutes[crate, task] for crate in below) for task in TASKS]
    print("| **all** |", " | ".join(f"**{it:.0f}**" for it in sums), "|")
    length, chain = longest_chain(below, lambda crate: minutes[crate, "proof"])
    print(f"\nThe longest chain of proofs, {length:.0f} minutes:", ", ".join(f"`{it}`" for it in chain))
    print(f"\n{sum(sums):.0f} processor minutes, {taken:.0f} minutes, status {gate.returncode}")
    return gate.returncode


if __name__ == "__main__":
    sys.exit(main())
