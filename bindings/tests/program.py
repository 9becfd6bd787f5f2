"""What the program `vx` prints for each line of a file of expressions, as the calls answer it.

    program.py PROGRAM FILE

A line has an expression, the type of the rows, records and statistics, with tabs between them; a
pilcrow ends a line of the last two. The records are those of crates/vx_table_tests/data, and so are the
expressions. Of each call a line `# NUMBER CALL answered` and the page are printed, or `# NUMBER CALL
stopped` and the message.
"""

from __future__ import annotations

import json
import pathlib
import re
import subprocess
import sys
import tempfile

CHUNK = re.compile(r"chunk \d+, (\d+) rows: (.*)")


class Program:
    """The program, in a folder of its own."""

    def __init__(self, program: str, folder: str) -> None:
        self.program = str(pathlib.Path(program).resolve())
        self.records = pathlib.Path(folder) / "records"

    def run(self, *words: str) -> tuple[bool, str]:
        """Whether it answered, and its page or its message."""
        ran = subprocess.run([self.program, *words], capture_output=True, cwd=self.records.parent, check=False)
        return ran.returncode == 0, (ran.stderr if ran.returncode else ran.stdout).decode()

    def pruned(self, expression: str, schema: str) -> tuple[bool, str]:
        """The verdicts that `explain --stats` tells. `filter` refuses what isn't of truth values."""
        texts = ("--schema", schema, "--", expression)
        is_typed, dtype = self.run("check", *texts)
        if not is_typed:
            return False, dtype
        if dtype.strip() not in ("bool", "bool?"):
            return self.run("filter", "--data", "records", *texts)
        answered, page = self.run("explain", "--stats", "records", *texts)
        found = [CHUNK.fullmatch(line) for line in page.splitlines()] if answered else []
        lines = [{"rows": int(it[1]), "verdict": it[2]} for it in found if it]
        return answered, "".join(json.dumps(it, separators=(",", ":")) + "\n" for it in lines) if answered else page


def main(path: str, file: str) -> None:
    with tempfile.TemporaryDirectory() as folder, open(file, encoding="utf-8") as lines:
        program = Program(path, folder)
        for number, line in enumerate(lines, 1):
            expression, schema, records, statistics = line.rstrip("\n").split("\t")
            texts = ("--schema", schema, "--", expression)
            program.records.write_text(records.replace("¶", "\n"), encoding="utf-8")
            answers = {
                "fmt": program.run("fmt", "--", expression),
                "check": program.run("check", *texts),
                "plan": program.run("plan", "--json", *texts),
                "explain": program.run("explain", *texts),
                "eval": program.run("eval", "--data", "records", *texts),
            }
            program.records.write_text(statistics.replace("¶", "\n"), encoding="utf-8")
            answers["prune"] = program.pruned(expression, schema)
            for call, (answered, page) in answers.items():
                sys.stdout.write(f"# {number} {call} {'answered' if answered else 'stopped'}\n{page}")


if __name__ == "__main__":
    main(*sys.argv[1:])
