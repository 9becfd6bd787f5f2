"""What the package `vx` answers for each line of a file of expressions, as program.py prints it.

    package.py FILE
"""

from __future__ import annotations

import sys

from vx import VxError
from vx._library import call

CALLS = {
    "fmt": "vx_fmt",
    "check": "vx_check",
    "plan": "vx_plan_json",
    "explain": "vx_explain",
    "eval": "vx_eval_json",
    "prune": "vx_prune",
}


def main(file: str) -> None:
    with open(file, encoding="utf-8") as lines:
        for number, line in enumerate(lines, 1):
            expression, schema, records, statistics = line.rstrip("\n").replace("¶", "\n").split("\t")
            for name, export in CALLS.items():
                last = {"eval": [records], "prune": [statistics]}.get(name, [])
                texts = [expression] if name == "fmt" else [expression, schema, *last]
                try:
                    end, page = "answered", call(export, *(text.encode() for text in texts))
                except VxError as error:
                    end, page = "stopped", f"{error}\n"
                sys.stdout.write(f"# {number} {name} {end}\n{page}")


if __name__ == "__main__":
    main(*sys.argv[1:])
