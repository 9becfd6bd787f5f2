"""Runs the examples in the docstrings of the package vx that is installed, and says how many there are.

    docstrings.py
"""

import doctest
import importlib
import pkgutil
import sys

import vx


def main() -> int:
    # (the library is listed, too)
    names = [f"vx.{it.name}" for it in pkgutil.iter_modules(vx.__path__) if it.name[0] == "_"]
    found = [doctest.testmod(importlib.import_module(name)) for name in ["vx", *names]]
    failed = sum(it.failed for it in found)
    print(f"docstrings: {sum(it.attempted for it in found)} examples, {failed} failed, of {vx.__file__}")
    return 1 if failed else 0


if __name__ == "__main__":
    sys.exit(main())
