#!/usr/bin/env python3
"""The program that a script of tools/ or bench/ runs, by the rule of tools/README.md. As a script it prints the program's path."""
from __future__ import annotations

import os
import shutil
import subprocess
import sys

ROOT = os.path.dirname(os.path.dirname(os.path.realpath(__file__)))
# What stands for the program that it would run.
LAUNCHER = os.path.join(ROOT, "baseline")


def launched(errors: int | None = None) -> str | None:
    """The path of the program that `./baseline` would run without building one. It says on standard error why there is none, or
    where `errors` sends that."""
    asked = subprocess.run([LAUNCHER], env={**os.environ, "BASELINE_PRINT": "1"}, stdout=subprocess.PIPE, stderr=errors, text=True)
    return asked.stdout.removesuffix("\n") if asked.returncode == 0 else None


def named(name: str) -> str | None:
    """The path of the program of this name: a path with a slash, or a command in PATH. The script ends where that can't be run."""
    found = shutil.which(name)
    if found is None:
        sys.exit(f"BASELINE names {name}, which isn't there, or isn't executable")
    return launched() if os.path.samefile(found, LAUNCHER) else os.path.abspath(found)


def find_program() -> str:
    """The path of the program. Where there is none, the script ends with status 1 and a line that says so."""
    name = os.environ.get("BASELINE")
    return (named(name) if name else launched()) or sys.exit(1)


if __name__ == "__main__":
    print(find_program())
