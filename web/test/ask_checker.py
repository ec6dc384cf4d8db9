#!/usr/bin/env python3
"""ask_checker.py CHECKER <NAMES: what the checker in Python answers to each file, for compare.mjs.

CHECKER is recipes/check_certificate.py, NAMES has one file in a line. For each a line of JSON is printed: the status,
standard output and standard error. Each answer is that of a process of its own.
"""
from __future__ import annotations

import importlib.util
import json
import os
import sys
import tempfile

sys.dont_write_bytecode = True


def answer(checker, name: str) -> tuple[int, str, str]:
    """Status and both streams of a process that checks a file."""
    with tempfile.TemporaryFile() as out, tempfile.TemporaryFile() as err:
        child = os.fork()
        if child == 0:
            os.dup2(out.fileno(), 1)
            os.dup2(err.fileno(), 2)
            os._exit(checker.main([name]))
        status = os.waitstatus_to_exitcode(os.waitpid(child, 0)[1])
        texts = []
        for file in (out, err):
            file.seek(0)
            texts.append(file.read().decode("latin-1"))
    return status, texts[0], texts[1]


def main(path: str) -> None:
    """Asks for each name of standard input."""
    spec = importlib.util.spec_from_file_location("checker", path)
    checker = importlib.util.module_from_spec(spec)
    sys.modules["checker"] = checker
    spec.loader.exec_module(checker)
    for name in sys.stdin.read().splitlines():
        print(json.dumps(answer(checker, name)), flush=True)


if __name__ == "__main__":
    main(sys.argv[1])
