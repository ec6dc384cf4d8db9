"""The second checker, recipes/check_certificate.py, as `checker.module`: the one reader of certificates, and what decides them again.

In the repository it is imported by its path; in an installed package it is the copy that the build makes (setup.py), of the same
bytes.
"""
from __future__ import annotations

import importlib.util
import sys
from pathlib import Path
from types import ModuleType

NAME = "check_certificate"
COPY = Path(__file__).with_name(f"{NAME}.py")
ORIGINAL = Path(__file__).resolve().parents[2] / "recipes" / f"{NAME}.py"


def _loaded() -> ModuleType:
    """The module, without a trace beside its file."""
    path = COPY if COPY.is_file() else ORIGINAL
    spec = importlib.util.spec_from_file_location(f"{__package__}.{NAME}", path)
    if spec is None or spec.loader is None or not path.is_file():
        raise ImportError(f"the second checker isn't there: {path}")
    found = importlib.util.module_from_spec(spec)
    sys.modules[spec.name] = found
    before, sys.dont_write_bytecode = sys.dont_write_bytecode, True
    try:
        spec.loader.exec_module(found)
    finally:
        sys.dont_write_bytecode = before
    return found


module = _loaded()
