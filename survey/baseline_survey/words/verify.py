"""Does a certificate come from these files? Runs `fix`, or `track`, again on them and compares the bytes.

    baseline-survey verify vector.cert BASE ROVER NAV
    baseline-survey verify vector.cert BASE ROVER NAV --mask 300 --arc 20

Ratio, budget, system and bands are the certificate's own; give the other options that it was made with. Prints `the same
bytes`, or the first line that differs (status 1). A check of a certificate alone doesn't bind it to files: this does.
"""
from __future__ import annotations

import argparse

from .. import files, verify
from ..cli import Outcome
from ..text import visible
from ._fix import add_fix, fix_options


def configure(parser: argparse.ArgumentParser) -> None:
    parser.add_argument("certificate", metavar="CERT")
    for name in ("base", "rover"):
        parser.add_argument(name, metavar=name.upper(), help=f"the {name}'s file of observations")
    parser.add_argument("navigation", metavar="NAV")
    add_fix(parser)


def run(options: argparse.Namespace) -> Outcome:
    data = files.read(options.certificate)
    done = verify.verify(data, options.certificate, options.base, options.rover, options.navigation, fix_options(options), options.program)
    facts = {"same": done.is_same, "options": list(done.options), "sha256": done.sha256}
    if done.difference is None:
        return Outcome("the same bytes", facts)
    told = done.difference
    facts["difference"] = {"line": told.line, "certificate": told.certificate, "files": told.files}
    texts = {"certificate": told.certificate, "files": told.files}
    lines = [f"line {told.line} differs", *(f"{who}: {shown(text)}" for who, text in texts.items())]
    return Outcome("\n".join(lines), facts, 1)


def shown(text: object) -> str:
    """A line for people, cut where it is long."""
    if text is None:
        return "(ends before)"
    line = visible(str(text))
    return line if len(line) <= 200 else line[:200] + " .."
