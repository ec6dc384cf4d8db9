"""One printable HTML page for a client: stations, times, verdicts, vector, precision, residuals with pictures, what to keep
in mind, and how to check.

    baseline-survey report vector.cert BASE ROVER NAV          makes vector.html
    baseline-survey report NAME BASE ROVER NAV --mask 300      runs `fix` and `check`: NAME.cert, NAME.log and NAME.html

The first word is a certificate where it is a file, else a name. Where the program is found, `fix` is run again for a certificate,
with the certificate's own ratio, budget, system and bands and the options given, and the page says whether it gives the same bytes.
With --verify a program must be there. Nothing is written where `fix` declines or a file doesn't belong. Status 1 where something
stands out in the observation, or where `fix` gives other bytes.
"""
from __future__ import annotations

import argparse
import functools
import hashlib
import os
import shlex
from typing import Any, Sequence

from .. import files, orbits, program, report, verify
from ..adjust import Settings
from ..cli import Outcome
from ..errors import SurveyError
from ..rinex_header import Header
from ..text import number, numbers, visible
from ._fix import add_fix, fix_options
from ._output import named
from .options import add_settings, count, settings_of


OTHER_FILES = ("files: `fix` gives another text from these files: they aren't those of the certificate, or it was made with other "
               "options, to be given here, or by another version")


def configure(parser: argparse.ArgumentParser) -> None:
    parser.add_argument("certificate", metavar="CERT|NAME")
    for name in ("base", "rover"):
        parser.add_argument(name, metavar=name.upper(), help=f"the {name}'s file of observations")
    parser.add_argument("navigation", metavar="NAV")
    parser.add_argument("--output", metavar="FILE", help="the page; default the certificate's name with .html")
    parser.add_argument("--title", default="", help="default the names of both stations")
    parser.add_argument("--blocks", type=count, metavar="N", help="the precision by blocks of N pairs; default about six blocks")
    parser.add_argument("--verify", action="store_true", help="refuse where `fix` can't be run again for a certificate")
    add_fix(parser)
    add_settings(parser)


def run(options: argparse.Namespace) -> Outcome:
    if os.path.basename(options.certificate) in ("", ".", ".."):
        raise SurveyError(f"the name of a certificate or of a new one is expected: {options.certificate or 'it is empty'}")
    observed = (options.base, options.rover, options.navigation)
    is_certificate = os.path.exists(options.certificate) and not os.path.isdir(options.certificate)
    if not is_certificate and options.certificate.endswith(".cert"):
        raise FileNotFoundError(2, "No such file or directory", options.certificate)
    if not is_certificate or options.verify or fix_options(options):
        _refuse_pipes(observed)
    base, rover, navigation = (files.read(name) for name in observed)
    orbits.read_navigation(navigation, options.navigation)
    if is_certificate:
        cert_name, cert, log = options.certificate, files.read(options.certificate), None
        verdicts = _verdicts(options, cert)
    else:
        cert_name = options.certificate + ".cert"
        cert, log, verdicts = _fixed(options)
    page = options.output or (cert_name[:-5] if cert_name.endswith(".cert") else cert_name) + ".html"
    given = report.Input(cert, base, rover, navigation, (cert_name, *observed))
    made = report.build(given, verdicts, functools.partial(_settings, options), options.title, options.blocks)
    try:
        page_bytes = report.html(made)
    except SurveyError as why:
        raise named(why, cert_name) from None
    made_by_fix = [] if log is None else [(cert_name, cert), (options.certificate + ".log", log)]
    return Outcome("\n".join(text_of(made, page)), facts(made, page), int(made.looks), files=[*made_by_fix, (page, page_bytes)])


def _refuse_pipes(names: Sequence[str]) -> None:
    """`fix` opens the files that are read here once more, and would wait at a pipe for ever."""
    for name in names:
        if os.path.exists(name) and not os.path.isfile(name) and not os.path.isdir(name):
            raise SurveyError(f"{name}: no file: a pipe can be read once, and `fix` reads it too")


def _settings(options: argparse.Namespace, height_m: float, base: Header, rover: Header) -> Settings:
    return settings_of(options, height_m, base, rover)


def _fixed(options: argparse.Namespace) -> tuple[bytes, bytes, report.Verdicts]:
    """Runs `fix` and `check`: the certificate, the log with the command as its first line, and what they said."""
    found = program.find(options.program)
    given = fix_options(options)
    ran = program.fix(found, given, options.base, options.rover, options.navigation)
    if ran.status:
        said = ran.out.decode("latin-1").splitlines()[-1:] or ["no text"]
        raise SurveyError(f"no fix: {said[0]} (docs/GUIDE.md, \"When it declines\")")
    command = "fix " + " ".join(map(shlex.quote, [*given, "--", options.base, options.rover, options.navigation]))
    log = visible(command).encode("utf-8", "backslashreplace") + b"\n" + ran.errors
    return ran.out, log, report.Verdicts(program.check(found, ran.out), True, given, _checksum(found))


def _verdicts(options: argparse.Namespace, cert: bytes) -> report.Verdicts:
    """What the program says of a certificate and of its files; where it isn't found, nothing, unless it was asked for. Pipes are
    read already, so of them `fix` is run again only where that was asked for."""
    given = fix_options(options)
    try:
        found = program.find(options.program)
    except program.ProgramError:
        if options.program or options.verify or given:
            raise
        return report.Verdicts()
    same, used = None, None
    if options.verify or given or all(map(os.path.isfile, (options.base, options.rover, options.navigation))):
        told = verify.verify(cert, options.certificate, options.base, options.rover, options.navigation, given, found)
        same, used = told.is_same, told.options
    return report.Verdicts(program.check(found, cert), same, used, _checksum(found))


def _checksum(found: str) -> str:
    """The checksum of the program, where it is one file: of the script `baseline` that of what it built."""
    built = os.path.join(os.path.dirname(os.path.realpath(found)), "crates", "baseline_app", "out", "baseline_app")
    name = built if os.path.isfile(built) else found
    try:
        return hashlib.sha256(files.read(name)).hexdigest()
    except OSError:
        return ""


def text_of(made: report.Report, page: str) -> list[str]:
    done = made.adjustment
    assert done.marks is not None
    reached = made.cert.ratio_reached
    kind = "the greater of formal and by parts" if made.blocks else "formal"
    out = [f"report {visible(page)}", f"marks_vector_m {numbers(done.marks.vector_m, 4)}", f"marks_enu_m {numbers(done.marks.enu_m, 4)}",
           f"sd_enu_mm {' '.join(number(1000 * it, 1) for it in made.sd_enu_m)} ({kind})",
           f"ratio asked {number(made.cert.ratio / 1000, 1)} reached {'beyond any' if reached is None else number(reached, 1)}"]
    out.append(f"check {visible(made.verdicts.check) or 'not run'}")
    if made.verdicts.verified is not None:
        out.append("files: the same bytes" if made.verdicts.verified else OTHER_FILES)
    out.insert(1, f"combination {made.adjustment.choice.combination} ({made.adjustment.choice.why})")
    if (bound := made.quality.second.greatest_bound_mm) is not None:
        out.append(f"bound_mm {number(bound, 2)}")
    return out + [f"look: {visible(flag)}" for flag in looks_of(made)]


def looks_of(made: report.Report) -> list[str]:
    """What stands out in the observation."""
    return [*made.quality.flags, *(str(it) for it in made.integers if it.is_far)]


def facts(made: report.Report, page: str) -> dict[str, Any]:
    done = made.adjustment
    assert done.marks is not None
    return {"report": page, "marks_vector_m": done.marks.vector_m.tolist(), "marks_enu_m": done.marks.enu_m.tolist(),
            "sd_enu_mm": [1000 * it for it in made.sd_enu_m], "precision_by_parts": made.blocks is not None,
            "ratio_asked": made.cert.ratio / 1000, "ratio_reached": made.cert.ratio_reached, "check": made.verdicts.check,
            "verified": made.verdicts.verified,
            "second_checker": made.quality.second.verdict, "bound_mm": made.quality.second.greatest_bound_mm,
            "combination": made.adjustment.choice.combination, "look": looks_of(made), "caveats": list(made.caveats),
            "sha256": {role: told for role, _, told in made.checksums}}
