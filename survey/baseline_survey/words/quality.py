"""Does a fixed certificate look good?

Prints the ratio asked and reached, the residuals of the phases by satellite, and what stands out. Status 1 and a line
`look` for each thing that a person should look at: the ratio reached is below 5, a phase is over 20 mm off, a pair has
fewer than six satellites (the limits are options), or the second checker has a note or another verdict. Its `bound` is how far, in each
coordinate, the least-squares vector of any observations in the certificate's boxes may lie from the vector
before that is rounded to 0.1 mm.
"""
from __future__ import annotations

import argparse
from typing import Any

from ..certificate import read
from ..cli import Outcome
from ..errors import SurveyError
from ..quality import Limits, Quality, quality
from ..text import clock, moment, number, table
from ._output import named
from .options import count, positive


def configure(parser: argparse.ArgumentParser) -> None:
    parser.add_argument("certificate", metavar="CERT", help="a certificate of `fix` or `track` whose last line is fixed")
    parser.add_argument("--least-ratio", type=positive, default=5.0, metavar="R",
                        help="the ratio reached below which to look; default 5")
    parser.add_argument("--phase", type=positive, default=20.0, metavar="MM",
                        help="the phase residual above which to look; default 20")
    parser.add_argument("--satellites", type=count, default=6, metavar="N",
                        help="the number of satellites below which to look; default 6")


def run(options: argparse.Namespace) -> Outcome:
    cert = read(options.certificate)
    if not cert.is_fixed:
        raise SurveyError(f"{cert.name}: line {cert.lines}: no fix: {cert.tail.verdict}")
    limits = Limits(options.least_ratio, options.phase / 1000, options.satellites)
    try:
        found = quality(cert, limits)
    except SurveyError as why:
        raise named(why, cert.name) from None
    return Outcome("\n".join(lines_of(found)), data_of(found), int(found.looks))


def lines_of(found: Quality) -> list[str]:
    reached = "beyond any" if found.ratio_reached is None else number(found.ratio_reached, 1)
    lines = [f"ratio asked {number(found.ratio_asked, 3)} reached {reached}",
             f"pairs {found.pairs} from {moment(found.first)} to {moment(found.last)} GPS time",
             f"satellites {len(found.satellites)}, at least {found.satellites_least} at a time: {' '.join(found.satellites)}",
             f"phases rms_mm {number(1000 * found.rms_m, 1)} greatest_mm {number(1000 * found.greatest_m, 1)} "
             f"({found.greatest_signal} of {found.greatest_satellite} at {clock(found.greatest_at)})",
             f"second checker: {found.second.verdict}"]
    if (bound := found.second.greatest_bound_mm) is not None:
        lines.append(f"bound_mm {number(bound, 2)}")
    lines.append("")
    rows = [(it.satellite, it.signal, str(it.n), number(1000 * it.rms_m, 1), number(1000 * it.greatest_m, 1))
            for it in found.fits]
    lines += table(("sat", "signal", "n", "rms_mm", "greatest_mm"), rows)
    return [*lines, "", *([f"look: {flag}" for flag in found.flags] or ["nothing stands out"])]


def data_of(found: Quality) -> dict[str, Any]:
    fits = [{"satellite": it.satellite, "signal": it.signal, "n": it.n, "rms_mm": 1000 * it.rms_m,
             "greatest_mm": 1000 * it.greatest_m} for it in found.fits]
    limits = {"ratio": found.limits.ratio, "phase_mm": 1000 * found.limits.phase_m, "satellites": found.limits.satellites}
    return {"ratio_asked": found.ratio_asked, "ratio_reached": found.ratio_reached, "pairs": found.pairs,
            "first": found.first.isoformat(), "last": found.last.isoformat(), "satellites": list(found.satellites),
            "satellites_least": found.satellites_least, "rms_mm": 1000 * found.rms_m, "greatest_mm": 1000 * found.greatest_m,
            "greatest": {"satellite": found.greatest_satellite, "signal": found.greatest_signal,
                         "at": found.greatest_at.isoformat()},
            "fits": fits, "limits": limits, "second_checker": found.second.verdict, "notes": list(found.second.notes),
            "bound_mm": found.second.greatest_bound_mm, "look": list(found.flags)}
