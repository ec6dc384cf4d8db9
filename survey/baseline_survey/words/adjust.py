"""The vector of a fixed certificate by weighted least squares, its integers held.

The integers are proved; this adjustment isn't: it is floating point. It takes the phases of the certificate's rows, takes
off the troposphere (Saastamoinen 1972, mapped by Niell 1996), weighs by elevation, lessens outliers (Huber 1964) and leaves
out what is far off, and prints the vector with its precision.
With BASE and ROVER, the two observation files of the certificate, it goes from mark to mark too, by the antenna heights
in their headers. Without --atx it leads from phase centre to phase centre.

The combination of the phases follows from length and time unless --combination names one, and the line `combination` says why.
The integers were decided by another model, without air and with equal weights: so this one estimates them as real numbers too, and
says `look`, with status 1, of each that lies over 0.25 cycles from the held one.

The covariance takes the times as independent, so it is too good. --blocks N tells the precision by the scatter of blocks of
N pairs; use the greater of both.
"""
from __future__ import annotations

import argparse
import math
from typing import Any, Optional, Sequence

from ..adjust import Adjustment, Blocks, Settings, Statistic, adjust, blocks
from ..certificate import read_fixed
from ..cli import Outcome
from ..coordinates import check_belongs
from ..errors import SurveyError
from ..geodesy import checked_place, geodetic
from ..integers import RealInteger, real_integers
from ..rinex import is_corrected
from ..rinex_header import read_header
from ..text import moment, number, numbers, table
from ._output import named
from .options import add_settings, both_or_none, count, settings_of

SHORTEST_ZENITH_S = 3500
CORRECTED = "note: without BASE and ROVER it isn't known whether `correct` made the files; if it did, say --no-troposphere"


def configure(parser: argparse.ArgumentParser) -> None:
    parser.add_argument("certificate", metavar="CERT", help="a certificate of `fix` whose last line is fixed")
    parser.add_argument("base", metavar="BASE", nargs="?", help="the base's observation file")
    parser.add_argument("rover", metavar="ROVER", nargs="?", help="the rover's observation file")
    add_settings(parser)
    parser.add_argument("--blocks", type=count, metavar="N", help="the precision by blocks of N pairs")


def run(options: argparse.Namespace) -> Outcome:
    with_files = both_or_none(options)
    cert = read_fixed(options.certificate)
    base = rover = None
    if with_files:
        base, rover = read_header(options.base), read_header(options.rover)
        check_belongs(cert, base, rover)
    height = geodetic(checked_place(cert.base_m, f"{cert.name}: the base"))[2]
    settings = settings_of(options, height, base, rover)
    try:
        done = adjust(cert, settings, base, rover)
        parts = blocks(cert, settings, options.blocks, done) if options.blocks else None
        integers = real_integers(cert, done.settings)
    except SurveyError as why:
        raise named(why, cert.name) from None
    looks = [str(it) for it in integers if it.is_far]
    corrected = base is not None and is_corrected(base.comments)
    lines = lines_of(done, parts, corrected) + integer_lines(integers) + [f"look: {it}" for it in looks]
    return Outcome("\n".join(lines), {**data_of(done, parts), **integers_of(integers), "look": looks}, int(bool(looks)))


def integer_lines(integers: Sequence[RealInteger]) -> list[str]:
    """The greatest distance of a real number from its integer."""
    worst = max(integers, key=lambda it: abs(it.off), default=None)
    return [] if worst is None else ["", f"integers {len(integers)} as real numbers, greatest_off {number(worst.off, 2)} cycles "
                                         f"({worst.signal} of {worst.satellite})"]


def integers_of(integers: Sequence[RealInteger]) -> dict[str, Any]:
    """Each integer with its distance from the real number, in cycles."""
    return {"integers": [{"satellite": it.satellite, "arc": it.arc, "signal": it.signal, "held": list(it.held), "off_cycles": it.off,
                          "sd_cycles": it.sd} for it in integers]}


def lines_of(done: Adjustment, parts: Optional[Blocks], corrected: bool) -> list[str]:
    """The result for people: metres, millimetres, degrees. `corrected` says whether the files were made by `correct`."""
    ends = "ARP to ARP" if done.settings.base_antenna else "antenna to antenna"
    lines = [f"vector_m {numbers(done.vector_m, 4)} ({ends}, X Y Z)", f"sd_mm {numbers(1000 * done.sd_m, 2)} (formal)",
             *(f"covariance_mm2 {numbers(1e6 * row, 4)}" for row in done.covariance_m2),
             f"enu_m {numbers(done.enu_m, 4)}", f"sd_enu_mm {numbers(1000 * done.sd_enu_m, 2)} (formal)",
             *(f"covariance_enu_mm2 {numbers(1e6 * row, 4)}" for row in done.covariance_enu_m2)]
    if done.marks:
        lines += [f"marks_vector_m {numbers(done.marks.vector_m, 4)}", f"marks_enu_m {numbers(done.marks.enu_m, 4)}"]
    if parts:
        lines += [f"blocks {parts.used} of {parts.of} pairs" + (f", {parts.left} without a vector" if parts.left else ""),
                  f"scatter_enu_mm {numbers(1000 * parts.scatter_enu_m, 2)} (one block)",
                  f"sd_enu_mm {numbers(1000 * parts.sd_enu_m, 2)} (by blocks)"]
    if done.zenith_m is not None and done.zenith_sd_m is not None:
        if done.settings.zenith and (done.last - done.first).total_seconds() < SHORTEST_ZENITH_S:
            lines.append("note: a zenith delay needs an hour or more; here it isn't to be told from a height")
        lines.append(f"zenith_mm {number(1000 * done.zenith_m, 1)} sd {number(1000 * done.zenith_sd_m, 1)} "
                     "(rover less base, beyond the model)")
    lines += [f"combination {done.choice.combination} ({done.choice.why})", f"model {model_of(done.settings, corrected)}",
              f"moved_enu_mm {numbers(1000 * done.moved_enu_m, 1)} (from the vector that `fix` prints)",
              *([CORRECTED] if done.settings.troposphere and not done.marks else []),
              f"left_out {done.left_out} of {len(done.residuals.factor)} phases",
              f"sigma0 {number(done.sigma0, 3)} redundancy {done.redundancy} pairs {done.pairs} "
              f"from {moment(done.first)} to {moment(done.last)} GPS time", ""]
    head = ("sat", "signal", "n", "left_out", "rms_mm", "greatest_mm", "from_deg", "to_deg")
    return lines + table(head, [row_of(it) for it in done.statistics])


def model_of(settings: Settings, corrected: bool) -> str:
    """What was adjusted and how, in words."""
    none = "troposphere taken off by `correct`" if corrected else "no troposphere"
    air = "Saastamoinen and Niell" if settings.troposphere else none
    sigma = f"sigma {1000 * settings.sigma_a_m:g} and {1000 * settings.sigma_b_m:g}/sin(elevation) mm"
    return f"{air}, {sigma}, {'robust' if settings.robust else 'not robust'}"


def row_of(it: Statistic) -> tuple[str, ...]:
    """A satellite's line of the table."""
    return (it.satellite, it.signal, str(it.n), str(it.left_out), number(1000 * it.rms_m, 1), number(1000 * it.greatest_m, 1),
            number(math.degrees(it.elevation_least), 0), number(math.degrees(it.elevation_greatest), 0))


def data_of(done: Adjustment, parts: Optional[Blocks]) -> dict[str, Any]:
    """The same as plain values; `sd` and covariances are formal, in mm and mm^2."""
    settings = done.settings
    data: dict[str, Any] = {
        "vector_m": done.vector_m.tolist(), "sd_mm": (1000 * done.sd_m).tolist(),
        "covariance_mm2": (1e6 * done.covariance_m2).tolist(), "enu_m": done.enu_m.tolist(),
        "sd_enu_mm": (1000 * done.sd_enu_m).tolist(), "covariance_enu_mm2": (1e6 * done.covariance_enu_m2).tolist(),
        "sigma0": done.sigma0, "redundancy": done.redundancy, "left_out": done.left_out, "pairs": done.pairs,
        "first": done.first.isoformat(), "last": done.last.isoformat(), "base_m": done.base_m.tolist(),
        "moved_enu_mm": (1000 * done.moved_enu_m).tolist(), "combination": settings.combination,
        "combination_because": done.choice.why, "robust": settings.robust,
        "sigma_mm": [1000 * settings.sigma_a_m, 1000 * settings.sigma_b_m], "troposphere": settings.troposphere,
        "phase_centres": settings.base_antenna is not None, "satellites": [satellite_of(it) for it in done.statistics]}
    if done.marks:
        data["marks"] = {"vector_m": done.marks.vector_m.tolist(), "enu_m": done.marks.enu_m.tolist(),
                         "base_m": done.marks.base_m.tolist(), "rover_m": done.marks.rover_m.tolist()}
    if parts:
        data["blocks"] = {"of": parts.of, "used": parts.used, "left": parts.left,
                          "scatter_enu_mm": (1000 * parts.scatter_enu_m).tolist(), "sd_enu_mm": (1000 * parts.sd_enu_m).tolist()}
    if done.zenith_m is not None and done.zenith_sd_m is not None:
        data["zenith_mm"], data["zenith_sd_mm"] = 1000 * done.zenith_m, 1000 * done.zenith_sd_m
    return data


def satellite_of(it: Statistic) -> dict[str, Any]:
    """A satellite's values."""
    return {"satellite": it.satellite, "signal": it.signal, "n": it.n, "left_out": it.left_out, "rms_mm": 1000 * it.rms_m,
            "greatest_mm": 1000 * it.greatest_m,
            "elevation_deg": [math.degrees(it.elevation_least), math.degrees(it.elevation_greatest)]}
