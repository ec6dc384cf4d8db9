"""Adjusts a network of fixed baselines by weighted least squares, with held stations.

    baseline-survey network LIST --hold A -3978242.4348 3382841.1715 3649902.7667

LIST has a line FROM TO CERT for each baseline, or FROM TO CERT BASE ROVER: then the vector goes from mark to mark by the
headers of the files of observations. Words are spelled as in a shell ("Station 1"), # begins a comment, and files are looked
for from the list's folder. Each certificate has to be certified by `baseline check`, unless --unchecked is given.

Prints the coordinates with their standard deviations, the residuals with their test, chi square, the loops, and which lines
are of one session. Of those some follow from the others: they close whatever is wrong, and control nothing. GPS and Galileo
of one session are one line twice.

Each line's combination of the phases follows from its length and time unless --combination names one for all; a line
`combination` counts them.

--gama and --sinex write files for other programs, from their descriptions (GNU Gama manual, "XML input data format for
gama-local"; SINEX 2.02, IERS, 1 December 2006). A second reader of the tests reads both back; no such program read them here.

Status 1 where a residual stands out, chi square is above its limit, or nothing independent controls the network.
"""
from __future__ import annotations

import argparse
import functools
import math
import os
from collections import Counter
from typing import Any, Optional

from .. import exports, files, lines, network, program
from ..adjust import Settings
from ..cli import Outcome
from ..errors import SurveyError
from ..geodesy import axes_at, checked_place, geodetic, rotated
from ..loops import Loop, Session
from ..rinex_header import Header
from ..text import number, numbers, table, visible
from .options import add_settings, settings_of


def configure(parser: argparse.ArgumentParser) -> None:
    parser.add_argument("list", metavar="LIST")
    parser.add_argument("--hold", nargs=4, action="append", default=[], metavar=("NAME", "X", "Y", "Z"),
                        help="a held station (m); may be repeated")
    parser.add_argument("--scale", type=float, default=1.0, help="multiply all standard deviations of the lines")
    parser.add_argument("--plus", type=float, default=0.0, metavar="MM",
                        help="add this standard deviation to each coordinate of each line, as for setting up")
    parser.add_argument("--gama", metavar="FILE", help="write the vectors for GNU Gama (gama-local, XML)")
    parser.add_argument("--sinex", metavar="FILE", help="write the adjusted coordinates as SINEX 2.02")
    parser.add_argument("--unchecked", action="store_true", help="don't run `baseline check`")
    parser.add_argument("--program", metavar="FILE",
                        help="the built program, else the variable BASELINE, the repository's or that in PATH")
    add_settings(parser)


def run(options: argparse.Namespace) -> Outcome:
    if not (math.isfinite(options.scale) and 0 < options.scale <= 1000 and 0 <= options.plus <= 1000):
        raise SurveyError("--scale is above 0, --plus 0 or above, both at most 1000")
    held = _all_held(options.hold)
    entries = lines.read_list(files.read(options.list).decode("utf-8", "surrogateescape"), options.list)
    check = None if options.unchecked else functools.partial(program.check, program.find(options.program))
    how = lines.Reading(os.path.dirname(options.list), MakeSettings(options), options.scale, options.plus / 1000, check)
    done = network.adjust(lines.observe_all(entries, how), held, full=options.sinex is not None)
    exported = [(getattr(options, name), write(done)) for name, write in exports.FORMS.items() if getattr(options, name)]
    stands_out = looks(done)
    without_marks = sum(entry.base is None for entry in entries)
    text = [*_notes(done, without_marks), *_text(done), *(f"look {it}" for it in stands_out)]
    return Outcome("\n".join(text), {**facts(done), "looks": stands_out}, 1 if stands_out else 0, files=exported)


class MakeSettings:
    """The settings of each line by the options and by what its headers decide; a calibration file is read once for each two
    antennas."""

    def __init__(self, options: argparse.Namespace) -> None:
        self.options = options
        self.known: dict[Any, Settings] = {}

    def __call__(self, height_m: float, base: Optional[Header], rover: Optional[Header]) -> Settings:
        key = (height_m, *((it.antenna, it.antenna_number, it.comments) if it else None for it in (base, rover)))
        if key not in self.known:
            self.known[key] = settings_of(self.options, height_m, base, rover)
        return self.known[key]


def _all_held(given: list[list[str]]) -> dict[str, list[float]]:
    """The held stations. SurveyError where one is held twice or isn't on the Earth."""
    held: dict[str, list[float]] = {}
    for name, place in map(_held, given):
        if name in held:
            raise SurveyError(f"--hold {name}: held twice")
        held[name] = checked_place(place, f"--hold {name}").tolist()
    return held


def _held(words: list[str]) -> tuple[str, list[float]]:
    name, *place = words
    try:
        numbers_of = [float(it) for it in place]
    except ValueError:
        numbers_of = [math.nan]
    if not all(math.isfinite(it) and abs(it) < 1e7 for it in numbers_of):
        raise SurveyError(f"--hold {name}: X Y Z are three numbers of metres")
    return name, numbers_of


def looks(done: network.Network) -> list[str]:
    """What stands out, as texts."""
    found = []
    if not done.redundancy:
        found.append("no line is controlled: as many lines as unknown stations")
    elif not done.independent_redundancy:
        found.append("nothing independent controls the network: all lines that are too many are of one session with others")
    limits = done.limits()
    if limits and done.chi_square > limits[1]:
        found.append(f"chi square {done.chi_square:.1f} is above {limits[1]:.1f}: the covariances are too small, or a line is wrong")
    for k, it in enumerate(done.residuals, 1):
        if it.test / done.scale > done.greatest_test:
            found.append(f"line {k} {visible(it.line.start)} {visible(it.line.end)}: residual {it.test / done.scale:.1f} of its "
                         f"standard deviations, above {done.greatest_test:.1f}")
    return found


# ---- as values


def facts(done: network.Network) -> dict[str, Any]:
    limits = done.limits()
    return {"held": {name: place.tolist() for name, place in done.held.items()},
            "points": [_point(done, name) for name in done.stations], "residuals": [_residual(done, it) for it in done.residuals],
            "loops": [{"lines": _signed(it), "enu_mm": it.enu_mm.tolist(), "length_m": it.length_m, "one_session": it.is_one_session}
                      for it in done.loops],
            "sessions": [_session(it) for it in done.sessions], "redundancy": done.redundancy,
            "independent_redundancy": done.independent_redundancy, "chi_square": done.chi_square,
            "chi_square_limits_95": list(limits) if limits else None, "sigma0": done.sigma0, "scale": done.scale,
            "greatest_test": done.greatest_test, "note": done.note}


def _point(done: network.Network, name: str) -> dict[str, Any]:
    lat, lon, height = geodetic(done.places[name])
    return {"name": name, "position_m": [round(float(x), 5) for x in done.places[name]],
            "lon_lat_deg_height_m": [math.degrees(lon), math.degrees(lat), height], "sd_enu_mm": _sd_enu_mm(done, name),
            "covariance_mm2": (1e6 * done.scale**2 * done.blocks[name]).tolist()}


def _sd_enu_mm(done: network.Network, name: str) -> list[float]:
    """Standard deviations east, north and up, scaled."""
    enu = rotated(done.blocks[name], axes_at(done.places[name]))
    return [1000 * done.scale * math.sqrt(enu[i, i]) for i in range(3)]


def _residual(done: network.Network, it: network.Residual) -> dict[str, Any]:
    return {"from": it.line.start, "to": it.line.end, "certificate": it.line.name, "system": it.line.system,
            "first": it.line.first.isoformat(), "combination": it.line.combination, "enu_mm": it.enu_mm.tolist(),
            "xyz_mm": it.xyz_mm.tolist(), "test": it.test / done.scale, "redundancy": it.redundancy}


def _session(it: Session) -> dict[str, Any]:
    return {"first": it.first.isoformat(), "last": it.last.isoformat(), "lines": [k + 1 for k in it.lines],
            "stations": it.stations, "dependent": [k + 1 for k in it.dependent],
            "repeated": [[k + 1 for k in group] for group in it.repeated]}


def _signed(loop: Loop) -> list[int]:
    """The numbers of a loop's lines from 1, negative where they are walked from their end."""
    return [sign * (k + 1) for k, sign in loop.lines]


# ---- as text


def _notes(done: network.Network, without_marks: int) -> list[str]:
    out = [f"note {visible(done.note)}"] if done.note else []
    if without_marks:
        out.append(f"note {without_marks} of {len(done.lines)} lines go from antenna to antenna: "
                   "BASE ROVER in the list takes them to the marks")
    return out


def _text(done: network.Network) -> list[str]:
    limits = done.limits()
    counted = f", {done.independent_redundancy} without lines that follow from others of their session" if done.dependent else ""
    within = f" (95 %: {limits[0]:.2f} to {limits[1]:.2f}) sigma0 {done.sigma0:.3f}" if limits else ""
    return [f"lines {len(done.lines)} stations {len(done.stations)} held {len(done.held)} redundancy {done.redundancy}{counted}",
            _combinations(done),
            f"chi_square {done.chi_square:.2f}{within}; standard deviations are scaled by {done.scale:.3f}",
            *(f"held {visible(name)} {numbers(place, 4)}" for name, place in done.held.items()),
            "", *_points(done), "", *_residuals(done), *_loops(done), *_sessions(done)]


def _combinations(done: network.Network) -> str:
    """How many lines have which combination of the phases."""
    counted = Counter(it.combination for it in done.lines)
    return "combination " + " ".join(f"{name} {n}" for name, n in sorted(counted.items()))


def _points(done: network.Network) -> list[str]:
    rows = [[visible(name), *(f"{x:.4f}" for x in done.places[name]), *(f"{x:.2f}" for x in _sd_enu_mm(done, name))]
            for name in done.stations]
    return table(["point", "X_m", "Y_m", "Z_m", "sd_east_mm", "sd_north_mm", "sd_up_mm"], rows)


def _residuals(done: network.Network) -> list[str]:
    rows = [[f"{k} {visible(it.line.start)} {visible(it.line.end)}", *(number(float(x), 2) for x in it.enu_mm),
             f"{it.test / done.scale:.2f}", f"{it.redundancy:.2f}"] for k, it in enumerate(done.residuals, 1)]
    return table(["residual", "east_mm", "north_mm", "up_mm", "test", "redundancy"], rows)


def _loops(done: network.Network) -> list[str]:
    rows = [[" ".join(map(str, _signed(it))), *(number(float(x), 2) for x in it.enu_mm), f"{it.length_m:.1f}",
             f"{1000 * math.hypot(*it.enu_mm) / it.length_m:.2f}", "one session: closes whatever is wrong" if it.is_one_session else ""]
            for it in done.loops]
    return ["", *table(["loop", "east_mm", "north_mm", "up_mm", "length_m", "ppm", ""], rows)] if rows else []


def _sessions(done: network.Network) -> list[str]:
    out = [""] if done.sessions else []
    for it in done.sessions:
        follow = f"{len(it.dependent)} follow from the others and control nothing" if it.dependent else "they share their receivers' noise"
        span = f"{it.first:%Y-%m-%d %H:%M} to {it.last:%H:%M}"
        out.append(f"session {span}: {len(it.lines)} lines of {it.stations} stations: {follow}")
        out += [_twice(done, group) for group in it.repeated]
    return out


def _twice(done: network.Network, group: list[int]) -> str:
    """That lines of a session are the same line again, with their systems."""
    first = done.lines[group[0]]
    systems = " and ".join(lines.SYSTEMS[done.lines[k].system] for k in group)
    return (f"  lines {' '.join(str(k + 1) for k in group)} are one line {len(group)} times, from {visible(first.start)} to "
            f"{visible(first.end)} ({systems} of one session)")
