"""One printable HTML page of a vector: what was observed, what is proved, what was adjusted, and what remains to be doubted.

The page stands alone: pictures are SVG elements in it, and nothing is loaded from outside. All names come from others' files:
they are made visible (`text.visible`) and escaped by jinja2, and a policy in the page forbids every script.
"""
from __future__ import annotations

import functools
import hashlib
import math
import os
import shlex
from dataclasses import dataclass, replace
from datetime import datetime
from pathlib import Path
from typing import Any, Callable, Optional, Sequence

import jinja2
import numpy as np
from markupsafe import Markup

from . import __version__, certificate, geodesy, pictures
from .adjust import Adjustment, Blocks, Settings, Statistic, adjust, blocks
from .caveats import caveats
from .certificate import Certificate
from .combination import combinations
from .coordinates import check_belongs
from .errors import SurveyError
from .integers import RealInteger, real_integers
from .quality import Quality, quality
from .rinex import is_corrected
from .rinex_header import Header, read_header
from .text import clock, moment, number, numbers, visible

LEAST_BLOCKS, WANTED_BLOCKS = 4, 6


@dataclass(frozen=True)
class Input:
    """The bytes of an observation's files with their names, each read once."""

    certificate: bytes
    base: bytes
    rover: bytes
    navigation: bytes
    names: tuple[str, str, str, str]


@dataclass(frozen=True)
class Verdicts:
    """What was asked of the program about the certificate; a text is empty where it wasn't asked. `verified` says whether
    `fix` made the same bytes of the files again, `options` are those of `fix` where they are known, `program` its checksum."""

    check: str = ""
    verified: Optional[bool] = None
    options: Optional[Sequence[str]] = None
    program: str = ""


@dataclass(frozen=True)
class Report:
    """All that the page shows."""

    cert: Certificate
    base: Header
    rover: Header
    settings: Settings
    adjustment: Adjustment
    blocks: Optional[Blocks]
    quality: Quality
    integers: Sequence[RealInteger]
    verdicts: Verdicts
    checksums: Sequence[tuple[str, str, str]]
    caveats: Sequence[str]
    title: str

    @property
    def looks(self) -> bool:
        """Whether a person should look: the observation stands out, or a check says other than it should."""
        is_doubted = self.verdicts.verified is False or self.verdicts.check not in ("", "certified")
        return self.quality.looks or any(it.is_far for it in self.integers) or is_doubted

    @property
    def sd_enu_m(self) -> list[float]:
        """The standard deviations that the page vouches for: of the formal ones and those by blocks the greater."""
        formal = [float(x) for x in self.adjustment.sd_enu_m]
        return [max(a, float(b)) for a, b in zip(formal, self.blocks.sd_enu_m)] if self.blocks else formal


# What makes the settings from the base's height in m and both headers.
MakeSettings = Callable[[float, Header, Header], Settings]


def build(files: Input, verdicts: Verdicts, make: MakeSettings, title: str = "", block_pairs: Optional[int] = None) -> Report:
    """The report of a fixed certificate and its files. SurveyError where it is declined, or where the headers aren't those of
    the certificate."""
    cert = certificate.read_fixed(files.certificate, files.names[0])
    base, rover = read_header(files.base, files.names[1]), read_header(files.rover, files.names[2])
    check_belongs(cert, base, rover)
    settings = make(geodesy.geodetic(geodesy.checked_place(cert.base_m, f"{files.names[0]}: the base"))[2], base, rover)
    try:
        done = adjust(cert, settings, base, rover)
        parts = _blocks(cert, settings, done, block_pairs)
        found, integers = quality(cert), real_integers(cert, done.settings)
    except SurveyError as why:
        raise SurveyError(f"{files.names[0]}: {why}") from None
    sums = [(role, name, hashlib.sha256(data).hexdigest()) for role, name, data in zip(
        ("certificate", "base", "rover", "navigation"), files.names, (files.certificate, files.base, files.rover, files.navigation))]
    return Report(cert, base, rover, done.settings, done, parts, found, integers, verdicts, sums,
                  caveats(cert, base, rover, done, parts, found, integers),
                  title or f"{base.marker or files.names[1]} to {rover.marker or files.names[2]}")


def _blocks(cert: Certificate, settings: Settings, done: Adjustment, pairs: Optional[int]) -> Optional[Blocks]:
    """The precision by blocks, of this many pairs, or of so many that about six blocks come out; None where there are too few."""
    count = pairs or max(2, done.pairs // WANTED_BLOCKS)
    try:
        parts = blocks(cert, settings, count, done)
    except SurveyError:
        if pairs:
            raise
        return None
    return parts if parts.used >= LEAST_BLOCKS or pairs else None


# ---- the page


def html(report: Report, now: Optional[datetime] = None) -> bytes:
    """The page, in UTF-8."""
    environment = jinja2.Environment(loader=jinja2.FileSystemLoader(Path(__file__).parent / "templates"), autoescape=True,
                                     undefined=jinja2.StrictUndefined, trim_blocks=True, lstrip_blocks=True)
    environment.filters["v"] = lambda text: visible(str(text))
    page = environment.get_template("report.html").render(**view(report), printed=now or datetime.now(), version=__version__)
    return page.encode("utf-8", "backslashreplace")


def view(report: Report) -> dict[str, Any]:
    """What the template prints: texts and numbers as they stand in the page."""
    done, cert = report.adjustment, report.cert
    assert done.marks is not None
    marks = done.marks
    azimuth, zenith, slope = geodesy.azimuth_zenith(marks.enu_m)
    parts = report.blocks
    drawn = {"residuals": functools.partial(pictures.residuals_by_satellite, done.residuals),
             "sky": functools.partial(pictures.sky, done.residuals)}
    if parts is not None:
        drawn["parts"] = functools.partial(pictures.parts, parts, report.sd_enu_m)
    return {
        "title": report.title, "stations": [_station("base", report.base, marks.base_m), _station("rover", report.rover, marks.rover_m)],
        "observed": _observed(report), "verdicts": _verdicts(report), "looks": report.looks,
        "marks_xyz": numbers(marks.vector_m, 4), "marks_enu": numbers(marks.enu_m, 4),
        "antennas_xyz": numbers(done.vector_m, 4), "fix_xyz": numbers(cert.vector_m(), 4), "moved": numbers(1000 * done.moved_enu_m, 1),
        "has_deltas": any(report.base.delta_m) or any(report.rover.delta_m), "calibrated": done.settings.base_antenna is not None,
        "slope": number(slope, 4), "level": number(math.hypot(*marks.enu_m[:2]), 4), "azimuth": angle(azimuth), "zenith": angle(zenith),
        "rise": number(geodesy.geodetic(marks.rover_m)[2] - geodesy.geodetic(marks.base_m)[2], 4),
        "precision": _precision(report), "covariance": [numbers(1e6 * row, 3) for row in done.covariance_m2],
        "sigma0": number(done.sigma0, 2), "model": _model(done, is_corrected(report.base.comments)),
        "statistics": _statistics(report), "signals": _signals(report),
        "caveats": [visible(it) for it in report.caveats],
        "checksums": [(role, visible(os.path.basename(name)), told) for role, name, told in report.checksums],
        "command": _command(report), "certificate": shlex.quote(visible(os.path.basename(report.checksums[0][1]))),
        "files": " ".join(shlex.quote(visible(os.path.basename(name))) for _, name, _ in report.checksums[1:]),
        "program": report.verdicts.program,
        "pictures": {name: Markup(pictures.as_svg(draw, name)) for name, draw in drawn.items()},
    }


def _station(role: str, header: Header, mark: Any) -> dict[str, Any]:
    lat, lon, height = geodesy.geodetic(mark)
    own = ("baseline-survey", "of ", "at height", "ionosphere", "rebased")
    return {"role": role, "name": visible(header.marker) or "(no name)", "number": visible(header.marker_number),
            "receiver": visible(header.receiver), "receiver_number": visible(header.receiver_number), "antenna": visible(header.antenna),
            "antenna_number": visible(header.antenna_number), "delta": numbers(header.delta_m, 4), "xyz": numbers(mark, 4),
            "lat": angle(lat, "NS", 5), "lon": angle(lon, "EW", 5), "height": number(height, 4),
            "comments": [visible(it) for it in header.comments if it.startswith(own)]}


def angle(value: float, sides: str = "", places: int = 2) -> str:
    """Degrees, minutes and seconds; with the sides of a sign as letters."""
    units = round(math.degrees(abs(value)) * 3600 * 10**places)
    seconds, fraction = divmod(units, 10**places)
    text = f"{seconds // 3600}° {seconds % 3600 // 60:02d}′ {seconds % 60:02d}.{fraction:0{places}d}″"
    return text + (f" {sides[value < 0]}" if sides else "")


def _observed(report: Report) -> dict[str, Any]:
    done, cert = report.adjustment, report.cert
    gaps = sorted((b.tag - a.tag) / 1e7 for a, b in zip(cert.pairs, cert.pairs[1:]))
    system = {"G": "GPS", "E": "Galileo"}[cert.system]
    codes = ", ".join(f"C{band}{code} L{band}{code}" for band, code in zip(cert.bands, cert.codes))
    arcs = [f"{cert.satellite(k)} ({it.first} to {it.last}{', datum' if it.is_datum else ''})" for k, it in enumerate(cert.arcs)]
    return {"date": f"{done.first:%Y-%m-%d}", "first": moment(done.first), "last": moment(done.last),
            "minutes": number((done.last - done.first).total_seconds() / 60, 1), "pairs": len(cert.pairs),
            "interval": number(gaps[len(gaps) // 2], 1) if gaps else "", "of": min(report.base.epochs, report.rover.epochs),
            "system": system, "codes": codes, "arcs": arcs, "satellites": len(report.quality.satellites),
            "least": report.quality.satellites_least,
            "integers": sum(not it.is_datum for it in cert.arcs) * len(cert.bands)}


def _verdicts(report: Report) -> dict[str, Any]:
    cert, told = report.cert, report.verdicts
    reached, bound = cert.ratio_reached, report.quality.second.greatest_bound_mm
    worst = max(report.integers, key=lambda it: abs(it.off), default=None)
    found = report.quality
    return {"last": cert.tail.verdict, "check": visible(told.check), "verified": told.verified, "asked": number(cert.ratio / 1000, 1),
            "reached": "beyond any" if reached is None else number(reached, 1),
            "second": report.quality.second.verdict, "bound": "" if bound is None else number(bound, 2),
            "integer": f"{abs(worst.off):.2f} cycles ({worst.signal} of {worst.satellite})" if worst else "",
            "rms": number(1000 * found.rms_m, 1), "greatest": number(1000 * found.greatest_m, 1),
            "greatest_of": f"{found.greatest_signal} of {found.greatest_satellite} at {clock(found.greatest_at)}"}


def _precision(report: Report) -> list[tuple[str, str, str, str]]:
    done, parts = report.adjustment, report.blocks
    rows = [("formal", *(number(1000 * float(x), 1) for x in done.sd_enu_m))]
    if parts:
        rows.append((f"by {parts.used} parts of {parts.of} pairs", *(number(1000 * float(x), 1) for x in parts.sd_enu_m)))
    return [*rows, ("to be used", *(number(1000 * x, 1) for x in report.sd_enu_m))]  # type: ignore[list-item]


def _model(done: Adjustment, corrected: bool) -> str:
    """What was adjusted and how; `corrected` says whether the files were made by `correct`."""
    settings = done.settings
    weights = "; outliers count less (Huber) or not at all" if settings.robust else ""
    none = "troposphere taken off the files by `correct`, before `fix`" if corrected else "no troposphere taken off"
    air = "troposphere by Saastamoinen (1972) with Niell's mapping function (1996)" if settings.troposphere else none
    phases = {"both": "the phases of all bands, each for itself", "ionosphere-free": "the ionosphere-free combination",
              "narrow": "the narrow-lane combination"}
    centres = "phase centres by ANTEX" if settings.base_antenna else "no phase centres applied"
    zenith = "; difference of the zenith delays estimated" if done.zenith_m is not None else ""
    return (f"integers held; {phases[settings.combination]} ({done.choice.why}); weights by {1000 * settings.sigma_a_m:g}² + "
            f"{1000 * settings.sigma_b_m:g}²/sin² of the elevation, mm²{weights}; {air}; {centres}{zenith}")


def _signals(report: Report) -> list[str]:
    return sorted({it.signal for it in report.adjustment.statistics})


def _statistics(report: Report) -> list[dict[str, Any]]:
    """A row for each satellite, with a cell for each signal or None. The limit of a phase grows with a combination's noise."""
    names, factors = combinations(report.cert.bands, report.settings.combination)
    limits = {name: report.quality.limits.phase_m * math.sqrt(float((row**2).sum())) for name, row in zip(names, factors)}
    rows = []
    known = {(it.satellite, it.signal): it for it in report.adjustment.statistics}
    for satellite in sorted({it.satellite for it in report.adjustment.statistics}):
        own = [known.get((satellite, signal)) for signal in _signals(report)]
        there = [it for it in own if it]
        cells = [_cell(it, limits[it.signal]) if it else None for it in own]
        rows.append({"satellite": satellite, "from": number(math.degrees(min(it.elevation_least for it in there)), 0),
                     "to": number(math.degrees(max(it.elevation_greatest for it in there)), 0), "cells": cells})
    return rows


def _cell(it: Statistic, limit_m: float) -> dict[str, Any]:
    """What the page has of a satellite's residuals in a signal."""
    return {"n": it.n, "rms": number(1000 * it.rms_m, 1), "greatest": number(1000 * it.greatest_m, 1), "over": it.greatest_m > limit_m,
            "out": it.left_out}


def _command(report: Report) -> str:
    names = [shlex.quote(visible(os.path.basename(name))) for _, name, _ in report.checksums[1:]]
    if report.verdicts.options is not None:
        return " ".join(["baseline", "fix", *names, *map(shlex.quote, report.verdicts.options)])
    cert = report.cert
    bands = "".join(map(str, cert.bands))
    return f"baseline fix {' '.join(names)} --ratio {cert.ratio} --budget {cert.budget} --system {cert.system} --bands {bands} .."
