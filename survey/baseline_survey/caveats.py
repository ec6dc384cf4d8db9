"""What to keep in mind about one observation: only what applies to it, each with its size and its cure.

The sizes are those of docs/GUIDE.md, "How far it reaches".
"""
from __future__ import annotations

import math
from dataclasses import replace
from typing import Optional, Sequence

import numpy as np

from . import geodesy
from .adjust import Adjustment, Blocks, adjust
from .certificate import Certificate
from .errors import SurveyError
from .integers import RealInteger
from .quality import Quality
from .rinex import OFF_M, height_of_correction, is_corrected
from .rinex_header import Header
from .text import numbers

SHORT_S, FAR_M, HIGH_M = 600, 3000, 20


def caveats(cert: Certificate, base: Header, rover: Header, done: Adjustment, parts: Optional[Blocks], found: Quality,
            integers: Sequence[RealInteger]) -> list[str]:
    """The sentences for this observation; first what stands out in it."""
    told = [f"{flag[0].upper()}{flag[1:]}." for flag in found.flags]
    if found.flags:
        told.append("What stands out may be a low satellite, a reflection or a slip: a higher --mask of `fix`, or a part of the time "
                    "without it, shows whether the vector holds.")
    for it in integers:
        if it.is_far:
            told.append(f"The integers of {it}: with troposphere and weights another one may fit better. It is a slip inside its arc, or a "
                        "wrong integer, or on a long line by day the ionosphere: `fix` without this satellite's time, or with --ratio "
                        "3000, shows which.")
    corrected = is_corrected(base.comments) or is_corrected(rover.comments)
    length, rise = float((done.enu_m[:2]**2).sum()**0.5), float(done.enu_m[2])
    if not any(done.vector_m.round(4)):
        told.append("The vector is 0: the same file stands for base and rover, or both receivers shared an antenna.")
    if found.ratio_asked < 2:
        told.append(f"A ratio of {found.ratio_asked:g} was asked for; the usual one is 2. `certified` is about the ratio in the "
                    "certificate.")
    told += _air(done, length, rise, corrected) + _ionosphere(cert, done, parts)
    seconds = (done.last - done.first).total_seconds()
    if seconds < SHORT_S:
        told.append(f"The observation lasts {seconds / 60:.0f} minutes: reflections at the antennas, which turn in 5 to 20 minutes, aren't "
                    "averaged. A longer observation, or one at another time of the day, shows how far the vector holds.")
    told += _antennas(base, rover, done)
    if parts is None:
        told.append("The observation is too short for a precision by parts: the formal standard deviations take the noise of each epoch as "
                    "independent and are three to ten times too small.")
    if corrected:
        told.append("The observations were corrected before `fix` read them (the COMMENT lines of the files say how): the certificate "
                    "speaks of the corrected files, whose checksums stand below.")
        if done.settings.troposphere:
            told.append("The troposphere was taken off the files already, and this adjustment took it off again: use --no-troposphere.")
        told += _wrong_heights(base, rover, done)
    told.append("The base's coordinates are those of its file's header. An error there shifts the rover by as much, and 10 m of it change "
                f"the vector by {10 / 4 * 1e-7 * math.hypot(length, rise) * 1000:.1f} mm.")
    told.append("One observation can't show errors that belong to a station: a wrong antenna height, centring, the atmosphere. A loop of "
                "lines of one time closes in spite of them. A second observation with a new set-up, on another day, shows them.")
    return told


def _wrong_heights(base: Header, rover: Header, done: Adjustment) -> list[str]:
    """Where the delays were taken off at another height than the antenna's: a `rebase` after `correct`, or a header that was off."""
    told = []
    for role, header, mark in (("base", base, done.base_m), ("rover", rover, done.marks.rover_m if done.marks else done.rover_m)):
        taken_at = height_of_correction(header.comments)
        off = 0.0 if taken_at is None else taken_at - header.delta_m[0] - geodesy.geodetic(mark)[2]
        if abs(off) >= OFF_M:
            told.append(f"The {role}'s delays were taken off {abs(off):.0f} m too {'high' if off > 0 else 'low'}, which costs about "
                        f"{abs(off):.0f} mm: `rebase` the original file to the mark above, `correct` it and run `fix` again.")
    return told


def _ionosphere(cert: Certificate, done: Adjustment, parts: Optional[Blocks]) -> list[str]:
    """Where the ionosphere-free vector is another by more than three standard deviations of both, the ionosphere is in this."""
    if done.settings.combination != "both":
        return []
    try:
        free = adjust(cert, replace(done.settings, combination="ionosphere-free"))
    except SurveyError:
        return []
    apart = free.enu_m - done.enu_m
    own = [max(float(a), float(b)) for a, b in zip(done.sd_enu_m, parts.sd_enu_m if parts else done.sd_enu_m)]
    if not any(abs(apart[i]) > 3 * math.hypot(float(own[i]), float(free.sd_enu_m[i])) for i in range(3)):
        return []
    return [f"The ionosphere-free combination gives a vector that lies {numbers(1000 * apart, 1)} mm (east north up) from this one, more "
            "than the noise of both: what remains of the ionosphere, or of reflections, is in one of them."]


def _air(done: Adjustment, length: float, rise: float, corrected: bool) -> list[str]:
    """The atmosphere by length and height."""
    told = []
    km = length / 1000
    if done.settings.combination != "ionosphere-free" and length > FAR_M:
        told.append(f"The stations are {km:.1f} km apart. What the ionosphere leaves in a vector of this length, with its height, is "
                    f"about {km:.0f} mm at 5 TECU, {3.5 * km:.0f} mm at 20 and {7 * km:.0f} mm at 40. The option --combination "
                    "ionosphere-free is free of it.")
    if length > 10_000:
        told.append("Beyond 10 km what the atmosphere leaves can make wrong integers the best: ask `fix` for --ratio 3000.")
    if abs(rise) > HIGH_M:
        own = "" if corrected else (" The vector that `fix` itself prints has no troposphere and is off by about 1 mm for each metre of "
                                       "height.")
        left = ", which leaves some mm for each 100 m."
        if done.zenith_m is not None and done.zenith_sd_m is not None:
            left = (f": the adjustment found {1000 * done.zenith_m:.0f} mm more delay at the zenith over the rover, with a standard "
                    f"deviation of {1000 * done.zenith_sd_m:.0f} mm, which is in the precision.")
        told.append(f"The stations differ by {abs(rise):.0f} m in height.{own} The real air is warmer, moister or drier than the modelled "
                    f"one{left}")
    if not done.settings.troposphere and not corrected:
        told.append("No troposphere was taken off: the vector is off by about 1 mm for each metre of height between the stations.")
    return told


def _antennas(base: Header, rover: Header, done: Adjustment) -> list[str]:
    told = []
    if done.settings.base_antenna is None:
        if not base.antenna or not rover.antenna:
            told.append("A header names no antenna. Where the antennas are of different types, their phase centres differ by 20 to 60 mm "
                        "in height.")
        elif base.antenna.split() != rover.antenna.split():
            told.append("The antennas differ, and no calibration was used (--atx): their phase centres may differ by 20 to 60 mm in "
                        "height.")
    if not any(base.delta_m) and not any(rover.delta_m):
        told.append("Both headers give 0 for the antenna's height over the mark: right only where the antennas' reference points are the "
                    "marks.")
    return told
