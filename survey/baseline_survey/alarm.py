"""The alarm of a series: which session shows a movement, and which shows a fault of the station.

*Movements.* The reference of each coordinate is the median of the first `reference` fixes. The formal standard deviation of a
single vector is too small, so these n fixes also give a scale for each coordinate: their scatter about a straight line
(Theil-Sen, so that a movement that began before isn't taken for noise) in units of the formal standard deviations, where a
deviation beyond twice the scale counts as twice (Huber's winsorised variance, so that one bad fix doesn't make the monitor
blind), and at least 1. With s the scaled standard deviation of a vector and of the reference, `factor` times it is the limit:

    jump    one fix lies further from the reference than this
    creep   the weighted mean of the last `window` fixes does: a movement that no single session shows. Neighbouring fixes
            share satellites and air, so the mean of n is taken as (1 + CORRELATION (n - 1)) / n of one fix's variance

and further than `floor_mm`, where that is given. The factor is Student's t with n - 2 degrees of freedom at the probability
that a normal error passes `sigmas` standard deviations: 4.9 for 4 with 24 fixes, 9.8 with 8.

*Faults.* base: the header's position of the base isn't that of the session before. short: a session has fewer pairs than
`shortest` of the median of the first fixes. dead: `silent` sessions or more have passed without a fix.

Once the reference stands, an alarm depends on its row and earlier ones alone: a later session never takes it back.

Sources: Sen, Estimates of the regression coefficient based on Kendall's tau, JASA 63, 1968; Huber, Robust Statistics, 1981,
sections 1.2 and 5.2.
"""
from __future__ import annotations

import math
from dataclasses import dataclass
from datetime import datetime, timedelta
from typing import Iterator, Optional, Sequence

import numpy as np
from scipy.special import ndtr, stdtrit

from .series import Row

AXES = ("east", "north", "up")
KINDS = ("jump", "creep", "base", "short", "dead")
LEAST_FIXES = 5  # for a reference
CORRELATION = 0.1  # of two fixes of a window; 0 to 0.2 in simulated sessions six minutes apart (bench/monitor)
WINSOR, WINSOR_MEAN = 2.0, 0.9205  # of a standard normal z the mean of min(|z|, 2)^2


@dataclass(frozen=True)
class Limits:
    """What is an alarm; see the head of this module."""

    reference: int = 24
    sigmas: float = 4.0
    window: int = 12
    floor_mm: float = 0.0
    silent: int = 3
    shortest: float = 0.75


@dataclass(frozen=True)
class Alarm:
    """An alarm of a row, or of no row where sessions are missing at the end: its kind, its time, what there is to say, and
    for a movement the coordinate with its deviation and the limit that it passed, in mm."""

    row: Optional[int]
    kind: str
    time: Optional[datetime]
    text: str
    axis: str = ""
    deviation_mm: Optional[float] = None
    limit_mm: Optional[float] = None


@dataclass(frozen=True)
class Reference:
    """What a still point does, by its first fixes: its place east north up (m) with the standard deviation (mm), the scale of
    formal standard deviations, how many of the scaled ones a limit has, the median of the pairs."""

    enu_m: np.ndarray
    sd_mm: np.ndarray
    scales: np.ndarray
    factor: float
    pairs: float


@dataclass(frozen=True)
class Series:
    """The rows by the clock, with the reference, each row's deviation from it, scaled standard deviation and limit of a jump
    (mm, n x 3, nan where there is no fix or no reference), and the alarms."""

    rows: Sequence[Row]
    limits: Limits
    reference: Optional[Reference]
    deviations_mm: np.ndarray
    sd_mm: np.ndarray
    limits_mm: np.ndarray
    alarms: Sequence[Alarm]

    @property
    def fixed(self) -> int:
        return sum(row.enu_m is not None for row in self.rows)

    def typical(self, values: np.ndarray) -> Optional[list[float]]:
        """The medians east, north and up of deviations or limits; None where there are none."""
        known = values[~np.isnan(values[:, 0])]
        return np.median(known, axis=0).tolist() if len(known) else None


def judge(rows: Sequence[Row], limits: Limits = Limits(), until: Optional[datetime] = None) -> Series:
    """The deviations and alarms of rows, which stand by the clock. With `until` a session of that time should be there."""
    n = len(rows)
    deviations, sd, jump = (np.full((n, 3), math.nan) for _ in range(3))
    fixes = np.array([k for k, row in enumerate(rows) if row.enu_m is not None], dtype=int)
    places = np.array([rows[k].enu_m for k in fixes]).reshape(-1, 3)
    formal = np.maximum(np.array([rows[k].sd_mm for k in fixes]).reshape(-1, 3), 1e-3)
    reference = _reference(places, formal, [rows[k].pairs for k in fixes], limits)
    alarms: list[Alarm] = []
    if reference is not None:
        deviations[fixes], sd[fixes] = 1000 * (places - reference.enu_m), formal * reference.scales
        jump[fixes] = np.maximum(limits.floor_mm, reference.factor * np.hypot(sd[fixes], reference.sd_mm))
        alarms += _jumps(rows, fixes, deviations, jump)
        alarms += _creeps(rows, fixes, deviations, sd, reference, limits)
        alarms += _short(rows, reference, limits)
    alarms += [*_moved_bases(rows), *_dead(rows, limits, until)]
    alarms.sort(key=lambda it: (n if it.row is None else it.row, KINDS.index(it.kind), it.axis and AXES.index(it.axis)))
    return Series(rows, limits, reference, deviations, sd, jump, alarms)


# ---- the reference


def _reference(places: np.ndarray, formal: np.ndarray, pairs: Sequence[int], limits: Limits) -> Optional[Reference]:
    """By the first fixes: places (m), their formal standard deviations (mm) and pairs; None where these are too few."""
    first = slice(0, limits.reference)
    n = len(places[first])
    if n < LEAST_FIXES:
        return None
    enu = np.median(places[first], axis=0)
    scales = np.array([_scale(1000 * (places[first, c] - enu[c]), formal[first, c]) for c in range(3)])
    # of the median of n normal errors: sqrt(pi / 2n) of one
    sd = math.sqrt(math.pi / 2 / n) * np.median(formal[first], axis=0) * scales
    return Reference(enu, sd, scales, -float(stdtrit(n - 2, ndtr(-limits.sigmas))), float(np.median(pairs[first])))


def _scale(off: np.ndarray, formal: np.ndarray) -> float:
    """By how much deviations scatter more about a straight line than their formal standard deviations say; at least 1."""
    n = len(off)
    one, other = np.triu_indices(n, 1)
    slope = np.median((off[other] - off[one]) / (other - one))
    left = off - slope * np.arange(n)
    size = np.abs(left - np.median(left)) / formal
    scale = math.sqrt(float((size**2).mean()))
    for _ in range(50):
        scale = math.sqrt(float((np.minimum(size, WINSOR * scale)**2).sum()) / (WINSOR_MEAN * (n - 2)))
    return max(1.0, scale)


# ---- movements


def _jumps(rows: Sequence[Row], fixes: np.ndarray, deviations: np.ndarray, limit: np.ndarray) -> Iterator[Alarm]:
    for k in fixes:
        for c in np.flatnonzero(np.abs(deviations[k]) > limit[k]):
            yield _movement(rows, int(k), "jump", int(c), deviations[k, c], limit[k, c])


def _creeps(rows: Sequence[Row], fixes: np.ndarray, deviations: np.ndarray, sd: np.ndarray, reference: Reference,
            limits: Limits) -> Iterator[Alarm]:
    for at in range(max(limits.reference, limits.window - 1), len(fixes)):
        last = fixes[at + 1 - limits.window:at + 1]
        weights = 1 / sd[last]**2
        mean = (weights * deviations[last]).sum(axis=0) / weights.sum(axis=0)
        shared = 1 + CORRELATION * (len(last) - 1)
        limit = np.maximum(limits.floor_mm, reference.factor * np.sqrt(shared / weights.sum(axis=0) + reference.sd_mm**2))
        for c in np.flatnonzero(np.abs(mean) > limit):
            yield _movement(rows, int(fixes[at]), "creep", int(c), mean[c], limit[c])


def _movement(rows: Sequence[Row], row: int, kind: str, axis: int, deviation: float, limit: float) -> Alarm:
    text = f"{deviation:+.1f} mm, limit {limit:.1f} mm"
    return Alarm(row, kind, rows[row].time, text, AXES[axis], float(deviation), float(limit))


# ---- faults of a station


def _moved_bases(rows: Sequence[Row]) -> Iterator[Alarm]:
    before = None
    for k, row in enumerate(rows):
        if row.base_m is None:
            continue
        if before is not None and row.base_m != before:
            yield Alarm(k, "base", row.time, f"the base's header moved by {math.dist(row.base_m, before):.4f} m")
        before = row.base_m


def _short(rows: Sequence[Row], reference: Reference, limits: Limits) -> Iterator[Alarm]:
    for k, row in enumerate(rows):
        if 0 < row.pairs < limits.shortest * reference.pairs:
            yield Alarm(k, "short", row.time, f"{row.pairs} pairs in place of {reference.pairs:.0f}")


def _dead(rows: Sequence[Row], limits: Limits, until: Optional[datetime]) -> Iterator[Alarm]:
    """Each session that is the last of so many without a fix, and those that are missing at the end."""
    gaps = 0
    for k, row in enumerate(rows):
        gaps = 0 if row.enu_m is not None else gaps + 1
        if gaps >= limits.silent:
            yield Alarm(k, "dead", row.time, f"no fix in {gaps} sessions")
    missing = 0 if until is None else _missing(rows, until, limits.silent)
    if missing and gaps + missing >= limits.silent:
        what = "1 session is missing" if missing == 1 else f"{missing} sessions are missing"
        yield Alarm(None, "dead", until, what + (f", after {gaps} without a fix" if gaps else ""))


def _missing(rows: Sequence[Row], until: datetime, silent: int) -> int:
    """How many sessions are missing after the last one, by the median of the time from one to the next (an hour where there is
    but one); `silent` where there is none."""
    times = [row.time for row in rows if row.time is not None]
    if not times:
        return silent
    steps = sorted(b - a for a, b in zip(times, times[1:])) or [timedelta(hours=1)]
    step = max(steps[len(steps) // 2], timedelta(seconds=1))
    return max(0, round((until - times[-1]) / step))
