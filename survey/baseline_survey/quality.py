"""Whether a fixed certificate looks good: how clearly its integers won, and how well its phases fit.

`fixed` says that no other integers are as good, by the ratio that was asked for; it doesn't say that the phases fit well. A
slip that wasn't seen, a low satellite or a bad reflection shows in three numbers of the text: the ratio that was *reached*
(1000 P2 / (64 T)), the residuals of the phases, and how many satellites there are. The limits are experience (20 mm: what
good receivers keep on short vectors), not theory; each is an option.

Its notes come from the second checker (recipes/check_certificate.py), which decides the text again from its rows, and says in which
ways it isn't as `fix` and `track` write it, and how far from the printed vector that of other observations in the same boxes may lie.

The residuals are those of `baseline residuals`: at z1 with the certificate's own move, less the plain mean over each pair's
rows, without troposphere and weights. So the same numbers can be had from the program. Units: metres.
"""
from __future__ import annotations

import math
from dataclasses import dataclass
from datetime import datetime
from typing import Optional

import numpy as np

from .certificate import IOTA_M, WAVELENGTH_IOTA, Certificate, Second, decided, time_of
from .errors import SurveyError
from .text import clock


# How many visits the second checker's searches may make: some seconds.
VISITS = 500_000


@dataclass(frozen=True)
class Limits:
    """What stands out: a ratio reached below `ratio`, a phase residual over `phase_m`, a pair with fewer satellites than
    `satellites`."""
    ratio: float = 5.0
    phase_m: float = 0.020
    satellites: int = 6

    def __post_init__(self) -> None:
        if not (self.ratio > 0 and self.phase_m > 0 and self.satellites > 0):
            raise SurveyError("limits must be above 0")


@dataclass(frozen=True)
class SatelliteFit:
    """The phase residuals of one satellite in one signal."""
    satellite: str
    signal: str
    n: int
    rms_m: float
    greatest_m: float
    greatest_at: datetime


@dataclass(frozen=True)
class Quality:
    """The figures of a certificate and what stands out; `flags` is empty where nothing does. `ratio_reached` is None where
    the sum of squares is 0."""
    ratio_asked: float
    ratio_reached: Optional[float]
    satellites: tuple[str, ...]
    satellites_least: int
    pairs: int
    first: datetime
    last: datetime
    rms_m: float
    greatest_m: float
    greatest_satellite: str
    greatest_signal: str
    greatest_at: datetime
    fits: tuple[SatelliteFit, ...]
    second: Second
    flags: tuple[str, ...]
    limits: Limits

    @property
    def looks(self) -> bool:
        """Whether a person should look."""
        return bool(self.flags)


def quality(cert: Certificate, limits: Limits = Limits()) -> Quality:
    """The figures of a fixed certificate, of a track too. SurveyError where it is declined."""
    if not cert.is_fixed:
        raise SurveyError(f"no fix: {cert.tail.verdict}")
    arc, pair, left = phase_residuals(cert)
    names = [f"L{band}" for band in cert.bands]
    satellite = np.array([cert.satellite(it) for it in range(len(cert.arcs))])[arc]
    size = np.abs(left)
    row, column = np.unravel_index(int(size.argmax()), size.shape)
    fits = []
    for name in np.unique(satellite):
        inside = np.flatnonzero(satellite == name)
        for k, signal in enumerate(names):
            worst = inside[int(size[inside, k].argmax())]
            rms = math.sqrt(float((left[inside, k]**2).mean()))
            fits.append(SatelliteFit(str(name), signal, len(inside), rms, float(size[worst, k]),
                                     time_of(cert.pairs[pair[worst]].tag)))
    counts = [len(it.rows) for it in cert.pairs]
    reached = cert.ratio_reached
    few = sum(count < limits.satellites for count in counts)
    flags = []
    if reached is not None and reached < limits.ratio:
        flags.append(f"ratio reached {reached:.1f} is below {limits.ratio:g}")
    for fit in fits:
        if fit.greatest_m > limits.phase_m:
            flags.append(f"phase {fit.signal} of {fit.satellite} is {1000 * fit.greatest_m:.1f} mm off at "
                         f"{clock(fit.greatest_at)}, over {1000 * limits.phase_m:g} mm")
    if few:
        flags.append(f"fewer than {limits.satellites} satellites in {few} of {len(counts)} pairs")
    second = decided(cert, VISITS)
    if second.verdict.startswith("not certified"):
        flags.append(f"the second checker says: {second.verdict}")
    flags += [f"note of the second checker: {note}" for note in second.notes]
    return Quality(
        ratio_asked=cert.ratio / 1000, ratio_reached=reached, satellites=tuple(str(it) for it in np.unique(satellite)),
        satellites_least=min(counts), pairs=len(counts), first=time_of(cert.pairs[0].tag), last=time_of(cert.pairs[-1].tag),
        rms_m=math.sqrt(float((left**2).mean())), greatest_m=float(size[row, column]), greatest_satellite=str(satellite[row]),
        greatest_signal=names[column], greatest_at=time_of(cert.pairs[pair[row]].tag), fits=tuple(fits), second=second,
        flags=tuple(flags), limits=limits)


def phase_residuals(cert: Certificate) -> tuple[np.ndarray, np.ndarray, np.ndarray]:
    """For each row of the certificate its arc, the place of its pair, and the phases' residuals in metres (rows, bands)."""
    columns = cert.phase_columns
    held = np.array([cert.cycles(arc) for arc in range(len(cert.arcs))], dtype=float)
    arc = np.array([row.arc for pair in cert.pairs for row in pair.rows])
    pair = np.repeat(np.arange(len(cert.pairs)), [len(it.rows) for it in cert.pairs])
    observed = np.array([[row.observed[at] for at in columns] for it in cert.pairs for row in it.rows], dtype=float) / 2**13
    direction = np.array([row.direction for it in cert.pairs for row in it.rows], dtype=float) / 2**24
    moves = np.array(cert.tail.moves, dtype=float) / 2**5
    moved = (direction * (moves[pair] if cert.is_track else moves[0])).sum(axis=1)
    wavelengths = np.array([WAVELENGTH_IOTA[band] for band in cert.bands], dtype=float)
    left = observed - moved[:, None] - held[arc] * wavelengths
    count = np.bincount(pair)
    means = np.stack([np.bincount(pair, column) / count for column in left.T], axis=1)
    return arc, pair, (left - means[pair]) * IOTA_M
