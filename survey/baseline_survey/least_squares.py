"""Weighted least squares of phases that share a common term at each time, with weights that follow the residuals.

At each time and in each combination all rows have a term in common (the receivers' clocks), which is taken off as a weighted mean.
With equal weights this is the certificate's own sum of squares, the sum over times and signals of (n sum s^2 - (sum s)^2) / n: that
of the double differences by the inverse of their covariance (Leick, A. et al., GPS satellite surveying, 4th edition 2015, chapter 6).

Robust weights: a residual of u standard deviations (times the scale, 1.4826 times the median of all sizes) beyond 2.5 has its weight
times 2.5/u (Huber, P., Robust estimation of a location parameter, Annals of Mathematical Statistics 35, 1964, 73-101), and one beyond
5 is left out, in turns until the unknowns stay to 0.1 micrometres.
"""
from __future__ import annotations

import math
from dataclasses import dataclass
from typing import Optional

import numpy as np

from .errors import SurveyError

# From where a residual counts less, from where it doesn't count, and the least scale; how many turns leave nothing out, and the
# most turns.
LESSENED, LEFT_OUT, LEAST_SCALE = 2.5, 5.0, 0.05
SURE_TURNS, MOST_TURNS = 5, 100


@dataclass(frozen=True)
class System:
    """The observations of an adjustment: names of the combinations; for each row its pair's place, which grows from 0, and where
    each pair begins; for each row and combination the design's columns and last the phase in metres (n, combinations, unknowns
    and 1), and the phase's standard deviation; for each unknown that is 0 beforehand its standard deviation, else infinity."""
    names: tuple[str, ...]
    pair: np.ndarray
    starts: np.ndarray
    columns: np.ndarray
    sigma: np.ndarray
    before: np.ndarray


@dataclass(frozen=True)
class Solution:
    """The unknowns with their covariance, scaled by sigma0^2; for each row and combination what is left, and the factor of its
    weight."""
    unknowns: np.ndarray
    covariance: np.ndarray
    sigma0: float
    redundancy: int
    left: np.ndarray
    factor: np.ndarray
    system: System


def solve(system: System, robust: bool, left_out: Optional[np.ndarray] = None) -> Solution:
    """Weighted least squares, with weights that follow the residuals where it is robust. `left_out` says of each row whether it never
    counts."""
    is_out = np.zeros_like(system.sigma, dtype=bool)
    if left_out is not None:
        is_out |= left_out[:, None]
    factor = np.where(is_out, 0.0, 1.0)
    found = weighted_at(system, factor, 1.0)
    for turn in range(MOST_TURNS):
        if robust:
            size = np.abs(found.left) / system.sigma
            size /= max(1.4826 * float(np.median(size)), LEAST_SCALE)
            # what lies far off the first fit may lie near the last, so nothing is left out in the first turns; what is out stays
            is_out |= (size > LEFT_OUT) & (turn >= SURE_TURNS)
            factor = np.where(is_out, 0.0, np.minimum(1.0, LESSENED / np.maximum(size, LESSENED)))
        before, found = found, weighted_at(system, factor, found.sigma0)
        if turn > SURE_TURNS and np.abs(found.unknowns - before.unknowns).max() < 1e-7:
            break
    return found


def weighted_at(system: System, factor: np.ndarray, sigma0: float) -> Solution:
    """Weighted least squares: each time's weighted mean is taken off the design and off the phases, combination by
    combination. What is known beforehand weighs by its own standard deviation beside phases whose standard deviations are
    `sigma0` times those of the system. SurveyError where the rows don't determine the unknowns."""
    weight = factor / system.sigma**2
    centred = _centred(system.columns, weight, system)
    design, phases = centred[:, :, :-1], centred[:, :, -1]
    unknowns, known = design.shape[2], np.isfinite(system.before)
    weighted = (weight[:, :, None] * design).reshape(-1, unknowns)
    beforehand = (sigma0 / system.before)**2
    values, vectors = np.linalg.eigh(weighted.T @ design.reshape(-1, unknowns) + np.diag(beforehand))
    kept = np.add.reduceat((factor > 0).astype(int), system.starts)
    redundancy = int(np.maximum(kept - 1, 0).sum()) - unknowns + int(known.sum())
    if redundancy < 1 or values[0] <= 1e-12 * values[-1]:
        raise SurveyError("the rows don't determine the vector")
    inverse = (vectors / values) @ vectors.T
    found = inverse @ (weighted.T @ phases.ravel())
    left = phases - design @ found
    squares = float(((factor * left / system.sigma)**2).sum() + (beforehand * found**2).sum())
    # lessened residuals tell less of the noise than they take from it (Huber, Robust statistics, 1981, section 7.6)
    reached = math.sqrt(squares / redundancy) * np.count_nonzero(factor) / max(1, np.count_nonzero(factor == 1))
    return Solution(found, inverse * reached**2, reached, redundancy, left, factor, system)


def _centred(values: np.ndarray, weight: np.ndarray, system: System) -> np.ndarray:
    """Columns (n, combinations, columns) less the weighted means of their times; a time of which all rows were left out keeps
    them."""
    total = np.add.reduceat(weight, system.starts)
    means = np.add.reduceat(weight[:, :, None] * values, system.starts) / np.where(total > 0, total, 1.0)[:, :, None]
    return values - means[system.pair]
