"""The integers of a certificate as real numbers, in the model of the adjustment: would it choose them too?

`fix` decided the integers in a model without troposphere and with one weight for all phases. The adjustment has both, so it can say
what it thinks of them. For each arc in turn its integers become unknowns, real numbers, beside the vector, while all other integers
stay held and weigh as the robust adjustment of all phases left them. Where each band's phase is taken for itself, each has a number;
where the phases are combined, the arc has one, by which the integers of all its bands grow alike: in the ionosphere-free combination
of L1 and L2 one such cycle is 107 mm. A number over a quarter of a cycle off wants a look: a wrong integer, a slip inside the arc,
or, with `both` on a long line by day, the ionosphere. A set of integers that is wrong as a whole shows only as far as it fits this
model badly.

Units: cycles.
"""
from __future__ import annotations

import math
from dataclasses import dataclass, replace

import numpy as np

from .adjust import Settings, rows_of, system_of
from .certificate import IOTA_M, WAVELENGTH_IOTA, Certificate
from .combination import combinations
from .errors import SurveyError
from .least_squares import Solution, System, solve, weighted_at

# From where a real number is too far from its integer.
FARTHEST = 0.25


@dataclass(frozen=True)
class RealInteger:
    """How far the integers of an arc, in one band or in all, lie from real numbers of the adjustment, with the standard deviation."""
    satellite: str
    arc: int
    signal: str
    held: tuple[int, ...]
    off: float
    sd: float

    @property
    def is_far(self) -> bool:
        """Whether a person should look."""
        return abs(self.off) > FARTHEST

    def __str__(self) -> str:
        held = " and ".join(map(str, self.held))
        return f"{self.signal} of {self.satellite} (arc {self.arc}): as a real number {abs(self.off):.2f} cycles from the held {held}"


def real_integers(cert: Certificate, settings: Settings) -> tuple[RealInteger, ...]:
    """The integers of all arcs whose rows tell them, in the order of arcs and signals; datums, whose integers are 0, too. An arc that is
    far off pulls the others: so of the far ones that is taken out without which all fits best, and the others are estimated again
    without it, until none is far. `settings` are those of an adjustment, whose combination is known.

    Raises SurveyError as `adjust`.
    """
    rows = rows_of(cert)
    system = system_of(cert, rows, settings)
    lengths, arcs = _cycle_lengths(cert, settings), [int(arc) for arc in np.unique(rows.arc)]
    taken_out = np.zeros(len(rows.arc), dtype=bool)
    far: dict[int, list[RealInteger]] = {}
    while True:
        whole = solve(system, settings.robust, taken_out)
        fits = {arc: _of_arc(cert, system, whole, lengths, arc, rows.arc == arc) for arc in arcs if arc not in far}
        candidates = {arc: sigma0 for arc, (numbers, sigma0) in fits.items() if any(it.is_far for it in numbers)}
        if not candidates or len(fits) < 5:
            return tuple(it for arc in arcs for it in (far[arc] if arc in far else fits[arc][0]))
        worst = min(candidates, key=lambda arc: candidates[arc])
        far[worst] = fits[worst][0]
        taken_out |= rows.arc == worst


def _of_arc(cert: Certificate, system: System, whole: Solution, lengths: np.ndarray, arc: int,
            own: np.ndarray) -> tuple[list[RealInteger], float]:
    """The numbers of one arc, whose rows are `own`, beside the other arcs as they count in a solution; and sigma0 with them."""
    factor, first = np.where(own[:, None], 1.0, whole.factor), len(system.before)
    try:
        solution = weighted_at(_with_integers(system, lengths, own), factor, whole.sigma0)
    except SurveyError:
        return [], math.inf
    sds, cycles = np.sqrt(np.diag(solution.covariance))[first:], cert.cycles(arc)
    held = [(it,) for it in cycles] if len(lengths) == len(cycles) else [cycles]
    numbers = [RealInteger(cert.satellite(arc), arc, name, integers, float(off), float(sd))
               for name, integers, off, sd in zip(system.names, held, solution.unknowns[first:], sds)]
    return numbers, solution.sigma0


def _cycle_lengths(cert: Certificate, settings: Settings) -> np.ndarray:
    """For each combined phase how many metres it changes where the integers of its bands grow by one."""
    wavelengths = np.array([WAVELENGTH_IOTA[band] for band in cert.bands]) * IOTA_M
    return combinations(cert.bands, settings.combination)[1] @ wavelengths


def _with_integers(system: System, lengths: np.ndarray, own: np.ndarray) -> System:
    """The system with a column for each combined phase, in which an arc's rows have the length of a cycle."""
    integers = own[:, None, None] * np.diag(lengths)[None, :, :]
    columns = np.concatenate([system.columns[:, :, :-1], integers, system.columns[:, :, -1:]], axis=2)
    return replace(system, columns=columns, before=np.append(system.before, np.full(len(lengths), math.inf)))
