"""Networks: lines with their covariances, adjusted by weighted least squares with held stations.

A line is linear in the coordinates of its stations, so one step solves the network: minimise the sum over the lines of
r' C^-1 r with r = X_to - X_from - v. The normal matrix is sparse and is factored once (scipy's SuperLU); of its inverse only
the blocks of stations that a line joins are formed.

What the numbers mean. The covariances of single lines are too small for a claim of accuracy, since they take the noise of
each epoch as independent. sigma0 shows by how much; standard deviations are printed scaled by it where it is above 1. Lines
of one session aren't independent of each other (`loops`): the adjustment weighs them as if they were, and the redundancy is
counted without those that follow from others.

Sources: Leick, Rapoport, Tatarnikov, GPS Satellite Surveying, 4th ed., 2015, chapters 2 and 5 (adjustment of vector
networks); Baarda, A testing procedure for use in geodetic networks, 1968 (the test of a line's residual).
"""
from __future__ import annotations

import math
from dataclasses import dataclass, field
from typing import Mapping, Optional, Sequence

import numpy as np
from scipy import sparse
from scipy.sparse.linalg import SuperLU, splu
from scipy.stats import chi2, norm

from . import loops as control
from .geodesy import to_local
from .lines import Line, NetworkError
from .loops import Loop, Session

LEVEL = 0.01  # how many networks without a mistake may have a residual that stands out
BATCH = 256  # stations whose columns of the inverse are formed at a time


@dataclass(frozen=True)
class Residual:
    """What is left of a line, adjusted less observed: X Y Z and east north up in mm, its greatest coordinate over its
    standard deviation, and its redundancy, of 3: below 0.1 nothing controls the line."""

    line: Line
    xyz_mm: np.ndarray
    enu_mm: np.ndarray
    test: float
    redundancy: float


@dataclass(frozen=True)
class Network:
    """An adjusted network. Coordinates in m, covariances in m^2 before the scale; `scale` is max(1, sigma0)."""

    lines: Sequence[Line]
    held: Mapping[str, np.ndarray]
    stations: Sequence[str]
    places: Mapping[str, np.ndarray]
    blocks: Mapping[str, np.ndarray]
    residuals: Sequence[Residual]
    loops: Sequence[Loop]
    sessions: Sequence[Session]
    chi_square: float
    redundancy: int
    note: str = ""
    full: Optional[np.ndarray] = field(default=None, repr=False)

    @property
    def dependent(self) -> int:
        """How many lines follow from others of their session."""
        return sum(len(it.dependent) for it in self.sessions)

    @property
    def independent_redundancy(self) -> int:
        return max(0, self.redundancy - 3 * self.dependent)

    @property
    def sigma0(self) -> Optional[float]:
        """The a posteriori sigma0 of unit weight, over the independent redundancy; None where nothing controls."""
        return math.sqrt(self.chi_square / self.independent_redundancy) if self.independent_redundancy else None

    @property
    def scale(self) -> float:
        return max(1.0, self.sigma0 or 1.0)

    @property
    def greatest_test(self) -> float:
        """What no test of a residual passes in 99 of 100 networks without a mistake: a limit for one coordinate that grows
        with the number of all (Bonferroni); 3.3 for three lines, 4.6 for a thousand."""
        return float(norm.isf(LEVEL / (6 * len(self.lines))))

    def limits(self, level: float = 0.95) -> Optional[tuple[float, float]]:
        """The two-sided limits of chi square at this level, for the independent redundancy."""
        dof = self.independent_redundancy
        return (float(chi2.ppf((1 - level) / 2, dof)), float(chi2.ppf((1 + level) / 2, dof))) if dof else None


def adjust(lines: Sequence[Line], held: Mapping[str, Sequence[float]], full: bool = False) -> Network:
    """Adjusts the lines with these stations held (name: X Y Z in m). Where none is given, the first line's start is held at
    its certificate's base, and `note` says so. With `full` the whole covariance is kept, in the order of `stations`.

    Errors: `NetworkError` for a held name that no line has, stations that no line joins to a held one, or no unknown.
    """
    fixed = {name: np.asarray(place, float) for name, place in held.items()}
    note = ""
    if not fixed:
        fixed = {lines[0].start: lines[0].base}
        note = f"no station is held: {lines[0].start} stands at its file's header"
    unknown = _unknown(lines, fixed)
    column = {name: 3 * k for k, name in enumerate(unknown)}
    design, wanted = _design(lines, fixed, column)
    factor = _factored((design.T @ design).tocsc())
    solution = factor.solve(design.T @ wanted)
    # once more with what is left: the factor's rounding grows with the square of a chain's lines, 3 mm of 10,000
    solution += factor.solve(design.T @ (wanted - design @ solution))
    places = {**fixed, **{name: solution[column[name]:column[name] + 3] for name in unknown}}
    blocks = _blocks(factor, lines, column)
    weighted = design @ solution - wanted
    return Network(
        lines=lines, held=fixed, stations=unknown, places=places,
        blocks={name: blocks[column[name], column[name]] for name in unknown},
        residuals=[_residual(line, places, column, blocks) for line in lines],
        loops=control.loops(lines), sessions=control.sessions(lines), chi_square=float(weighted @ weighted),
        redundancy=3 * (len(lines) - len(unknown)), note=note, full=factor.solve(np.eye(len(solution))) if full else None)


def _unknown(lines: Sequence[Line], fixed: Mapping[str, np.ndarray]) -> list[str]:
    """The stations that aren't held, in the order of their names."""
    names = sorted({name for line in lines for name in (line.start, line.end)})
    for name in fixed:
        if name not in names:
            raise NetworkError(f"held station {name} is on no line")
    unknown = [name for name in names if name not in fixed]
    if not unknown:
        raise NetworkError("every station is held")
    if apart := control.apart_from(fixed, lines):
        more = " .." if len(apart) > 5 else ""
        raise NetworkError("no line leads to a held station from " + ", ".join(apart[:5]) + more)
    return unknown


def _design(lines: Sequence[Line], fixed: Mapping[str, np.ndarray],
            column: Mapping[str, int]) -> tuple[sparse.csr_matrix, np.ndarray]:
    """The weighted equations: a row for each coordinate of each line."""
    entries, rows, columns, wanted = [], [], [], np.empty(3 * len(lines))
    row, inner = np.repeat(np.arange(3), 3), np.tile(np.arange(3), 3)
    for k, line in enumerate(lines):
        root, right = _root(line), np.array(line.vector)
        for name, sign in ((line.start, -1.0), (line.end, 1.0)):
            if name in fixed:
                right -= sign * fixed[name]
                continue
            entries.append(sign * root.ravel())
            rows.append(3 * k + row)
            columns.append(column[name] + inner)
        wanted[3 * k:3 * k + 3] = root @ right
    shape, places = (3 * len(lines), 3 * len(column)), (np.concatenate(rows), np.concatenate(columns))
    return sparse.csr_matrix((np.concatenate(entries), places), shape=shape), wanted


def _root(line: Line) -> np.ndarray:
    """The matrix W with W'W the inverse of the line's covariance."""
    try:
        return np.linalg.inv(np.linalg.cholesky(line.covariance))
    except np.linalg.LinAlgError:
        raise NetworkError(f"{line.name}: the covariance isn't positive definite") from None


def _factored(normal: sparse.csc_matrix) -> SuperLU:
    try:
        return splu(normal, permc_spec="MMD_AT_PLUS_A", options={"SymmetricMode": True})
    except RuntimeError:
        raise NetworkError("the normal matrix is singular: the covariances of the lines differ too much") from None


def _blocks(factor: SuperLU, lines: Sequence[Line], column: Mapping[str, int]) -> dict[tuple[int, int], np.ndarray]:
    """The 3 x 3 blocks of the inverse of the normal matrix: those of each station, and of two stations with a line."""
    wanted: dict[int, set[int]] = {at: {at} for at in column.values()}
    for line in lines:
        if line.start in column and line.end in column:
            wanted[column[line.start]].add(column[line.end])
            wanted[column[line.end]].add(column[line.start])
    size, blocks = 3 * len(column), {}
    for low in range(0, size, 3 * BATCH):
        high = min(size, low + 3 * BATCH)
        unit = np.zeros((size, high - low))
        unit[np.arange(low, high), np.arange(high - low)] = 1
        part = factor.solve(unit)
        for at in range(low, high, 3):
            for other in wanted[at]:
                blocks[other, at] = part[other:other + 3, at - low:at - low + 3].copy()  # a view would keep all of `part`
    return blocks


def _residual(line: Line, places: Mapping[str, np.ndarray], column: Mapping[str, int],
              blocks: Mapping[tuple[int, int], np.ndarray]) -> Residual:
    left = places[line.end] - places[line.start] - line.vector
    at = [column[name] for name in (line.start, line.end) if name in column]
    adjusted = np.sum([blocks[a, b] if a == b else -blocks[a, b] for a in at for b in at] or [np.zeros((3, 3))], axis=0)
    spread = line.covariance - adjusted
    own = np.sqrt(np.maximum(np.diag(spread), 0))
    controlled = own > 1e-3 * np.sqrt(np.diag(line.covariance))
    test = max((abs(left[i]) / own[i] for i in range(3) if controlled[i]), default=0.0)
    redundancy = float(np.trace(spread @ np.linalg.inv(line.covariance)))
    return Residual(line, 1000 * left, 1000 * to_local(left, places[line.start]), float(test), max(0.0, redundancy))
