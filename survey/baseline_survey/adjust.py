"""The vector of a fixed certificate by weighted least squares, its integers held.

The program's own vector weighs all phases alike and knows no atmosphere: it is there to decide integers. This one takes
the phases of the certificate's rows with the integers z1, takes the modelled troposphere (and antennas' phase centres) off,
weighs by elevation, and gives what the integers allow. It is floating point and proves nothing.

Model. At each time a satellite's phase, rover less base, is l = u . b + m z + c: b leads from the certificate's point to
the rover, u is the direction from the satellite, c a term that all satellites of this time and signal have in common (the
receivers' clocks; `least_squares` takes it off), and z the difference of the zenith delays beyond the model, with the wet mapping
function m. `combination` says which phases.

The air. The vapour between two heights is seldom that of the standard atmosphere: a wet zenith delay of 50 to 250 mm that falls to
1/e in 1.5 to 3 km leaves 40 mm (root mean square) for each km of height. So z is an unknown where the heights differ by 25 m or more,
0 beforehand with this standard deviation: what the phases tell of the air counts, and what they don't tell is in the covariance.

Weights. One phase at one receiver has the variance a^2 + b^2 / sin^2(elevation), by default 3 and 3 mm as in the RTKLIB
manual 2.4.2 (2013), appendix E.6(2); a row has the sum of both receivers'. The times count as independent, so the
covariance is too good: `blocks` tells how good the vector is by the scatter of its own parts.

Outliers. A satellite that is 50 mm off for minutes (low, reflected, or with a slip that wasn't seen) would pull the vector by
centimetres. So the adjustment is robust, unless `robust` is off: what is far off counts less or not at all (`least_squares`). The
integers stay as they are; `integers` asks whether this model would choose them too.

Units: metres and radians, arrays of float64.
"""
from __future__ import annotations

import math
from dataclasses import dataclass, replace
from datetime import datetime
from typing import Optional

import numpy as np

from . import atmosphere
from .antenna import Antenna
from .certificate import IOTA_M, WAVELENGTH_IOTA, Certificate, time_of
from .combination import BY_RULE, COMBINATIONS, Choice, chosen, combinations
from .errors import SurveyError
from .geodesy import axes_at, checked_place, delta_xyz, geodetic, rotated
from .least_squares import Solution, System, solve, weighted_at
from .rinex_header import Header

# A satellite's mean distance from the Earth's centre: a certificate has its direction alone. 2 % of it change an elevation
# by 10^-5 rad at 10 km between the receivers.
ORBIT_M = {"G": 26.56e6, "E": 29.60e6}
# Weights and mapping functions end here; what stands lower (`fix --mask 0`) is taken for as low as this.
LOWEST = math.radians(3.0)
# From this difference in height on the air between is an unknown.
LEAST_RISE_M = 25.0
# A standard deviation below this is no receiver's, and a weight of its square leaves the range of numbers.
LEAST_SIGMA_M = 1e-6


@dataclass(frozen=True)
class Settings:
    """How to adjust. `combination` may be BY_RULE: then it follows from length and time. The difference of the zenith delays beyond the
    model is 0 beforehand, with the standard deviation `zenith_per_m` for each metre of height between the receivers; with `zenith`
    with `zenith_sd_m` too, which a short time can't tell from a height. `weather` is that of both receivers' air, at its height;
    `base_antenna` and `rover_antenna` are their calibrations, both or neither."""
    sigma_a_m: float = 0.003
    sigma_b_m: float = 0.003
    combination: str = "both"
    zenith: bool = False
    zenith_sd_m: float = 0.010
    zenith_per_m: float = 40e-6
    troposphere: bool = True
    robust: bool = True
    weather: atmosphere.Weather = atmosphere.STANDARD
    base_antenna: Optional[Antenna] = None
    rover_antenna: Optional[Antenna] = None

    def __post_init__(self) -> None:
        if self.combination not in (BY_RULE, *COMBINATIONS):
            raise SurveyError(f"the combination is one of {', '.join((BY_RULE, *COMBINATIONS))}: {self.combination}")
        for sigma in (self.sigma_a_m, self.sigma_b_m):
            if not 0 <= sigma <= 1:
                raise SurveyError(f"a standard deviation is 0 to 1 m: {sigma}")
        if self.zenith_per_m != 0 and not 1e-9 <= self.zenith_per_m <= 1e-3:
            raise SurveyError(f"the standard deviation for each metre of height is 0, or 0.000001 to 1 mm: {1000 * self.zenith_per_m:g}")
        if not LEAST_SIGMA_M <= self.zenith_sd_m <= 1:
            raise SurveyError(f"the standard deviation of the zenith delays' difference is 0.001 to 1000 mm: {1000 * self.zenith_sd_m:g}")
        if max(self.sigma_a_m, self.sigma_b_m) < LEAST_SIGMA_M:
            raise SurveyError("one of both standard deviations is 0.001 mm or more")


@dataclass(frozen=True)
class Statistic:
    """The residuals of one satellite in one signal: how many, how many of them were left out, root mean square and greatest
    size of all, least and greatest elevation."""
    satellite: str
    signal: str
    n: int
    left_out: int
    rms_m: float
    greatest_m: float
    elevation_least: float
    elevation_greatest: float


@dataclass(frozen=True)
class Residuals:
    """All residuals in their order, as arrays of one length: the pair's number and tag, the satellite and signal by name, what
    is left in metres, its standard deviation before the adjustment, elevation and azimuth at the base, and the factor of its
    weight: 1, less for an outlier, 0 where it was left out."""
    pair: np.ndarray
    tag: np.ndarray
    arc: np.ndarray
    satellite: np.ndarray
    signal: np.ndarray
    residual_m: np.ndarray
    sigma_m: np.ndarray
    elevation: np.ndarray
    azimuth: np.ndarray
    factor: np.ndarray


@dataclass(frozen=True)
class Marks:
    """The vector from mark to mark, and both marks, by the headers' offsets of the antennas."""
    vector_m: np.ndarray
    enu_m: np.ndarray
    base_m: np.ndarray
    rover_m: np.ndarray
    base_delta_hen_m: tuple[float, float, float]
    rover_delta_hen_m: tuple[float, float, float]


@dataclass(frozen=True)
class Adjustment:
    """The vector from antenna to antenna (from ARP to ARP with calibrations), with covariances scaled by sigma0^2. `settings` have
    the combination that was taken, and `choice` says why."""
    settings: Settings
    choice: Choice
    vector_m: np.ndarray
    covariance_m2: np.ndarray
    enu_m: np.ndarray
    covariance_enu_m2: np.ndarray
    sigma0: float
    redundancy: int
    left_out: int
    moved_enu_m: np.ndarray
    zenith_m: Optional[float]
    zenith_sd_m: Optional[float]
    base_m: np.ndarray
    rover_m: np.ndarray
    pairs: int
    first: datetime
    last: datetime
    statistics: tuple[Statistic, ...]
    residuals: Residuals
    marks: Optional[Marks] = None

    @property
    def sd_m(self) -> np.ndarray:
        return np.sqrt(np.diag(self.covariance_m2))

    @property
    def sd_enu_m(self) -> np.ndarray:
        return np.sqrt(np.diag(self.covariance_enu_m2))


@dataclass(frozen=True)
class Blocks:
    """The precision by parts of the time: `used` blocks of `of` pairs each (`left` gave no vector), the standard
    deviation of one block and of the whole, east, north, up; the vectors less the whole one."""
    of: int
    used: int
    left: int
    scatter_enu_m: np.ndarray
    sd_enu_m: np.ndarray
    differences_enu_m: np.ndarray
    middles: tuple[datetime, ...]


@dataclass(frozen=True)
class Rows:
    """The rows of the pairs that count, as arrays: `pair` is a place in the list of these pairs, `phase_m` has a column for
    each band, what the phases with their integers leave at the point; `direction` leads from the satellite."""
    numbers: np.ndarray
    tags: np.ndarray
    pair: np.ndarray
    arc: np.ndarray
    phase_m: np.ndarray
    direction: np.ndarray
    elevation: np.ndarray
    azimuth: np.ndarray
    rover_elevation: np.ndarray
    rover_azimuth: np.ndarray


def adjust(cert: Certificate, settings: Settings = Settings(), base: Optional[Header] = None,
           rover: Optional[Header] = None) -> Adjustment:
    """The vector of a fixed certificate with its precision; with both headers also from mark to mark.

    Raises SurveyError where the certificate has no fix or isn't on the Earth, or where its rows don't determine the vector.
    """
    rows, place = rows_of(cert), checked_place(cert.base_m, "the base")
    first, last = time_of(int(rows.tags.min())), time_of(int(rows.tags.max()))
    choice = chosen(settings.combination, float(np.linalg.norm(cert.vector_m())), (last - first).total_seconds())
    settings = replace(settings, combination=choice.combination)
    found = solve(system_of(cert, rows, settings), settings.robust)
    whole = np.array(cert.point_m) - place + found.unknowns[:3]
    axes = axes_at(place)
    covariance = found.covariance[:3, :3]
    residuals = _residuals(cert, rows, found)
    zenith = (float(found.unknowns[3]), math.sqrt(found.covariance[3, 3])) if len(found.unknowns) > 3 else (None, None)
    done = Adjustment(
        settings=settings, choice=choice, vector_m=whole, covariance_m2=covariance, enu_m=axes @ whole,
        covariance_enu_m2=rotated(covariance, axes), sigma0=found.sigma0, redundancy=found.redundancy,
        left_out=int((found.factor == 0).sum()), moved_enu_m=axes @ (whole - np.array(cert.vector_m())), zenith_m=zenith[0],
        zenith_sd_m=zenith[1], base_m=place, rover_m=place + whole, pairs=len(rows.numbers), first=first, last=last,
        statistics=_statistics(residuals), residuals=residuals)
    return done if base is None or rover is None else replace(done, marks=marks_of(whole, place, base, rover))


def marks_of(vector: np.ndarray, place: np.ndarray, base: Header, rover: Header) -> Marks:
    """From antenna to antenna to from mark to mark: the base's mark is where its header says, the antennas stand over the
    marks by the offsets of the headers, each along the ellipsoid's normal at its own end."""
    over_base = delta_xyz(base.delta_m, place)
    over_rover = delta_xyz(rover.delta_m, place + vector)
    between = vector + over_base - over_rover
    return Marks(between, axes_at(place) @ between, place, place + between, base.delta_m, rover.delta_m)


def blocks(cert: Certificate, settings: Settings, count: int, whole: Optional[Adjustment] = None) -> Blocks:
    """The scatter of the vectors of blocks of `count` pairs each; integers, combination, air and weights are those of the whole. The
    last block has at least half as many pairs. Over the root of their number the scatter is the standard deviation of the whole, where
    the errors of different blocks are independent: choose blocks longer than the minutes for which multipath lasts, and at least four.

    Raises SurveyError with fewer than three blocks.
    """
    if count < 1:
        raise SurveyError(f"a block has at least one pair: {count}")
    whole = whole or adjust(cert, settings)
    axes, differences, middles, left = axes_at(whole.base_m), [], [], 0
    all_rows = rows_of(cert)
    factors = whole.residuals.factor.reshape(len(all_rows.pair), -1)
    for first in range(0, len(all_rows.numbers), count):
        rows = _part(all_rows, first, first + count)
        if 2 * len(rows.numbers) < count:
            continue
        try:
            inside = (all_rows.pair >= first) & (all_rows.pair < first + count)
            found = weighted_at(system_of(cert, rows, whole.settings, whole.zenith_m), factors[inside], whole.sigma0)
        except SurveyError:
            left += 1
            continue
        vector = np.array(cert.point_m) - whole.base_m + found.unknowns[:3]
        differences.append(axes @ (vector - whole.vector_m))
        middles.append(time_of((int(rows.tags[0]) + int(rows.tags[-1])) // 2))
    if len(differences) < 3:
        raise SurveyError(f"{len(differences)} blocks of {count} pairs; the scatter needs three")
    scatter = np.std(np.array(differences), axis=0, ddof=1)
    return Blocks(count, len(differences), left, scatter, scatter / math.sqrt(len(differences)), np.array(differences),
                  tuple(middles))


def rows_of(cert: Certificate) -> Rows:
    """The phases of all pairs with two rows or more."""
    if cert.is_track or not cert.is_fixed:
        raise SurveyError("a track has a vector for each pair" if cert.is_track else f"no vector: {cert.tail.verdict}")
    base, point = checked_place(cert.base_m, "the base"), checked_place(cert.point_m, "the point")
    columns = cert.phase_columns
    held = np.array([cert.cycles(arc) for arc in range(len(cert.arcs))], dtype=float)
    pairs = [pair for pair in cert.pairs if len(pair.rows) > 1]
    if not pairs:
        raise SurveyError("no pair has two satellites")
    arc = np.array([row.arc for pair in pairs for row in pair.rows])
    observed = np.array([[row.observed[at] for at in columns] for pair in pairs for row in pair.rows], dtype=float)
    direction = np.array([row.direction for pair in pairs for row in pair.rows], dtype=float) / 2**24
    wavelengths = np.array([WAVELENGTH_IOTA[band] for band in cert.bands], dtype=float)
    phase = (observed / 2**13 - held[arc] * wavelengths) * IOTA_M
    length = np.linalg.norm(direction, axis=1)
    if not np.all(np.abs(length - 1) < 1e-3):
        raise SurveyError("a direction isn't of length 1")
    to_satellite = -direction / length[:, None]
    along = to_satellite @ point
    satellite = point + to_satellite * (np.sqrt(along**2 - point @ point + ORBIT_M[cert.system]**2) - along)[:, None]
    elevation, azimuth = _sky(satellite - base, base)
    rover_elevation, rover_azimuth = _sky(satellite - point, point)
    if min(elevation.min(), rover_elevation.min()) < -LOWEST:
        raise SurveyError("a satellite is below the horizon: the base or the point isn't that of the rows")
    return Rows(np.array([pair.number for pair in pairs]), np.array([pair.tag for pair in pairs]),
                 np.repeat(np.arange(len(pairs)), [len(pair.rows) for pair in pairs]), arc, phase, direction, elevation, azimuth,
                 rover_elevation, rover_azimuth)


def _part(rows: Rows, first: int, end: int) -> Rows:
    """The rows of the pairs from one place to before another."""
    inside = (rows.pair >= first) & (rows.pair < end)
    return Rows(rows.numbers[first:end], rows.tags[first:end], rows.pair[inside] - first,
                 *(it[inside] for it in (rows.arc, rows.phase_m, rows.direction, rows.elevation, rows.azimuth,
                                         rows.rover_elevation, rows.rover_azimuth)))


def _sky(vectors: np.ndarray, place: np.ndarray) -> tuple[np.ndarray, np.ndarray]:
    """Elevations and azimuths of vectors (n, 3) at a place."""
    east, north, up = axes_at(place) @ vectors.T
    return np.arctan2(up, np.hypot(east, north)), np.arctan2(east, north) % (2 * math.pi)


def _corrections(cert: Certificate, rows: Rows, settings: Settings) -> np.ndarray:
    """What is taken off each row's phases (n, bands), rover less base: troposphere and phase centres, in metres."""
    base, point = np.array(cert.base_m), np.array(cert.point_m)
    taken = np.zeros_like(rows.phase_m)
    if settings.troposphere:
        time = time_of(int(rows.tags[0]))
        (base_lat, _, base_height), (lat, _, height) = geodetic(base), geodetic(point)
        taken += (atmosphere.delay(np.maximum(rows.rover_elevation, LOWEST), lat, height, time, settings.weather)
                  - atmosphere.delay(np.maximum(rows.elevation, LOWEST), base_lat, base_height, time, settings.weather))[:, None]
    if settings.base_antenna is not None and settings.rover_antenna is not None:
        for column, band in enumerate(cert.bands):
            frequency = f"{cert.system}{band:02d}"
            taken[:, column] += (settings.rover_antenna.correction(frequency, rows.rover_elevation, rows.rover_azimuth)
                                 - settings.base_antenna.correction(frequency, rows.elevation, rows.azimuth))
    return taken


def zenith_sd(cert: Certificate, settings: Settings) -> float:
    """The standard deviation beforehand of the difference of the zenith delays in metres; 0 where it is no unknown."""
    rise = abs(geodetic(cert.point_m)[2] - geodetic(cert.base_m)[2])
    by_height = settings.zenith_per_m * rise if rise >= LEAST_RISE_M else 0.0
    return math.hypot(by_height, settings.zenith_sd_m if settings.zenith else 0.0)


def system_of(cert: Certificate, rows: Rows, settings: Settings, zenith_m: Optional[float] = None) -> System:
    """What is adjusted: three coordinates, and the difference of the zenith delays unless it is known (`zenith_m`) or none."""
    names, factors = combinations(cert.bands, settings.combination)
    phases = (rows.phase_m - _corrections(cert, rows, settings)) @ factors.T
    one = np.sqrt(_variance(rows.elevation, settings) + _variance(rows.rover_elevation, settings))
    sigma = one[:, None] * np.sqrt((factors**2).sum(axis=1))[None, :]
    design, before = rows.direction, [math.inf] * 3
    if (sd := zenith_sd(cert, settings)) > 0:
        mapping = atmosphere.niell_wet(np.maximum(rows.rover_elevation, LOWEST), geodetic(cert.point_m)[0])
        if zenith_m is None:
            design = np.column_stack([design, mapping])
            before.append(sd)
        else:
            phases = phases - zenith_m * mapping[:, None]
    starts = np.searchsorted(rows.pair, np.arange(len(rows.numbers)))
    columns = np.dstack([*(np.broadcast_to(column[:, None], phases.shape) for column in design.T), phases])
    return System(names, rows.pair, starts, columns, sigma, np.array(before))


def _variance(elevation: np.ndarray, settings: Settings) -> np.ndarray:
    """The variance of a phase at one receiver, in m^2."""
    return settings.sigma_a_m**2 + (settings.sigma_b_m / np.sin(np.maximum(elevation, LOWEST)))**2


def _residuals(cert: Certificate, rows: Rows, found: Solution) -> Residuals:
    """What is left, row by row and in each row signal by signal."""
    n, k = found.left.shape
    satellite = np.array([cert.satellite(arc) for arc in range(len(cert.arcs))])[rows.arc]
    pair, tag, arc, name, elevation, azimuth = (np.repeat(it, k) for it in (
        rows.numbers[rows.pair], rows.tags[rows.pair], rows.arc, satellite, rows.elevation, rows.azimuth))
    signal = np.tile(np.array(found.system.names), n)
    return Residuals(pair, tag, arc, name, signal, found.left.ravel(), found.system.sigma.ravel(), elevation, azimuth,
                     found.factor.ravel())


def _statistics(residuals: Residuals) -> tuple[Statistic, ...]:
    """For each satellite and signal, in the order of their names."""
    done = []
    for satellite in np.unique(residuals.satellite):
        for signal in np.unique(residuals.signal):
            inside = (residuals.satellite == satellite) & (residuals.signal == signal)
            left, elevation, out = (it[inside] for it in (residuals.residual_m, residuals.elevation, residuals.factor == 0))
            done.append(Statistic(str(satellite), str(signal), len(left), int(out.sum()), math.sqrt(float((left**2).mean())),
                                  float(np.abs(left).max()), float(elevation.min()), float(elevation.max())))
    return tuple(done)
