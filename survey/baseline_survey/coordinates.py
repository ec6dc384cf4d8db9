"""Both marks of a vector: X Y Z, longitude, latitude, height, and in the projected systems of the same frame.

The position in a header (APPROX POSITION XYZ) is the *mark's* (RINEX 3.04, table A2), and the antenna stands over it by
ANTENNA: DELTA H/E/N. So the base's mark is where its header says, and the rover's mark is found from it by the vector from
antenna to antenna and both offsets. `fix` takes the header's position for the antenna's: an antenna 2 m high changes a
vector by 0.1 mm for each 2 km, which is left as it is.
"""
from __future__ import annotations

import math
from dataclasses import dataclass, replace
from typing import Optional

import numpy as np

from .adjust import Adjustment, Settings, adjust, marks_of
from .certificate import Certificate, time_of
from .errors import SurveyError
from .frames import Projected, projected
from .geodesy import azimuth_zenith, geodetic
from .rinex_header import Header
from .text import moment, visible

# A rover's header that is farther than this from the vector's end is that of another place.
FARTHEST_M = 5000.0


@dataclass(frozen=True)
class Mark:
    """A mark: its name by the header, X Y Z in metres, latitude, longitude (radians), height over the ellipsoid."""
    name: str
    xyz_m: np.ndarray
    lat: float
    lon: float
    height_m: float


@dataclass(frozen=True)
class Coordinates:
    """Both marks, and what leads from the base's to the rover's: east, north, up at the base; azimuth from north and zenith
    angle (radians), slope and level distance; difference of the heights over the ellipsoid."""
    base: Mark
    rover: Mark
    enu_m: np.ndarray
    azimuth: float
    zenith: float
    slope_m: float
    level_m: float
    rise_m: float
    adjustment: Adjustment
    projected: Optional[Projected]


def check_belongs(cert: Certificate, base: Header, rover: Header) -> None:
    """SurveyError where the headers can't be those of the certificate's files: the base's position is another, the times of
    a file don't hold those of the pairs, or the rover's position lies elsewhere. A certificate doesn't bind its files, so a
    pair of files that passes may still be another: `verify` tells."""
    if base.position_tenths is None:
        raise SurveyError(f"{base.name}: no position in the header of the base")
    if base.position_tenths != cert.base:
        swapped = "; are base and rover exchanged?" if rover.position_tenths == cert.base else ""
        raise SurveyError(f"{base.name}: another base than that of {cert.name}: its header has "
                          f"{_spelled(base.position_tenths)}, the certificate {_spelled(cert.base)}{swapped}")
    first, last = time_of(cert.pairs[0].tag), time_of(cert.pairs[-1].tag)
    for header in (base, rover):
        if header.first_epoch is None or header.last_epoch is None:
            raise SurveyError(f"{header.name}: no observations")
        early, late = (header.first_epoch - first).total_seconds(), (last - header.last_epoch).total_seconds()
        if max(early, late) > 1.0:
            raise SurveyError(f"{header.name}: another time than that of {cert.name}: the file has "
                              f"{moment(header.first_epoch)} to {moment(header.last_epoch)}, the certificate {moment(first)} to "
                              f"{moment(last)}")
    if rover.position_m is not None:
        away = float(np.linalg.norm(np.array(rover.position_m) - np.array(cert.base_m) - np.array(cert.vector_m())))
        if away > FARTHEST_M:
            raise SurveyError(f"{rover.name}: another rover than that of {cert.name}: its header's position is "
                              f"{away / 1000:.1f} km away")


def _spelled(tenths: tuple[int, int, int]) -> str:
    return " ".join(f"{x / 10_000:.4f}" for x in tenths)


def coordinates(cert: Certificate, base: Header, rover: Header, settings: Settings = Settings(), crs: str = "") -> Coordinates:
    """Both marks by the adjusted vector; with `crs` in that system of the header's frame too. SurveyError as `adjust`, `check_belongs`
    and `projected`."""
    check_belongs(cert, base, rover)
    done = adjust(cert, settings)
    marks = marks_of(done.vector_m, done.base_m, base, rover)
    ends = [_mark(visible(header.marker) or "(no name)", place)
            for header, place in ((base, marks.base_m), (rover, marks.rover_m))]
    azimuth, zenith, slope = azimuth_zenith(marks.enu_m)
    other = projected([end.xyz_m for end in ends], crs) if crs else None
    return Coordinates(ends[0], ends[1], marks.enu_m, azimuth, zenith, slope, math.hypot(marks.enu_m[0], marks.enu_m[1]),
                       ends[1].height_m - ends[0].height_m, replace(done, marks=marks), other)


def _mark(name: str, xyz: np.ndarray) -> Mark:
    lat, lon, height = geodetic(xyz)
    return Mark(name, xyz, lat, lon, height)
