"""Places and directions: geocentric X Y Z, longitude, latitude, height, and east, north, up.

A place is an array (3,) of metres in the Earth-fixed frame of the broadcast orbits (WGS 84), angles are radians, a
covariance is (3, 3). The ellipsoid is that of WGS 84 (NIMA TR8350.2, 2000: a = 6378137 m, 1/f = 298.257223563); GRS 80
differs from it by 0.1 mm. `frames` has projections.
"""
from __future__ import annotations

import math
from typing import Sequence, Union

import numpy as np

from .errors import SurveyError

AXIS_M = 6_378_137.0
FLATTENING = 1 / 298.257223563
ECCENTRICITY2 = FLATTENING * (2 - FLATTENING)
# Three numbers: a place, a vector.
Vector = Union[Sequence[float], np.ndarray]
# Where a receiver may stand, from the Earth's centre.
LEAST_RADIUS_M, GREATEST_RADIUS_M = 6.2e6, 6.5e6


def checked_place(xyz: Vector, what: str) -> np.ndarray:
    """A place as an array; SurveyError where it isn't near the Earth's surface (`what` names it)."""
    place = np.asarray(xyz, dtype=float)
    if not LEAST_RADIUS_M <= float(np.linalg.norm(place)) <= GREATEST_RADIUS_M:
        raise SurveyError(f"{what} isn't on the Earth: {' '.join(f'{x:.4f}' for x in place)}")
    return place


def geodetic(xyz: Vector) -> tuple[float, float, float]:
    """Latitude, longitude (radians) and height over the ellipsoid (metres) of a place, by iteration on the latitude;
    to 1e-9 m within 100 km of the ellipsoid, at the poles and the equator too."""
    x, y, z = (float(it) for it in xyz)
    radius = math.hypot(x, y)
    lat = math.atan2(z, radius * (1 - ECCENTRICITY2))
    for _ in range(12):
        normal = AXIS_M / math.sqrt(1 - ECCENTRICITY2 * math.sin(lat)**2)
        lat = math.atan2(z + ECCENTRICITY2 * normal * math.sin(lat), radius)
    normal = AXIS_M / math.sqrt(1 - ECCENTRICITY2 * math.sin(lat)**2)
    height = radius * math.cos(lat) + z * math.sin(lat) - AXIS_M**2 / normal
    return lat, math.atan2(y, x), height


def cartesian(lat: float, lon: float, height: float) -> np.ndarray:
    """X, Y, Z of a latitude, longitude (radians) and height over the ellipsoid (metres)."""
    normal = AXIS_M / math.sqrt(1 - ECCENTRICITY2 * math.sin(lat)**2)
    return np.array([(normal + height) * math.cos(lat) * math.cos(lon), (normal + height) * math.cos(lat) * math.sin(lon),
                     (normal * (1 - ECCENTRICITY2) + height) * math.sin(lat)])


def local_axes(lat: float, lon: float) -> np.ndarray:
    """The matrix (3, 3) whose rows are east, north and up there, in X, Y, Z."""
    sin_lat, cos_lat, sin_lon, cos_lon = math.sin(lat), math.cos(lat), math.sin(lon), math.cos(lon)
    return np.array([[-sin_lon, cos_lon, 0.0], [-sin_lat * cos_lon, -sin_lat * sin_lon, cos_lat],
                     [cos_lat * cos_lon, cos_lat * sin_lon, sin_lat]])


def axes_at(xyz: Vector) -> np.ndarray:
    """The local axes at a place, those of the ellipsoid's normal."""
    return local_axes(*geodetic(xyz)[:2])


def to_local(vector: Vector, origin: Vector) -> np.ndarray:
    """East, north and up, at the origin, of a vector in X, Y, Z."""
    return axes_at(origin) @ np.asarray(vector, dtype=float)


def rotated(covariance: np.ndarray, axes: np.ndarray) -> np.ndarray:
    """A covariance along other axes, the rows of a rotation."""
    return axes @ covariance @ axes.T


def azimuth_zenith(enu: Vector) -> tuple[float, float, float]:
    """Azimuth from north over east (0 to 2 pi), zenith angle (0 is up) and slope distance of a local vector."""
    east, north, up = (float(it) for it in enu)
    level = math.hypot(east, north)
    return math.atan2(east, north) % (2 * math.pi), math.atan2(level, up), math.hypot(level, up)


def delta_xyz(delta_hen: Vector, xyz: Vector) -> np.ndarray:
    """A header's antenna offset (height, east, north over the mark) as X, Y, Z at that place."""
    height, east, north = delta_hen
    return axes_at(xyz).T @ np.array([east, north, height])
