"""Places in the systems of the base's own frame, by PROJ (its library pyproj).

The base's header has coordinates of some frame, WGS 84 or ETRS89 or another: which one, only its author knows. A system of that frame
is a conversion of them, by the system's own ellipsoid and projection, and is exact. What needs more is refused by name: another
frame's motion or transformation, which depend on epochs and on grids, and heights over the sea, which need a model of the geoid.
"""
from __future__ import annotations

import math
from dataclasses import dataclass
from typing import TYPE_CHECKING, Sequence

import numpy as np

from .errors import SurveyError
from .geodesy import AXIS_M, FLATTENING, Vector, geodetic
from .text import visible

if TYPE_CHECKING:
    from pyproj import CRS

# How far a place may lie outside a system's area, in degrees: neighbouring zones of a projection are in use.
FAR_DEG = 6.0


@dataclass(frozen=True)
class Projected:
    """Places in a system: one tuple for each, with the names and units of the axes in the system's own order."""
    coordinates: tuple[tuple[float, ...], ...]
    axes: tuple[str, ...]
    units: tuple[str, ...]
    frame: str


def projected(places: Sequence[Vector], crs: str) -> Projected:
    """Places X Y Z (m) in the system `crs`, an EPSG code or any text that PROJ reads, of the places' own frame. Heights are over the
    ellipsoid.

    Raises SurveyError where PROJ doesn't know the system, where it isn't one of such a frame, or where a place lies outside it.
    """
    try:
        from pyproj import CRS, Transformer
        from pyproj.exceptions import CRSError, ProjError
        from pyproj.network import set_network_enabled
    except ModuleNotFoundError as why:
        from .cli import missing
        raise missing(why.name or "pyproj") from None
    set_network_enabled(False)
    crs, asked = " ".join(visible(crs).split())[:200], crs
    try:
        target = _checked(CRS.from_user_input(asked), crs)
        for place in places:
            _check_area(place, target, crs)
        named = [(axis.name, axis.unit_name) for axis in target.axis_info][:3]
        if target.is_geocentric:
            done = [tuple(float(x) for x in place) for place in places]
        else:
            own = target.geodetic_crs.to_3d()
            transformer = Transformer.from_crs(own, target, allow_ballpark=False)
            done = [transformer.transform(*_angles(place, own), errcheck=True)[:3] for place in places]
    except UnicodeEncodeError:
        raise SurveyError(f"system {crs}: bytes that aren't UTF-8") from None
    except (CRSError, ProjError) as why:
        raise SurveyError(f"system {crs}: {' '.join(str(why).split())[:200]}") from None
    if not np.all(np.isfinite(np.array(done, dtype=float))):
        raise SurveyError(f"system {crs}: PROJ gives no coordinates there")
    return Projected(tuple(tuple(float(x) for x in it) for it in done), tuple(it[0] for it in named), tuple(it[1] for it in named),
                     target.name)


def _checked(target: "CRS", crs: str) -> "CRS":
    """The system with heights over its ellipsoid; SurveyError where it takes more than a conversion."""
    if target.is_compound or target.is_vertical:
        raise SurveyError(f"system {crs}: {target.name} has heights over the sea, which need the grid of a geoid")
    if target.is_bound or target.geodetic_crs is None or target.geodetic_crs.is_derived:
        raise SurveyError(f"system {crs}: {target.name} isn't a plain system of a frame")
    ellipsoid = target.geodetic_crs.ellipsoid
    if abs(ellipsoid.semi_major_metre - AXIS_M) > 0.01 or abs(ellipsoid.inverse_flattening - 1 / FLATTENING) > 1e-5:
        raise SurveyError(f"system {crs}: {target.name} is of another frame (ellipsoid {ellipsoid.name}), to which a transformation or a "
                          "grid leads: its coordinates don't follow from the header's")
    return target if target.is_geocentric else target.to_3d()


def _check_area(place: Vector, target: "CRS", crs: str) -> None:
    """SurveyError where a place lies far outside the area for which a system was made."""
    area, (lat, lon, _) = target.area_of_use, geodetic(place)
    if area is None or area.west > area.east:
        return
    lat, lon = math.degrees(lat), math.degrees(lon)
    if not (area.west - FAR_DEG <= lon <= area.east + FAR_DEG and area.south - FAR_DEG <= lat <= area.north + FAR_DEG):
        raise SurveyError(f"system {crs}: {target.name} is for {area.name[:80]}, and the place lies at {lat:.1f} {lon:.1f}")


def _angles(place: Vector, own: "CRS") -> tuple[float, float, float]:
    """A place as the geodetic system's own axes have it."""
    lat, lon, height = geodetic(place)
    first, second = (lat, lon) if own.axis_info[0].direction.lower() in ("north", "south") else (lon, lat)
    return math.degrees(first), math.degrees(second), height
