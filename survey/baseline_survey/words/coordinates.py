"""Both marks of a fixed certificate: X Y Z, longitude, latitude and height, what leads from one to the other, and projected.

The base's mark is where its header says (APPROX POSITION XYZ); the rover's follows by the adjusted vector and both antenna
heights. So the coordinates are as good as those of the base's header, and in its frame: put known ones there with `rebase` first.
Heights are over the ellipsoid, not over the sea. --crs adds a system of the same frame; one that needs a grid, another frame's motion
or a transformation is refused. Status 1 and a line `look` for each integer that `adjust` would name.
"""
from __future__ import annotations

import argparse
import math
from typing import Any

from ..certificate import read_fixed
from ..cli import Outcome
from ..coordinates import Coordinates, Mark, check_belongs, coordinates
from ..geodesy import checked_place, geodetic
from ..integers import real_integers
from ..rinex_header import read_header
from ..text import number, numbers, visible
from .options import add_settings, settings_of


def configure(parser: argparse.ArgumentParser) -> None:
    parser.add_argument("certificate", metavar="CERT", help="a certificate of `fix` whose last line is fixed")
    parser.add_argument("base", metavar="BASE", help="the base's observation file")
    parser.add_argument("rover", metavar="ROVER", help="the rover's observation file")
    parser.add_argument("--crs", default="", metavar="SYSTEM", help="a projected system of the header's frame, as EPSG:32654")
    add_settings(parser)


def run(options: argparse.Namespace) -> Outcome:
    cert, base, rover = read_fixed(options.certificate), read_header(options.base), read_header(options.rover)
    check_belongs(cert, base, rover)
    height = geodetic(checked_place(cert.base_m, f"{cert.name}: the base"))[2]
    settings = settings_of(options, height, base, rover)
    done = coordinates(cert, base, rover, settings, options.crs)
    looks = [str(it) for it in real_integers(cert, done.adjustment.settings) if it.is_far]
    lines = lines_of(done) + [f"look: {it}" for it in looks]
    return Outcome("\n".join(lines), {**data_of(done), "look": looks}, int(bool(looks)))


def lines_of(done: Coordinates) -> list[str]:
    lines = []
    for which, mark in (("base", done.base), ("rover", done.rover)):
        degrees = f"{math.degrees(mark.lon):.10f} {math.degrees(mark.lat):.10f}"
        lines += [f"{which} {mark.name}", f"{which}_xyz_m {numbers(mark.xyz_m, 4)}",
                  f"{which}_lon_lat_h {degrees} {number(mark.height_m, 4)}",
                  f"{which}_lon_lat_dms {sexagesimal(mark.lon)} {sexagesimal(mark.lat)}"]
    lines += [f"enu_m {numbers(done.enu_m, 4)}", f"sd_enu_mm {numbers(1000 * done.adjustment.sd_enu_m, 2)} (formal)",
              f"azimuth_deg {math.degrees(done.azimuth):.6f}", f"zenith_deg {math.degrees(done.zenith):.6f}",
              f"slope_m {number(done.slope_m, 4)}", f"level_m {number(done.level_m, 4)}",
              f"height_difference_m {number(done.rise_m, 4)}"]
    if done.projected:
        frame = done.projected
        axes = ", ".join(f"{name} ({unit})" for name, unit in zip(frame.axes, frame.units))
        lines += [f"system {visible(frame.frame)}, heights over the ellipsoid", f"axes {axes}"]
        for which, place in zip(("base", "rover"), frame.coordinates):
            told = [number(x, 10 if unit == "degree" else 4) for x, unit in zip(place, frame.units)]
            lines.append(f"{which}_projected {' '.join(told)}")
    return lines


def sexagesimal(angle: float) -> str:
    """Degrees, minutes and seconds with five places, about 0.3 mm."""
    units = round(abs(math.degrees(angle)) * 3600 * 100_000)
    seconds, degrees = units % 6_000_000, units // 360_000_000
    sign, minutes = "-" if angle < 0 and units else "", units % 360_000_000 // 6_000_000
    return f"{sign}{degrees}d{minutes:02d}m{seconds // 100_000:02d}.{seconds % 100_000:05d}s"


def data_of(done: Coordinates) -> dict[str, Any]:
    data = {"base": mark_of(done.base), "rover": mark_of(done.rover), "enu_m": done.enu_m.tolist(),
            "sd_enu_mm": (1000 * done.adjustment.sd_enu_m).tolist(), "azimuth_deg": math.degrees(done.azimuth),
            "zenith_deg": math.degrees(done.zenith), "slope_m": done.slope_m, "level_m": done.level_m,
            "height_difference_m": done.rise_m}
    if done.projected:
        frame = done.projected
        data["projected"] = {"system": frame.frame, "axes": list(frame.axes), "units": list(frame.units),
                             "base": list(frame.coordinates[0]), "rover": list(frame.coordinates[1])}
    return data


def mark_of(it: Mark) -> dict[str, Any]:
    """A mark's values."""
    return {"name": it.name, "xyz_m": it.xyz_m.tolist(), "lon_deg": math.degrees(it.lon), "lat_deg": math.degrees(it.lat),
            "height_m": it.height_m}
