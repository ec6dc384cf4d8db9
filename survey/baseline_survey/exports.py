"""An adjusted network, or its vectors, in the forms that other programs read.

| Form | For | What is written | The form's source |
|---|---|---|---|
| `gama` | GNU Gama | observed vectors with covariances, held and approximate places | manual, "XML input data format for gama-local" |
| `sinex` | scientific packages | adjusted coordinates with their whole covariance | SINEX 2.02, 1 December 2006 (IERS) |

Both were written from these descriptions. The tests read each file back by a reader of their own; no such program read them.
A name that SINEX can't hold (four capital letters or digits) gets a code, and a comment of the file says which.
"""
from __future__ import annotations

import math
import re
from datetime import datetime, timezone
from typing import Callable, Iterable, Mapping, Optional, Sequence
from xml.sax.saxutils import quoteattr

import numpy as np

from . import geodesy
from .network import Network
from .text import visible

MM2 = 1e6  # mm^2 in a m^2
# The variance that held coordinates get, in m^2: a covariance of 0 can't be inverted.
HELD_M2 = 1e-10
_BAD_XML = re.compile("[^\t\n\r\x20-\ud7ff\ue000-\ufffd\U00010000-\U0010ffff]")
_DIGITS = "0123456789ABCDEFGHIJKLMNOPQRSTUVWXYZ"


# ---- GNU Gama


def gama(network: Network) -> bytes:
    """Input of gama-local: XML. Vectors in m, covariances in mm^2; the standard deviation a priori is 1, so the covariances
    are meant as they stand. Coordinates are Earth-fixed X Y Z, which gama-local takes as a local frame."""
    out = ['<?xml version="1.0" encoding="UTF-8"?>', '<gama-local xmlns="http://www.gnu.org/software/gama/gama-local">',
           '<network axes-xy="ne" angles="left-handed">',
           "<description>vectors of proved integers, Earth-fixed X Y Z; adjusted from certificates by baseline-survey</description>",
           '<parameters sigma-apr="1" conf-pr="0.95" tol-abs="1000" sigma-act="aposteriori" />', "<points-observations>"]
    for name in (*network.held, *network.stations):
        x, y, z = network.places[name]
        kind = 'fix="xyz"' if name in network.held else 'adj="xyz"'
        out.append(f'<point id={_attribute(name)} x="{x:.4f}" y="{y:.4f}" z="{z:.4f}" {kind} />')
    for line in network.lines:
        x, y, z = line.vector
        ends = f"from={_attribute(line.start)} to={_attribute(line.end)}"
        out += ["<vectors>", f'<vec {ends} dx="{x:.5f}" dy="{y:.5f}" dz="{z:.5f}" />',
                f'<cov-mat dim="3" band="2">{_upper(MM2 * line.covariance)}</cov-mat>', "</vectors>"]
    return "\n".join([*out, "</points-observations>", "</network>", "</gama-local>", ""]).encode("utf-8")


def _attribute(name: str) -> str:
    """A name as an attribute with its quotes. What XML 1.0 can't hold becomes an escape such as \\x1b; a line end or tab
    would be read as a blank, so it is escaped too."""
    clean = _BAD_XML.sub(lambda it: visible(it[0]), name)
    return quoteattr(re.sub(r"[\t\n\r]", lambda it: visible(it[0]), clean))


def _upper(matrix: np.ndarray) -> str:
    """The upper triangle by rows."""
    return " ".join(f"{matrix[i, j]:.8g}" for i in range(3) for j in range(i, 3))


# ---- SINEX


def sinex(network: Network, agency: str = "XXX", now: Optional[datetime] = None) -> bytes:
    """A SINEX file of the adjusted coordinates with their covariance, scaled as the standard deviations are. The network must
    have been adjusted with `full`. Held stations stand in it with a standard deviation of 0.01 mm."""
    now = now or datetime.now(timezone.utc).replace(tzinfo=None)
    names, covariance = [*network.held, *network.stations], _covariance(network)
    code = codes(names)
    first, last = min(line.first for line in network.lines), max(line.last for line in network.lines)
    middle = first + (last - first) / 2
    span = f"{_moment(first)} {_moment(last)}"
    out = [f"%=SNX 2.02 {agency[:3]:3} {_moment(now)} {agency[:3]:3} {span} P {len(covariance):05d} 0 S", "*" + "-" * 79]
    out += _block("FILE/REFERENCE", "", [
        " DESCRIPTION        baseline-survey", " OUTPUT             adjusted network of GNSS vectors",
        " SOFTWARE           baseline-survey", " INPUT              certificates of fixed baselines"])
    out += _block("FILE/COMMENT", "", [
        *(f" {code[name]} {_ascii(name)}"[:80] for name in names if code[name] != name),
        f" standard deviations are scaled by {network.scale:.3f}"])
    out += _block("SITE/ID", "*CODE PT __DOMES__ T _STATION DESCRIPTION__ APPROX_LON_ APPROX_LAT_ _APP_H_",
                  [_site(code[name], name, network.places[name]) for name in names])
    out += _block("SOLUTION/EPOCHS", "*CODE PT SOLN T _DATA_START_ __DATA_END__ _MEAN_EPOCH_",
                  [f" {code[name]:4}  A    1 P {span} {_moment(middle)}" for name in names])
    out += _block("SOLUTION/ESTIMATE", "*INDEX TYPE__ CODE PT SOLN _REF_EPOCH__ UNIT S __ESTIMATED VALUE____ _STD_DEV___",
                  _estimates(network, names, code, covariance, middle))
    out += _block("SOLUTION/MATRIX_ESTIMATE L COVA",
                  "*PARA1 PARA2 ____PARA2+0__________ ____PARA2+1__________ ____PARA2+2__________", _matrix(covariance))
    return "\n".join([*out, "%ENDSNX", ""]).encode("ascii")


def codes(names: Iterable[str]) -> dict[str, str]:
    """A code of four letters or digits for each name: the name itself where it is one, else S and a number of base 36."""
    names = list(names)
    given = {name: name for name in names if re.fullmatch("[A-Z0-9]{4}", name)}
    taken, number = set(given), 0
    for name in names:
        while name not in given:
            number += 1
            code = f"S{_DIGITS[number // 1296]}{_DIGITS[number // 36 % 36]}{_DIGITS[number % 36]}"
            if code not in taken:
                given[name] = code
    return given


def _block(title: str, head: str, lines: Sequence[str]) -> list[str]:
    return [f"+{title}", *([head] if head else []), *lines, f"-{title}"]


def _site(code: str, name: str, place: np.ndarray) -> str:
    lat, lon, height = geodesy.geodetic(place)
    where = f"{_degrees(math.degrees(lon) % 360)} {_degrees(math.degrees(lat))} {height:7.1f}"
    return f" {code:4}  A           P {_ascii(name)[:22]:22} {where}"


def _estimates(network: Network, names: Sequence[str], code: Mapping[str, str], covariance: np.ndarray,
               middle: datetime) -> list[str]:
    """A line for each coordinate: 0 says that it was held, 2 that it is free."""
    out = []
    for k, name in enumerate(names):
        for axis, value in enumerate(network.places[name]):
            at = 3 * k + axis
            out.append(f" {at + 1:5d} STA{'XYZ'[axis]}   {code[name]:4}  A    1 {_moment(middle)} m    "
                       f"{0 if name in network.held else 2} {value:21.14E} {math.sqrt(covariance[at, at]):11.5E}")
    return out


def _matrix(covariance: np.ndarray) -> list[str]:
    """The lower triangle by rows, three values a line."""
    out = []
    for row, values in enumerate(covariance.tolist(), 1):
        for column in range(0, row, 3):
            some = values[column:min(column + 3, row)]
            out.append((" %5d %5d" + " %21.14E" * len(some)) % (row, column + 1, *some))
    return out


def _covariance(network: Network) -> np.ndarray:
    """Of all stations, the held ones first, in m^2 and scaled."""
    if network.full is None:
        raise ValueError("the network was adjusted without its whole covariance")
    fixed = 3 * len(network.held)
    covariance = np.zeros((fixed + len(network.full),) * 2)
    covariance[:fixed, :fixed] = HELD_M2 * np.eye(fixed)
    covariance[fixed:, fixed:] = network.scale**2 * network.full
    return covariance


def _moment(time: datetime) -> str:
    """YY:DDD:SSSSS, the day of the year and the second of the day."""
    day = time.timetuple().tm_yday
    return f"{time.year % 100:02d}:{day:03d}:{time.hour * 3600 + time.minute * 60 + time.second:05d}"


def _degrees(value: float) -> str:
    """Degrees, minutes and seconds in SINEX's columns (I3, I2, F4.1)."""
    degrees, rest = divmod(round(abs(value) * 36_000), 36_000)
    return f"{'-' * (value < 0) + str(degrees):>3} {rest // 600:2d} {rest % 600 / 10:4.1f}"


def _ascii(text: str) -> str:
    return visible(text).encode("ascii", "backslashreplace").decode("ascii")


FORMS: Mapping[str, Callable[[Network], bytes]] = {"gama": gama, "sinex": sinex}
