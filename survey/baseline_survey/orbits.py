"""Broadcast orbits and the broadcast ionosphere of a RINEX 3 navigation file, in floating point.

These are needed for directions alone: a satellite's place is right to some metres, and an elevation to a thousandth of
a degree. The program's own orbits are proved; these aren't, and nothing here enters an integer.

Sources: IS-GPS-200, 20.3.3.4.3 (user algorithm for ephemeris determination), 20.3.3.5.2.5 (ionospheric model, Klobuchar
1987); the European GNSS (Galileo) Open Service Signal-in-Space ICD, 5.1.1 (the same algorithm with its constants);
RINEX 3.04, tables A5, A6 and A8 (columns).
"""
from __future__ import annotations

import os
import re
from dataclasses import dataclass
from typing import Mapping, Optional, Sequence, Union

import numpy as np

from .certificate import MOST_BYTES
from .errors import SurveyError
from .packed import why_packed

LIGHT = 299_792_458.0  # m/s
TURN = 7.2921151467e-5  # rad/s, the Earth's rotation of both systems
MU = {"G": 3.986005e14, "E": 3.986004418e14}  # m^3/s^2
WEEK = 604_800
REACH = 7_200.0  # s: a record serves up to two hours from its toe, as in `fix`

# Carrier frequencies in Hz by system and band digit (RINEX 3.04, tables 4 and 6).
FREQUENCIES = {
    "G": {"1": 1575.42e6, "2": 1227.60e6, "5": 1176.45e6},
    "E": {"1": 1575.42e6, "5": 1176.45e6, "7": 1207.14e6, "8": 1191.795e6, "6": 1278.75e6},
}
_NUMBER = re.compile(r"[+-]?(?:[0-9]+\.?[0-9]*|\.[0-9]+)(?:[DdEe][+-]?[0-9]{1,2})?\Z")


class OrbitError(SurveyError):
    """A navigation file that can't be used: the line from 1 (0 where none is to blame), why, and the file's name."""

    def __init__(self, line: int, reason: str, name: str = "") -> None:
        super().__init__(line, reason, name)
        self.line, self.reason, self.name = line, reason, name

    def __str__(self) -> str:
        return ": ".join([self.name] * bool(self.name) + [f"line {self.line}"] * bool(self.line) + [self.reason])


@dataclass(frozen=True)
class Record:
    """One broadcast ephemeris. Angles in radians, lengths in metres, times in seconds; `toe` counts from 1980-01-06."""

    satellite: str
    toe: float
    toe_of_week: float
    sqrt_a: float
    e: float
    m0: float
    dn: float
    omega: float
    node: float
    node_rate: float
    i0: float
    idot: float
    cuc: float
    cus: float
    crc: float
    crs: float
    cic: float
    cis: float
    health: float


@dataclass(frozen=True)
class Klobuchar:
    """The eight numbers of the broadcast ionosphere of GPS: alpha in s, s/semicircle, ..; beta in the same powers."""

    alpha: Sequence[float]
    beta: Sequence[float]


@dataclass(frozen=True)
class Navigation:
    """What a navigation file says of orbits and of the ionosphere."""

    records: Mapping[str, Sequence[Record]]
    klobuchar: Optional[Klobuchar]

    def choose(self, satellite: str, times: np.ndarray) -> np.ndarray:
        """For each time (s since 1980-01-06, shape n) the number of the satellite's record, or -1 where there is none.

        The rule of `fix`: healthy, toe nearest to the time and at most 7200 s away, of equally near ones the last.
        """
        chosen = np.full(len(times), -1)
        least = np.full(len(times), REACH)
        for k, record in enumerate(self.records.get(satellite, ())):
            away = np.abs(times - record.toe)
            better = away <= least
            chosen[better], least[better] = k, away[better]
        return chosen


def read_navigation(source: Union[str, os.PathLike, bytes], name: str = "") -> Navigation:
    """Reads the records of GPS and Galileo of a RINEX 3 navigation file, given as a path or as its bytes.

    Errors: `OrbitError` with the line for a file of another kind, a record that isn't whole or a number that isn't one;
    `OSError` where the file can't be read.
    """
    if not isinstance(source, bytes):
        name = name or os.fspath(source)
        with open(source, "rb") as file:
            source = file.read(MOST_BYTES + 1)
    try:
        return _navigation(source)
    except OrbitError as why:
        raise OrbitError(why.line, why.reason, name) from None


def _navigation(source: bytes) -> Navigation:
    if len(source) > MOST_BYTES:
        raise OrbitError(0, "file too large")
    lines = [line.rstrip("\r") for line in source.decode("latin-1").split("\n")]
    first = lines[0].ljust(80)
    if first[60:80].rstrip() != "RINEX VERSION / TYPE":
        raise OrbitError(1, why_packed(source) or "not a RINEX file")
    if first[20:21] != "N":
        raise OrbitError(1, "not a navigation file")
    if not first[:9].strip().startswith("3"):
        raise OrbitError(1, "navigation file not of RINEX 3 (recipes/nav2to3 converts one of RINEX 2)")
    end = next((k for k, line in enumerate(lines) if line[60:80].rstrip() == "END OF HEADER"), None)
    if end is None:
        raise OrbitError(len(lines), "no end of header")
    records: dict[str, list[Record]] = {}
    at = end + 1
    while at < len(lines):
        line = lines[at]
        if not line.strip():
            at += 1
            continue
        if line[:1] not in "GE":
            at += 1
            while at < len(lines) and lines[at][:1] == " ":
                at += 1
            continue
        record = _record(lines, at)
        if record.health == 0:
            records.setdefault(record.satellite, []).append(record)
        at += 8
    return Navigation(records, _klobuchar(lines[:end]))


def _record(lines: Sequence[str], at: int) -> Record:
    """The record whose first line has the index `at`."""
    if len(lines) < at + 8 or any(line[:1] != " " for line in lines[at + 1:at + 8]):
        raise OrbitError(at + 1, "record isn't whole")
    number = lines[at][1:3].replace(" ", "0")
    if not re.fullmatch("[0-9]{2}", number):
        raise OrbitError(at + 1, "bad satellite name")

    def field(line: int, column: int) -> float:
        return _number(lines[at + line][column:column + 19], at + line + 1)

    v = {(line, k): field(line, 4 + 19 * k) for line in range(1, 6) for k in range(4) if (line, k) != (1, 0)}
    toe, week = v[3, 0], field(5, 42)
    return Record(
        satellite=lines[at][0] + number, toe=WEEK * week + toe, toe_of_week=toe, sqrt_a=v[2, 3], e=v[2, 1], m0=v[1, 3], dn=v[1, 2],
        omega=v[4, 2], node=v[3, 2], node_rate=v[4, 3], i0=v[4, 0], idot=v[5, 0], cuc=v[2, 0], cus=v[2, 2], crc=v[4, 1],
        crs=v[1, 1], cic=v[3, 1], cis=v[3, 3], health=field(6, 23))


def _number(text: str, line: int) -> float:
    """A number with an exponent, as FORTRAN writes it; a blank one is 0, as a spare is."""
    word = text.strip()
    if not word:
        return 0.0
    if not _NUMBER.match(word):
        raise OrbitError(line, "bad number")
    return float(re.sub("[Dd]", "E", word))


def _klobuchar(header: Sequence[str]) -> Optional[Klobuchar]:
    """The lines GPSA and GPSB of the header, if both are there."""
    told = {}
    for number, line in enumerate(header, 1):
        if line[60:80].rstrip() == "IONOSPHERIC CORR" and line[:4] in ("GPSA", "GPSB"):
            told[line[:4]] = tuple(_number(line[c:c + 12], number) for c in (5, 17, 29, 41))
    return Klobuchar(told["GPSA"], told["GPSB"]) if len(told) == 2 else None


def position(record: Record, times: np.ndarray) -> np.ndarray:
    """The satellite's place in the Earth-fixed frame at these times (s since 1980-01-06, shape n), in m, shape n x 3."""
    root, e = record.sqrt_a, record.e
    tk = times - record.toe
    m = record.m0 + (np.sqrt(MU[record.satellite[0]]) / root**3 + record.dn) * tk
    anomaly = m
    for _ in range(12):
        anomaly = m + e * np.sin(anomaly)
    p = np.arctan2(np.sqrt(1 - e * e) * np.sin(anomaly), np.cos(anomaly) - e) + record.omega
    s, c = np.sin(2 * p), np.cos(2 * p)
    u = p + record.cus * s + record.cuc * c
    r = root * root * (1 - e * np.cos(anomaly)) + record.crs * s + record.crc * c
    i = record.i0 + record.idot * tk + record.cis * s + record.cic * c
    node = record.node + (record.node_rate - TURN) * tk - TURN * record.toe_of_week
    x, y = r * np.cos(u), r * np.sin(u)
    level = y * np.cos(i)
    return np.stack([x * np.cos(node) - level * np.sin(node), x * np.sin(node) + level * np.cos(node), y * np.sin(i)], axis=-1)


def seen(record: Record, times: np.ndarray, place: np.ndarray) -> np.ndarray:
    """The vectors in m (n x 3) from a place (3) to the satellite, as its signal that arrives at these times shows it.

    The travel time is found in three steps, and the frame turned back by the Earth's rotation during it.
    """
    travel = np.full(len(times), 0.075)
    for _ in range(3):
        x, y, z = position(record, times - travel).T
        a = TURN * travel
        turned = np.stack([x * np.cos(a) + y * np.sin(a), y * np.cos(a) - x * np.sin(a), z], axis=-1)
        away = turned - place
        travel = np.linalg.norm(away, axis=1) / LIGHT
    return away


def elevation_azimuth(away: np.ndarray, latitude: float, longitude: float) -> tuple[np.ndarray, np.ndarray]:
    """Elevations and azimuths in radians of vectors in m (n x 3) at a geodetic latitude and longitude in radians."""
    x, y, z = away.T
    along = np.cos(longitude) * x + np.sin(longitude) * y
    east = np.cos(longitude) * y - np.sin(longitude) * x
    north = np.cos(latitude) * z - np.sin(latitude) * along
    up = np.cos(latitude) * along + np.sin(latitude) * z
    return np.arctan2(up, np.hypot(east, north)), np.arctan2(east, north)


def klobuchar_delay(model: Klobuchar, latitude: float, longitude: float, elevation: np.ndarray, azimuth: np.ndarray,
                    times: np.ndarray) -> np.ndarray:
    """The broadcast ionosphere's delay of a code on L1 in m (shape n), IS-GPS-200 20.3.3.5.2.5.

    Latitude, longitude, elevations and azimuths in radians, times in s since 1980-01-06. On a carrier of f the delay is
    (f1/f)^2 of it; a phase is advanced by as much. The model takes off half of the ionosphere's effect or more.
    """
    e, a = elevation / np.pi, azimuth
    psi = 0.0137 / (e + 0.11) - 0.022
    lat = np.clip(latitude / np.pi + psi * np.cos(a), -0.416, 0.416)
    lon = longitude / np.pi + psi * np.sin(a) / np.cos(lat * np.pi)
    magnetic = lat + 0.064 * np.cos((lon - 1.617) * np.pi)
    local = np.mod(43_200 * lon + times, 86_400)
    slant = 1 + 16 * (0.53 - e)**3
    powers = np.stack([magnetic**n for n in range(4)])
    amplitude = np.maximum(np.tensordot(model.alpha, powers, 1), 0)
    period = np.maximum(np.tensordot(model.beta, powers, 1), 72_000)
    x = 2 * np.pi * (local - 50_400) / period
    return LIGHT * slant * np.where(np.abs(x) < 1.57, 5e-9 + amplitude * (1 - x**2 / 2 + x**4 / 24), 5e-9)
