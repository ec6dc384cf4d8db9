"""Phase centres of antennas: files of ANTEX 1.4, and what they change in an observation.

Offsets and variations are metres here (millimetres in the file), angles radians. An antenna's offset is north, east, up of
the reference point (ARP); a variation is by zenith angle, and by azimuth where the calibration has it.

A phase that is measured on a frequency is longer than the distance to the reference point by

    variation(zenith angle, azimuth) - offset . direction to the satellite

so a corrected observation has this taken off, and its vector leads from ARP to ARP.

Source: Rothacher, M. and Schmid, R., ANTEX: the antenna exchange format, version 1.4 (2010), with its sections "Antenna
phase center offsets and variations" and "Sign conventions".
"""
from __future__ import annotations

import math
import os
import re
from dataclasses import dataclass, replace
from typing import NoReturn, Optional, Union

import numpy as np

from .errors import SurveyError
from .packed import why_packed
from .rinex_header import columns, label_of, lines_of, text_in
from .text import visible

MOST_BYTES = 268_435_456
# No receiver's antenna has its phase centre further from the reference point, nor such a variation: metres that are written as
# millimetres, or a digit too many.
FARTHEST_M = 1.0
NUMBER = re.compile(rb"[+-]?([0-9]+(\.[0-9]*)?|\.[0-9]+)")


class AntexError(SurveyError):
    """A file that isn't ANTEX 1.4, or lacks an antenna: the line from 1 or 0, why, and the file's name."""

    def __init__(self, line: int, reason: str, name: str = "") -> None:
        super().__init__(line, reason, name)
        self.line, self.reason, self.name = line, reason, name

    def __str__(self) -> str:
        return ": ".join(it for it in (self.name, f"line {self.line}" if self.line else "", self.reason) if it)


@dataclass(frozen=True)
class PhaseCentre:
    """The calibration of one frequency. `offset_m` is north, east, up; `noazi_m` has a value for each zenith angle of the
    grid, `azimuth_m` (azimuths, zenith angles) or None."""
    offset_m: np.ndarray
    noazi_m: np.ndarray
    azimuth_m: Optional[np.ndarray]


@dataclass(frozen=True)
class Antenna:
    """A receiver's antenna: its type with the radome in 20 columns, its grids in degrees, its frequencies, as `G01`, and the file that
    it stands in."""
    kind: str
    serial: str
    zenith_deg: np.ndarray
    azimuth_deg: np.ndarray
    centres: dict[str, PhaseCentre]
    file: str = ""

    def correction(self, frequency: str, elevation: np.ndarray, azimuth: np.ndarray) -> np.ndarray:
        """How much longer a phase on this frequency is than the distance to the reference point, in metres, for arrays of
        elevations and azimuths. AntexError where the frequency isn't calibrated."""
        if frequency not in self.centres:
            raise AntexError(0, f"antenna {' '.join(self.kind.split())} has no frequency {frequency}", self.file)
        centre = self.centres[frequency]
        north, east, up = centre.offset_m
        level = np.cos(elevation)
        along = north * level * np.cos(azimuth) + east * level * np.sin(azimuth) + up * np.sin(elevation)
        return self.variation(centre, 90.0 - np.degrees(elevation), np.degrees(azimuth) % 360.0) - along

    def is_like(self, other: "Antenna") -> bool:
        """Whether both have the same grids and the same numbers for the same frequencies."""
        def numbers(it: Antenna) -> list[tuple[str, list]]:
            return [("", [it.zenith_deg.tolist(), it.azimuth_deg.tolist()]), *(
                (name, [None if them is None else them.tolist() for them in (at.offset_m, at.noazi_m, at.azimuth_m)])
                for name, at in sorted(it.centres.items()))]
        return numbers(self) == numbers(other)

    def variation(self, centre: PhaseCentre, zenith_deg: np.ndarray, azimuth_deg: np.ndarray) -> np.ndarray:
        """The variation in metres, linear between the grid's points; past the grid's ends it is that of the end."""
        if centre.azimuth_m is None:
            return np.interp(zenith_deg, self.zenith_deg, centre.noazi_m)
        low, part = place_in(self.azimuth_deg, azimuth_deg)
        by_azimuth = np.array([np.interp(zenith_deg, self.zenith_deg, row) for row in centre.azimuth_m])
        at = np.arange(len(zenith_deg))
        return by_azimuth[low, at] * (1 - part) + by_azimuth[low + 1, at] * part


def place_in(grid: np.ndarray, values: np.ndarray) -> tuple[np.ndarray, np.ndarray]:
    """For each value the step of an even grid that holds it, and how far in the step it lies, from 0 to 1."""
    step = grid[1] - grid[0]
    low = np.clip(np.floor((values - grid[0]) / step).astype(int), 0, len(grid) - 2)
    return low, np.clip((values - grid[low]) / step, 0.0, 1.0)


def kind_of(antenna: str) -> str:
    """An antenna's name of a header in the 20 columns of ANTEX: a radome that isn't named is NONE."""
    return f"{antenna[:16].rstrip():16}{antenna[16:20].strip() or 'NONE'}"


def read_antex(source: Union[str, os.PathLike, bytes], name: str = "") -> tuple[Antenna, ...]:
    """The receivers' antennas of a file or of its bytes, in its order. OSError where it can't be read, AntexError where a
    line breaks the form."""
    if not isinstance(source, bytes):
        name = name or os.fspath(source)
        with open(source, "rb") as file:
            source = file.read(MOST_BYTES + 1)
    try:
        return tuple(replace(it, file=name) for it in _Reader(source).antennas())
    except AntexError as why:
        raise AntexError(why.line, why.reason, name) from None


def find_antenna(antennas: tuple[Antenna, ...], antenna: str, serial: str = "", name: str = "") -> Antenna:
    """The calibration for a header's antenna: that of its own serial number, else that of the type. The radome counts.
    AntexError where there is none, or where it stands there twice with other numbers."""
    kind = kind_of(antenna)
    if not antenna.strip():
        raise AntexError(0, "the header names no antenna", name)
    same = [it for it in antennas if it.kind == kind]
    own = [it for it in same if serial and it.serial == serial] or [it for it in same if not it.serial]
    if not own:
        others = sorted({it.kind[16:] for it in antennas if it.kind[:16] == kind[:16]})
        more = f" (with the radome {', '.join(others)} alone)" if others else ""
        raise AntexError(0, f"no antenna {' '.join(kind.split())}{more}", name)
    if not all(it.is_like(own[0]) for it in own[1:]):
        number = f" {own[0].serial}" if own[0].serial else ""
        raise AntexError(0, f"antenna {' '.join(kind.split())}{number} stands there {len(own)} times, with other numbers", name)
    return own[0]


class _Reader:
    def __init__(self, data: bytes) -> None:
        self.lines, self.at, self.packed = lines_of(data), 0, why_packed(data)
        if len(data) > MOST_BYTES:
            self.refuse(f"over {MOST_BYTES} bytes")

    def refuse(self, reason: str) -> NoReturn:
        raise AntexError(self.at + 1, reason)

    def number(self, word: bytes) -> float:
        word = word.strip(b" ")
        if not NUMBER.fullmatch(word):
            self.refuse(f"no number: {word.decode('latin-1')[:20] or 'blank'}")
        return float(word)

    def antennas(self) -> list[Antenna]:
        first = self.lines[0] if self.lines else b""
        if label_of(first) != b"ANTEX VERSION / SYST" or columns(first, 1, 8).strip(b" ") not in (b"1.4", b"1.3"):
            self.refuse(self.packed or "not ANTEX 1.3 or 1.4")
        if b"\r" in first:
            self.refuse("lines end with CR alone, not with LF")
        found = []
        while self.at < len(self.lines):
            if label_of(self.lines[self.at]) == b"START OF ANTENNA":
                antenna = self.antenna()
                found += [antenna] if antenna else []
            self.at += 1
        return found

    def antenna(self) -> Optional[Antenna]:
        """The antenna that starts here; None of a satellite's."""
        kind = serial = ""
        zenith, step, centres, is_satellite = (0.0, 90.0, 5.0), 0.0, {}, False
        while label_of(line := self.next()) != b"END OF ANTENNA":
            label = label_of(line)
            if label == b"START OF ANTENNA":
                self.refuse("an antenna starts in an antenna: END OF ANTENNA is missing")
            if centres and label in (b"TYPE / SERIAL NO", b"DAZI", b"ZEN1 / ZEN2 / DZEN"):
                self.refuse(f"{label.decode('ascii')} after a frequency")
            if label == b"TYPE / SERIAL NO":
                kind, serial = columns(line, 1, 20).decode("latin-1"), text_in(line, 21, 40)
                is_satellite = bool(columns(line, 41, 50).strip(b" "))
            elif label == b"DAZI":
                step = self.number(columns(line, 3, 8))
            elif label == b"ZEN1 / ZEN2 / DZEN":
                first, last, each = (self.number(columns(line, *it)) for it in ((3, 8), (9, 14), (15, 20)))
                zenith = (first, last, each)
            elif label == b"START OF FREQUENCY":
                name = text_in(line, 4, 6)
                if name in centres:
                    self.refuse(f"a second frequency {visible(name)}")
                centres[name] = self.frequency(self.grid(*zenith), step, FARTHEST_M if not is_satellite else math.inf)
        grid = self.grid(*zenith)
        azimuths = np.arange(0.0, 360.0 + step / 2, step) if step > 0 else np.array([0.0, 360.0])
        return None if is_satellite else Antenna(kind_of(kind), serial, grid, azimuths, centres)

    def next(self) -> bytes:
        self.at += 1
        if self.at >= len(self.lines):
            self.refuse("the file ends in an antenna")
        return self.lines[self.at]

    def grid(self, first: float, last: float, step: float) -> np.ndarray:
        count = (last - first) / step if step > 0 else 0.0
        if not (0 <= first < last <= 180 and 0.5 < count <= 3600 and math.isclose(count, round(count), abs_tol=1e-6)):
            self.refuse("no grid of zenith angles")
        return first + step * np.arange(round(count) + 1)

    def frequency(self, grid: np.ndarray, step: float, farthest_m: float) -> PhaseCentre:
        """The offset and the variations of one frequency, none of them over a length."""
        if step < 0 or step > 0 and not math.isclose(360 / step, round(360 / step), abs_tol=1e-6):
            self.refuse("no grid of azimuths")
        offset = noazi = None
        rows: list[np.ndarray] = []
        while label_of(line := self.next()) != b"END OF FREQUENCY":
            if label_of(line) == b"NORTH / EAST / UP":
                offset = self.lengths(line, [(1, 10), (11, 20), (21, 30)], farthest_m)
            elif columns(line, 1, 8).strip(b" ") == b"NOAZI":
                noazi = self.values(line, len(grid), farthest_m)
            elif label_of(line) != b"COMMENT":
                if step == 0 or abs(self.number(columns(line, 1, 8)) - step * len(rows)) > 0.01:
                    self.refuse("no such azimuth")
                rows.append(self.values(line, len(grid), farthest_m))
        if offset is None or noazi is None or rows and len(rows) != round(360 / step) + 1:
            self.refuse("the frequency isn't complete")
        return PhaseCentre(offset, noazi, np.array(rows) if rows else None)

    def values(self, line: bytes, count: int, farthest_m: float) -> np.ndarray:
        """A value for each zenith angle, 8 columns each from column 9 on."""
        return self.lengths(line, [(9 + 8 * k, 16 + 8 * k) for k in range(count)], farthest_m)

    def lengths(self, line: bytes, places: list[tuple[int, int]], farthest_m: float) -> np.ndarray:
        """The numbers in these columns, millimetres as metres."""
        found = np.array([self.number(columns(line, *it)) for it in places]) / 1000
        if np.any(np.abs(found) > farthest_m):
            self.refuse(f"over {1000 * farthest_m:.0f} mm: {1000 * float(np.max(np.abs(found))):g}")
        return found
