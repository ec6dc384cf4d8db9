"""Headers of observation files of RINEX 2 and 3, read as `fix` reads them (docs/FORMATS.md, "Observation files").

Lines end at LF alone, and one CR before it is dropped; columns are counted from 1, and those past a line's end are blank.
A position and the antenna's offsets are numbers with a point of at most four places; the last such line of the header
counts; three numbers of 0 are no position. All else that stands here (names, receivers, antennas) `fix` skips.

Sources: RINEX 2.11, tables A1 and A2; RINEX 3.04, tables A2 and A3.
"""
from __future__ import annotations

import hashlib
import os
import re
from dataclasses import dataclass, field
from datetime import datetime, timedelta
from typing import Callable, NoReturn, Optional, Union

from .certificate import Triple, metres, triple
from .errors import SurveyError
from .packed import why_packed

MOST_BYTES = 67_108_864
FIXED = re.compile(rb" *[+-]?([0-9]+(\.[0-9]*)?|\.[0-9]+) *")
WHOLE = re.compile(rb" *[0-9]+ *")


class HeaderError(SurveyError):
    """A file that isn't such a file of observations: the line from 1, why, and the file's name."""

    def __init__(self, line: int, reason: str, name: str = "") -> None:
        super().__init__(line, reason, name)
        self.line, self.reason, self.name = line, reason, name

    def __str__(self) -> str:
        return f"{self.name}: line {self.line}: {self.reason}" if self.name else f"line {self.line}: {self.reason}"


@dataclass(frozen=True)
class Header:
    """What a header says. Texts are without blanks at their ends and may hold any byte (as latin-1): escape them where they
    are shown. `antenna` is the type with its radome, 20 columns as in ANTEX; `position_m` is the *mark's* X, Y, Z; `delta_m`
    is height, east and north of the antenna's reference point over the mark; `first_epoch` and `last_epoch` are those with
    observations (flag 0 or 1), by the receiver's clock, or None."""
    version: str
    system: str
    marker: str
    marker_number: str
    receiver_number: str
    receiver: str
    receiver_version: str
    antenna_number: str
    antenna: str
    position_m: Optional[tuple[float, float, float]]
    delta_m: tuple[float, float, float]
    interval_s: Optional[float]
    first_epoch: Optional[datetime]
    last_epoch: Optional[datetime]
    epochs: int
    comments: tuple[str, ...]
    lines: int
    sha256: str
    name: str = field(default="", compare=False)

    @property
    def is_rinex2(self) -> bool:
        return self.version.lstrip("0").startswith("2")

    @property
    def position_tenths(self) -> Optional[Triple]:
        """The position in 0.1 mm, as a certificate's `base` has it."""
        return None if self.position_m is None else triple(round(x * 10_000) for x in self.position_m)


def read_header(source: Union[str, os.PathLike, bytes], name: str = "") -> Header:
    """The header of a file, or of its bytes, with the times of its first and last epoch. OSError where it can't be read,
    HeaderError where it isn't a file of observations."""
    if not isinstance(source, bytes):
        name = name or os.fspath(source)
        with open(source, "rb") as file:
            source = file.read(MOST_BYTES + 1)
    try:
        return _Reader(source, name).header()
    except HeaderError as why:
        raise HeaderError(why.line, why.reason, name) from None


def lines_of(data: bytes) -> list[bytes]:
    """The lines of a text: LF alone ends one, one CR before it is dropped, bytes after the last LF are a line too."""
    lines = data.split(b"\n")
    if not lines[-1]:
        lines.pop()
    return [line[:-1] if line.endswith(b"\r") else line for line in lines]


def columns(line: bytes, first: int, last: int) -> bytes:
    """The bytes in these columns, counted from 1; past the end they are blank."""
    return line[first - 1:last].ljust(last - first + 1)


def label_of(line: bytes) -> bytes:
    """The label of a header line, without blanks at its end."""
    return columns(line, 61, 80).rstrip(b" ")


def text_in(line: bytes, first: int, last: int) -> str:
    """A text in these columns, byte for byte as latin-1, without blanks at its ends."""
    return columns(line, first, last).decode("latin-1").strip(" ")


def tenths_in(word: bytes) -> Optional[int]:
    """A number with a point and at most four places, in units of its fourth place; None where it isn't one. It has at most
    18 digits after its leading zeros, with the places filled up."""
    if not FIXED.fullmatch(word):
        return None
    text = word.strip(b" ").decode("ascii")
    whole, _, places = text.lstrip("+-").partition(".")
    digits = (whole + places.ljust(4, "0")).lstrip("0")
    if len(places) > 4 or len(digits) > 18:
        return None
    return int(digits or "0") * (-1 if text[0] == "-" else 1)


class _Reader:
    def __init__(self, data: bytes, name: str) -> None:
        self.name, self.sha256, self.lines, self.at = name, hashlib.sha256(data).hexdigest(), lines_of(data), 0
        self.packed = why_packed(data)
        if len(data) > MOST_BYTES:
            self.refuse(f"over {MOST_BYTES} bytes")

    def refuse(self, reason: str) -> NoReturn:
        raise HeaderError(self.at + 1, reason)

    def header(self) -> Header:
        version, system = self.version()
        found: dict[bytes, bytes] = {}
        comments: list[str] = []
        position, delta = (0, 0, 0), (0, 0, 0)
        while True:
            self.at += 1
            if self.at == len(self.lines):
                self.refuse("no end of header")
            line = self.lines[self.at]
            label = label_of(line)
            if label == b"END OF HEADER":
                break
            if label == b"COMMENT":
                comments.append(text_in(line, 1, 60))
            elif label == b"APPROX POSITION XYZ":
                position = self.three(line, blank=False)
            elif label == b"ANTENNA: DELTA H/E/N":
                delta = self.three(line, blank=True)
            else:
                found[label] = line
        end = self.at + 1
        is_rinex2 = version.startswith("2")
        self.types = self.count_of_types(end) if is_rinex2 else 0
        first, last, epochs = self.epochs(self.epoch2 if is_rinex2 else self.epoch3)
        marker, receiver = found.get(b"MARKER NAME", b""), found.get(b"REC # / TYPE / VERS", b"")
        antenna = found.get(b"ANT # / TYPE", b"")
        return Header(
            version=version, system=system, marker=text_in(marker, 1, 60),
            marker_number=text_in(found.get(b"MARKER NUMBER", b""), 1, 20),
            receiver_number=text_in(receiver, 1, 20), receiver=text_in(receiver, 21, 40),
            receiver_version=text_in(receiver, 41, 60), antenna_number=text_in(antenna, 1, 20), antenna=text_in(antenna, 21, 40),
            position_m=metres(position) if any(position) else None, delta_m=metres(delta),
            interval_s=self.interval(found.get(b"INTERVAL", b"")), first_epoch=first, last_epoch=last, epochs=epochs,
            comments=tuple(comments), lines=end, sha256=self.sha256, name=self.name)

    def version(self) -> tuple[str, str]:
        """The version and the system of the first line."""
        line = self.lines[0] if self.lines else b""
        version = text_in(line, 1, 9)
        hundredths = tenths_in(columns(line, 1, 9))
        if label_of(line) != b"RINEX VERSION / TYPE" or hundredths is None or hundredths % 100:
            self.refuse(self.packed or "no RINEX file")
        if not (21000 <= hundredths <= 21100 or 30000 <= hundredths <= 30500):
            self.refuse("version not 2.10 to 2.11 or 3.00 to 3.05")
        if columns(line, 21, 21) != b"O":
            self.refuse("not a file of observations")
        return version, text_in(line, 41, 41) or "G"

    def three(self, line: bytes, blank: bool) -> Triple:
        """Three numbers of 14 columns, in 0.1 mm; a blank one is 0 where that is allowed."""
        return triple(self.tenths(line, first, blank) for first in (1, 15, 29))

    def tenths(self, line: bytes, first: int, blank: bool) -> int:
        word = columns(line, first, first + 13)
        if blank and not word.strip(b" "):
            return 0
        number = tenths_in(word)
        return number if number is not None else self.refuse(f"no number in columns {first} to {first + 13}")

    def interval(self, line: bytes) -> Optional[float]:
        """The interval in seconds; `fix` doesn't read it, so what isn't a number is none."""
        word = columns(line, 1, 10)
        return float(word) if FIXED.fullmatch(word) and float(word) > 0 else None

    def epochs(self, step: Callable[[bytes], Optional[datetime]]) -> tuple[Optional[datetime], Optional[datetime], int]:
        """The first and the last time of an epoch with observations, and how many there are. `step` reads one."""
        first = last = None
        count = 0
        self.at += 1
        while self.at < len(self.lines):
            if not self.lines[self.at].strip(b" "):
                self.at += 1
                continue
            time = step(self.lines[self.at])
            if time is not None:
                first, last, count = first or time, time, count + 1
        return first, last, count

    def epoch3(self, line: bytes) -> Optional[datetime]:
        """The time of an epoch, and the place after it; None of an event."""
        if line[:1] != b">":
            self.refuse("an epoch is expected")
        flag, count = self.flag(line, 32), self.whole(line, 33, 35, blank=True)
        time = self.time(line, (3, 6), (8, 9), (11, 12), (14, 15), (17, 18), (19, 29)) if flag in (b"0", b"1") else None
        self.at += 1 + count
        return time

    def epoch2(self, line: bytes) -> Optional[datetime]:
        """The same of RINEX 2, where the satellites of an epoch stand in its line and those after it."""
        flag, count = self.flag(line, 29), self.whole(line, 30, 32, blank=True)
        time = self.time(line, (2, 3), (5, 6), (8, 9), (11, 12), (14, 15), (16, 26)) if flag in (b"0", b"1") else None
        has_satellites = flag in (b"0", b"1", b"6")
        self.at += max(1, -(-count // 12)) + count * -(-self.types // 5) if has_satellites else 1 + count
        return time

    def flag(self, line: bytes, column: int) -> bytes:
        """An epoch's flag: 0 and 1 have observations, 6 cycle slips, the others are events."""
        flag = columns(line, column, column)
        return flag if flag in (b"0", b"1", b"2", b"3", b"4", b"5", b"6") else self.refuse("bad epoch flag")

    def count_of_types(self, end: int) -> int:
        """How many types the header of RINEX 2 lists, which has so many lines; the place is its last line again."""
        for self.at, line in enumerate(self.lines[:end]):
            if label_of(line) == b"# / TYPES OF OBSERV" and columns(line, 1, 6).strip(b" "):
                count = self.whole(line, 1, 6)
                self.at = end - 1
                return count
        return self.refuse("no list of observation types")

    def whole(self, line: bytes, first: int, last: int, blank: bool = False) -> int:
        word = columns(line, first, last)
        if blank and not word.strip(b" "):
            return 0
        if not WHOLE.fullmatch(word):
            self.refuse(f"no number in columns {first} to {last}")
        return int(word)

    def time(self, line: bytes, *places: tuple[int, int]) -> datetime:
        *fields, second = places
        year, month, day, hour, minute = (self.whole(line, *it) for it in fields)
        word = columns(line, *second)
        if not FIXED.fullmatch(word):
            self.refuse(f"no number in columns {second[0]} to {second[1]}")
        if places[0][1] - places[0][0] == 1:
            year += 1900 if year >= 80 else 2000
        if not 0 <= float(word) < 60:
            self.refuse("no such date")
        try:
            return datetime(year, month, day, hour, minute) + timedelta(microseconds=round(float(word) * 1e6))
        except (ValueError, OverflowError):
            self.refuse("no such date")
