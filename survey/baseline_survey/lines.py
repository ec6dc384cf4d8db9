"""The lines of a network: the list that names them, and what the certificate of each one observes.

A line leads from one station to another. What was observed is its vector (m, Earth-fixed) with its covariance, as `adjust`
finds it from the certificate.
"""
from __future__ import annotations

import concurrent.futures
import os
import shlex
from concurrent.futures.process import BrokenProcessPool
from dataclasses import dataclass
from datetime import datetime
from typing import Callable, Optional, Sequence

import numpy as np

from . import certificate, files
from .adjust import Settings, adjust
from .coordinates import check_belongs
from .errors import SurveyError
from .geodesy import checked_place, geodetic
from .program import Check
from .rinex_header import Header, read_header

MANY = 32  # lines, from which on several processes read them
SYSTEMS = {"G": "GPS", "E": "Galileo"}


class NetworkError(SurveyError):
    """A list or a network that can't be adjusted."""


@dataclass(frozen=True)
class Line:
    """One observed vector: from and to a station, vector in m (3), its covariance in m^2 (3 x 3), the time of its first
    and last pair, the base's place in m by the certificate, the satellites' system (G or E), the certificate's file, and which
    combination of the phases was adjusted."""

    start: str
    end: str
    vector: np.ndarray
    covariance: np.ndarray
    first: datetime
    last: datetime
    base: np.ndarray
    system: str
    name: str
    combination: str


@dataclass(frozen=True)
class Entry:
    """A line of a list: two stations, a certificate, and both files of observations or none."""

    start: str
    end: str
    certificate: str
    base: Optional[str] = None
    rover: Optional[str] = None


# What makes the settings of a line from its base's height in m and both headers or None.
MakeSettings = Callable[[float, Optional[Header], Optional[Header]], Settings]


@dataclass(frozen=True)
class Reading:
    """How entries become lines: the list's folder, what makes the settings, a factor of all standard deviations, what is
    added to each coordinate's (m), as for setting up, and what says whether a certificate is certified, if anything does."""

    folder: str
    make: MakeSettings
    scale: float = 1.0
    plus_m: float = 0.0
    check: Optional[Check] = None


def read_list(text: str, name: str = "") -> list[Entry]:
    """The lines FROM TO CERT [BASE ROVER] of a list. Words are spelled as in a shell: quotes hold blanks and line ends, a
    backslash takes the next character as it is, # begins a comment. No shell reads them. NetworkError names the line."""
    entries = [_entry(words, f"{name}: line {number}") for number, words in _spelled(text, name)]
    if not entries:
        raise NetworkError(f"{name}: no lines")
    return entries


def _spelled(text: str, name: str) -> list[tuple[int, list[str]]]:
    """The words of each line that has some, with the number of the line that they begin on."""
    found, held, began, still_open = [], [], 0, ""
    for number, raw in enumerate(text.split("\n"), 1):
        began = began if held else number
        held.append(raw)
        if still_open := _open_after(raw, still_open):
            still_open = still_open.rstrip("\\")  # a backslash takes the line's end
            continue
        if words := shlex.split("\n".join(held), comments=True):
            found.append((began, words))
        held = []
    if held:
        raise NetworkError(f"{name}: line {began}: a quote isn't closed")
    return found


def _open_after(line: str, still_open: str) -> str:
    """What is open at the end of a line, as shlex reads it: a quote, a backslash, a backslash in a double quote, or nothing."""
    for character in line:
        if still_open.endswith("\\"):
            still_open = still_open[:-1]
        elif still_open:
            if character == still_open:
                still_open = ""
            elif still_open + character == '"\\':
                still_open += character
        elif character == "#":
            break
        elif character in "'\"\\":
            still_open = character
    return still_open


def _entry(words: Sequence[str], where: str) -> Entry:
    if len(words) not in (3, 5):
        raise NetworkError(f"{where}: FROM TO CERT or FROM TO CERT BASE ROVER is expected, {len(words)} words are there")
    if words[0] == words[1]:
        raise NetworkError(f"{where}: a line from {words[0]} to itself")
    return Entry(*words)


def observe(entry: Entry, how: Reading) -> Line:
    """The line of an entry: the adjusted vector of its certificate with its covariance. With BASE and ROVER it goes from
    mark to mark, else from antenna to antenna. Files are looked for from the list's folder. Errors name the file; a
    certificate that its check doesn't call certified is one."""
    path = os.path.join(how.folder, entry.certificate)
    data = files.read(path)
    cert = certificate.read_fixed(data, path)
    if how.check and (said := how.check(data)) != "certified":
        raise NetworkError(f"{path}: {said}")
    base, rover = (None if it is None else read_header(os.path.join(how.folder, it)) for it in (entry.base, entry.rover))
    if base is not None and rover is not None:
        check_belongs(cert, base, rover)
    try:
        place = checked_place(cert.base_m, "the base")
        done = adjust(cert, how.make(geodetic(place)[2], base, rover), base, rover)
    except SurveyError as why:
        raise NetworkError(f"{path}: {why}") from None
    covariance = how.scale**2 * done.covariance_m2 + how.plus_m**2 * np.eye(3)
    vector = done.marks.vector_m if done.marks else done.vector_m
    return Line(entry.start, entry.end, vector, covariance, done.first, done.last, done.base_m, cert.system, entry.certificate,
                done.choice.combination)


def observe_all(entries: Sequence[Entry], how: Reading) -> list[Line]:
    """The lines of all entries in their order; of many by several processes. The first entry that has none is an error."""
    if len(entries) < MANY:
        return [observe(entry, how) for entry in entries]
    workers, chunk = len(os.sched_getaffinity(0)), max(1, len(entries) // 64)
    try:
        with concurrent.futures.ProcessPoolExecutor(workers, initializer=_begin, initargs=(how,)) as pool:
            return list(pool.map(_observe, entries, chunksize=chunk))
    except BrokenProcessPool:
        raise NetworkError("a process that read certificates was ended (out of memory, or killed)") from None


_given: list[Reading] = []  # of a process that reads lines


def _begin(how: Reading) -> None:
    """Gives a process what all of its lines need, once."""
    _given[:] = [how]


def _observe(entry: Entry) -> Line:
    return observe(entry, _given[0])
