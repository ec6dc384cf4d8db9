"""Certificates of `fix` and of `track`, as the second checker reads them (recipes/check_certificate.py), in metres and dates.

    cert = read_fixed("vector.cert")

The bytes are read once, and all of a certificate comes from these bytes, its checksum too. Reading decides nothing: a text is
proved by `baseline check`, decided again by `decided`, and whether it belongs to given files `verify` tells alone.

Units. The unit of length is the iota, 299792458 / 2174079600000 m (about 0.138 mm), in which the wavelengths of L1, L2 and L5
are 1380, 1771 and 1848. Observations are in 2^-13 iota, directions in 2^-24, a move in 2^-5 iota, a place in 0.1 mm, a tag in
100 ns since 1980-01-06 (GPS time).
"""
from __future__ import annotations

import hashlib
import os
from dataclasses import dataclass, field, fields
from datetime import datetime, timedelta
from typing import Any, Iterable, Optional, Union

from .checker import module as checker
from .errors import SurveyError
from .packed import why_packed

IOTA_M = 299_792_458 / 2_174_079_600_000
WAVELENGTH_IOTA: dict[int, int] = checker.WAVELENGTHS
FREQUENCY_MHZ = {1: 1575.42, 2: 1227.60, 5: 1176.45}
MOST_BYTES: int = checker.MOST_BYTES
EPOCH = datetime(1980, 1, 6)
Triple = tuple[int, int, int]


class CertificateError(SurveyError):
    """A text that isn't such a certificate.

    line: the line that is wrong, from 1; reason: why; name: the file, where one is known.
    """

    def __init__(self, line: int, reason: str, name: str = "") -> None:
        super().__init__(line, reason, name)
        self.line, self.reason, self.name = line, reason, name

    def __str__(self) -> str:
        return f"{self.name}: line {self.line}: {self.reason}" if self.name else f"line {self.line}: {self.reason}"


class Pair(checker.Pair):  # type: ignore[misc,name-defined]
    """Two epochs of one time, that of the base's clock, with their rows."""

    @property
    def time(self) -> datetime:
        """The tag as GPS time."""
        return time_of(self.tag)


@dataclass
class Certificate(checker.Certificate):  # type: ignore[misc,name-defined]
    """What a text says, as the second checker has it (arcs, pairs with their rows, tail), with its number of lines, the checksum of
    its bytes and its file's name."""
    lines: int = 0
    sha256: str = ""
    name: str = field(default="", compare=False)

    @property
    def is_fixed(self) -> bool:
        return bool(self.tail.verdict == "fixed")

    @property
    def phase_columns(self) -> list[int]:
        """The places of the phases among what a row observes, one for each band."""
        return [at for at, (_, weight) in enumerate(self.signals) if weight == checker.PHASE]

    @property
    def base_m(self) -> tuple[float, float, float]:
        """The base by its file's header: the mark's X, Y, Z in metres, which `fix` takes for the antenna's."""
        return metres(self.base)

    @property
    def point_m(self) -> tuple[float, float, float]:
        """The point of the rows in metres, in the same sense; of a track there is none."""
        if self.point is None:
            raise CertificateError(1, "a track has a point for each pair", self.name)
        return metres(self.point)

    @property
    def ratio_reached(self) -> Optional[float]:
        """How many times worse every other choice of integers is at least, or None without vectors or with a sum of 0."""
        values = self.tail.values
        return None if values is None or values.top == 0 else values.second / (64 * values.top)

    def satellite(self, arc: int) -> str:
        """The satellite of an arc, as `G07`."""
        return f"{self.system}{self.arcs[arc].satellite:02d}"

    def cycles(self, arc: int) -> tuple[int, ...]:
        """The integers z1 of an arc, one for each band; 0 for a datum."""
        return tuple(self.tail.z1[self.places[arc, band]] if (arc, band) in self.places else 0 for band in self.bands)

    def vector_tenths(self, pair: int = 0) -> Triple:
        """The vector that `fix` prints, in 0.1 mm: point less base, plus the move. Of a track that of the pair at this
        place of `pairs`. Whole numbers, so that it is the program's to the last digit."""
        if not self.tail.moves:
            raise CertificateError(self.lines, f"no vector: {self.tail.verdict}", self.name)
        return triple(checker.vectors(self)[pair])

    def vector_m(self, pair: int = 0) -> tuple[float, float, float]:
        """The same in metres."""
        return metres(self.vector_tenths(pair))


@dataclass(frozen=True)
class Second:
    """What the second checker says of a text: the verdict (`certified`, `not certified ..`, or `not decided: ..`); in which ways the
    text isn't as `fix` and `track` write it; and of a certified text, for each vector, how far in each coordinate the vector by least
    squares of any observations in the boxes may lie from it in mm, or None."""
    verdict: str
    notes: tuple[str, ...]
    bounds_mm: tuple[Optional[float], ...] = ()

    @property
    def greatest_bound_mm(self) -> Optional[float]:
        """The greatest of all vectors; None where one has none."""
        return None if not self.bounds_mm or None in self.bounds_mm else max(it for it in self.bounds_mm if it is not None)


def decided(cert: Certificate, visits: int = checker.MOST_VISITS) -> Second:
    """Decides the text again from its rows, within so many visits of its searches."""
    notes = tuple(checker.notes(cert))
    try:
        found = checker.certify(cert, visits)
    except checker.NotCertified as why:
        return Second(f"not certified {why}", notes)
    except checker.NotDecided:
        return Second(f"not decided: stopped after {visits} visits", notes)
    return Second("certified", notes, tuple(None if it is None else it / 100 for it in checker.bounds(cert, found.fronts)))


def triple(numbers: Iterable[int]) -> Triple:
    """Three numbers."""
    x, y, z = numbers
    return x, y, z


def metres(tenths: Iterable[int]) -> tuple[float, float, float]:
    """A place or a vector in metres."""
    x, y, z = tenths
    return x / 10_000, y / 10_000, z / 10_000


def time_of(tag: int) -> datetime:
    """A tag as GPS time, to the microsecond. SurveyError past the year 9999, which a certificate may name."""
    try:
        return EPOCH + timedelta(microseconds=tag // 10)
    except OverflowError:
        raise SurveyError(f"the tag {tag} is no date") from None


def read(source: Union[str, os.PathLike[str], bytes], name: str = "") -> Certificate:
    """The certificate of a file, or of its bytes. OSError where it can't be read, CertificateError where it isn't one."""
    if not isinstance(source, bytes):
        name = name or os.fspath(source)
        with open(source, "rb") as file:
            source = file.read(MOST_BYTES + 1)
    try:
        found = checker.read(source)
    except checker.Refused as why:
        raise CertificateError(max(1, why.line), _reason(source, why), name) from None
    told = {it.name: getattr(found, it.name) for it in fields(found)}
    told["pairs"] = [Pair(*it) for it in found.pairs]
    return Certificate(**told, lines=source.count(b"\n"), sha256=hashlib.sha256(source).hexdigest(), name=name)


def read_fixed(source: Union[str, os.PathLike[str], bytes], name: str = "") -> Certificate:
    """The same, of one vector whose last line is `fixed`: a decline or a track is a CertificateError."""
    cert = read(source, name)
    if cert.is_track:
        raise CertificateError(1, "a track has a vector for each pair; one of a fix is needed", cert.name)
    if not cert.is_fixed:
        raise CertificateError(cert.lines, f"no vector: {cert.tail.verdict}", cert.name)
    return cert


def _reason(data: bytes, why: Any) -> str:
    """What is wrong, in words, with a text that the second checker refuses."""
    first = data[:80].split(b"\n")[0].decode("latin-1")
    if packed := why_packed(data):
        return packed
    if first.startswith("declined "):
        return f"no certificate: {first}"
    if first == "baseline-cert 1":
        return "version 1 of certificates; `baseline migrate` makes version 2 of it"
    if why.line == 1:
        return "no certificate"
    if why.line > data.count(b"\n"):
        return "the text ends early" if data.endswith(b"\n") else "the last line has no end"
    return f"column {why.column}: {why.reason}" if why.line else why.reason
