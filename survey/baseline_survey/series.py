"""A monitor's sessions: one baseline again and again, a row for each, in a log.

The rows stand in a log, a table that is replaced whole: after a kill the old one or the new one is there, and the next run
does what is missing. A session is known by its certificate's name, so nothing is doubled. A file whose size and time are
those of its row isn't read again, so a run reads what is new; a certificate that was made again replaces its row. A decline
is a row without a vector, a gap. Certificates of the same first pair are of one session, and `once` leaves one of them. What
is an alarm, `alarm` says.
"""
from __future__ import annotations

import hashlib
import json
import math
import os
import re
import shlex
from dataclasses import dataclass, replace
from datetime import datetime
from typing import Callable, Iterator, Optional, Sequence

from . import certificate, files
from .adjust import Settings, adjust
from .errors import SurveyError
from .geodesy import checked_place, geodetic
from .program import Check
from .text import nearest_second

HEAD = "# baseline-survey series 1"
COLUMNS = ("time", "state", "east_m", "north_m", "up_m", "sd_east_mm", "sd_north_mm", "sd_up_mm", "satellites", "pairs",
           "ratio_reached", "base_x_m", "base_y_m", "base_z_m", "sha256", "file", "name")
SAVE_EVERY = 50  # new rows
SAME_M = 0.001  # a vector below this is that of a file with itself
_STAMP = re.compile(r"(?<!\d)(\d{4})-?(\d\d)-?(\d\d)[T_ -]?(\d\d)[:h-]?(\d\d)(?:[:-]?(\d\d))?(?!\d)")
Triple = tuple[float, float, float]


class SeriesError(SurveyError):
    """A list, a folder or a log that can't be used."""


@dataclass(frozen=True)
class Row:
    """One session. `time` is that of the first pair, GPS time, or None where nothing says it; `state` is `fixed` or what the
    session says instead; east, north and up are m at the base, their formal standard deviations mm; `base_m` is the base by
    its file's header, None where the certificate has no pairs. `name` is the certificate's file as the folder or the list
    names it, `file` its size and time of change, empty where it couldn't be read."""

    time: Optional[datetime]
    state: str
    sha256: str
    name: str
    enu_m: Optional[Triple] = None
    sd_mm: Optional[Triple] = None
    satellites: int = 0
    pairs: int = 0
    ratio_reached: Optional[float] = None
    base_m: Optional[Triple] = None
    file: str = ""

    @property
    def order(self) -> tuple[bool, datetime, str]:
        """Rows stand by the clock, those without a time at the end."""
        return self.time is None, self.time or datetime.max, self.name


# ---- sessions


@dataclass(frozen=True)
class Entry:
    """A session of a folder or a list: its name, its file, and the time that the list or the name says."""

    name: str
    path: str
    time: Optional[datetime]


def entries(source: str) -> Iterator[Entry]:
    """The sessions of a folder, its files *.cert, or of a list of lines CERT or TIME CERT, TIME as 2005-04-02T00:00, in words
    that are spelled as in a shell; files are looked for from the list's folder."""
    if not os.path.isdir(source):
        yield from _listed(source)
        return
    for name in sorted(os.listdir(source)):
        if name.endswith(".cert") and not name.startswith("."):
            yield Entry(name, os.path.join(source, name), stamp(name))


def _listed(source: str) -> Iterator[Entry]:
    folder = os.path.dirname(source)
    text = files.read(source).decode("utf-8", "surrogateescape")
    for number, line in enumerate(text.split("\n"), 1):
        try:
            words = shlex.split(line, comments=True)
            time = gps_time(words[0]) if len(words) == 2 else None
        except ValueError:
            raise SeriesError(f"{source}: line {number}: CERT or TIME CERT is expected, as 2005-04-02T00:00 day.cert (GPS time, "
                              "without a zone)") from None
        if len(words) > 2:
            raise SeriesError(f"{source}: line {number}: CERT or TIME CERT is expected, {len(words)} words are there")
        if words:
            yield Entry(words[-1], os.path.join(folder, words[-1]), time or stamp(os.path.basename(words[-1])))


def gps_time(word: str) -> datetime:
    """A time as 2005-04-02T00:00, which is GPS time. ValueError where it is none or has a zone, as a Z at its end."""
    time = datetime.fromisoformat(word)
    if time.tzinfo is not None:
        raise ValueError(f"a zone: {word}")
    return time


def stamp(name: str) -> Optional[datetime]:
    """The time in a file's name, as 2005-04-02T0015, 20050402_001500; a decline of one line has no other."""
    found = _STAMP.search(name)
    try:
        return datetime(*(int(word or 0) for word in found.groups())) if found else None  # type: ignore[arg-type]
    except ValueError:
        return None


# What makes the settings of an adjustment from the base's height in m.
MakeSettings = Callable[[float], Settings]


def row_of(entry: Entry, data: bytes, make: MakeSettings, check: Optional[Check]) -> Row:
    """The row of a session's certificate, given as its bytes. A vector stands in it only where `check` says `certified` of
    these bytes, or where there is no check."""
    row = Row(entry.time, "unreadable", hashlib.sha256(data).hexdigest(), entry.name)
    if data.startswith(b"declined "):
        return replace(row, state=data.decode("latin-1").splitlines()[0])
    try:
        cert = certificate.read(data)
        if cert.is_track:
            return replace(row, state="track")
        row = replace(row, time=cert.pairs[0].time, satellites=len({arc.satellite for arc in cert.arcs}), pairs=len(cert.pairs),
                      ratio_reached=cert.ratio_reached, base_m=cert.base_m)
        if not cert.is_fixed:
            return replace(row, state=cert.tail.verdict)
        said = check(data) if check else "certified"
        return _fixed(row, cert, make) if said == "certified" else replace(row, state=said)
    except (SurveyError, ValueError) as why:
        return replace(row, state=f"unreadable: {why}")


def _fixed(row: Row, cert: certificate.Certificate, make: MakeSettings) -> Row:
    """The row with the adjusted vector of a fixed certificate."""
    if math.hypot(*cert.vector_m()) < SAME_M:
        return replace(row, state="one file as base and rover")
    done = adjust(cert, make(geodetic(checked_place(cert.base_m, "the base"))[2]))
    enu, sd = done.enu_m.tolist(), (1000 * done.sd_enu_m).tolist()
    if not all(math.isfinite(x) for x in enu + sd):
        return replace(row, state="no precision")
    return replace(row, state="fixed", enu_m=tuple(enu), sd_mm=tuple(sd))


# ---- the log


def load(log: str, settings: str) -> list[Row]:
    """The rows of a log; none where there isn't one. SeriesError where it was made with other settings or is damaged."""
    if not os.path.exists(log):
        return []
    lines = files.read(log).decode("ascii", "replace").split("\n")
    if lines[0] != f"{HEAD} {settings}":
        raise SeriesError(f"{log}: made by another version or with other settings; name another log")
    if lines[1:2] != ["\t".join(COLUMNS)] or lines[-1] != "":
        raise SeriesError(f"{log}: damaged")
    return [_parse(line, log, number) for number, line in enumerate(lines[2:-1], 3)]


def save(log: str, rows: Sequence[Row], settings: str) -> None:
    """Replaces the log by these rows, by the clock. The caller holds the log's lock."""
    lines = [f"{HEAD} {settings}", "\t".join(COLUMNS), *(_spell(row) for row in sorted(rows, key=lambda row: row.order))]
    files.replace(log, ("\n".join(lines) + "\n").encode("ascii"), part=log + ".part")


def _spell(row: Row) -> str:
    """A line of the log; texts are JSON in ASCII, so no byte of a name can end a field or a line."""
    time = row.time.isoformat(timespec="microseconds") if row.time else "-"
    numbers = [*_numbers(row.enu_m, 5), *_numbers(row.sd_mm, 3), str(row.satellites), str(row.pairs)]
    ratio = "-" if row.ratio_reached is None else f"{row.ratio_reached:.2f}"
    return "\t".join([time, json.dumps(row.state), *numbers, ratio, *_numbers(row.base_m, 4), row.sha256, row.file or "-",
                      json.dumps(row.name)])


def _numbers(values: Optional[Triple], places: int) -> list[str]:
    return ["-"] * 3 if values is None else [f"{x:.{places}f}" for x in values]


def _parse(line: str, log: str, number: int) -> Row:
    try:
        time, state, e, n, u, se, sn, su, satellites, pairs, ratio, x, y, z, sha256, file, name = line.split("\t")
        return Row(None if time == "-" else gps_time(time), _text(state), sha256, _text(name), _triple(e, n, u), _triple(se, sn, su),
                   int(satellites), int(pairs), None if ratio == "-" else _finite(ratio), _triple(x, y, z), "" if file == "-" else file)
    except ValueError:
        raise SeriesError(f"{log}: line {number}: damaged") from None


def _text(word: str) -> str:
    found = json.loads(word)
    if not isinstance(found, str):
        raise ValueError(word)
    return found


def _finite(word: str) -> float:
    value = float(word)
    if not math.isfinite(value):
        raise ValueError(word)
    return value


def _triple(x: str, y: str, z: str) -> Optional[Triple]:
    return None if (x, y, z) == ("-", "-", "-") else (_finite(x), _finite(y), _finite(z))


def update(source: str, log: str, make: MakeSettings, key: str, check: Optional[Check]) -> tuple[list[Row], int]:
    """Brings a log up to date with a folder or a list, under a lock; gives the rows and how many are new. `key` names the
    settings in the log. Where the folder or the list can't be read, nothing is written, a lock neither."""
    listed = list(entries(source))
    with files.locked(log):
        rows = {row.name: row for row in load(log, key)}
        fresh = 0
        for entry in listed:
            known, file = rows.get(entry.name), _file(entry.path)
            if known and file and known.file == file:
                continue
            row = rows[entry.name] = _read(entry, file, known, make, check)
            if known and row.sha256 == known.sha256:
                continue
            fresh += 1
            if fresh % SAVE_EVERY == 0:
                save(log, list(rows.values()), key)
        # numbers as the log spells them, so that this run says what a later one will
        save(log, list(rows.values()), key)
        return load(log, key), fresh


def once(rows: Sequence[Row]) -> tuple[list[Row], list[tuple[Row, Row]]]:
    """The rows by the clock with each session once, and the others, each with the row that counts in its place. A session is known
    by the time of its first pair, to the second: a copy under another name, a second `fix` of it with other options and an
    upload that was sent again have the same. Of them a fixed one counts, then the first by name without its ending. A row without
    a time is a session of its own."""
    kept: dict[datetime, Row] = {}
    for row in sorted(rows, key=lambda row: (row.enu_m is None, os.path.splitext(row.name))):
        if row.time is not None:
            kept.setdefault(nearest_second(row.time), row)
    first = [row if row.time is None else kept[nearest_second(row.time)] for row in rows]
    counting = [row for row, it in zip(rows, first) if it is row]
    return counting, [(row, it) for row, it in zip(rows, first) if it is not row]


def _file(path: str) -> str:
    """A file's size and time of change, in bytes and nanoseconds; empty where there is none."""
    try:
        found = os.stat(path)
    except OSError:
        return ""
    return f"{found.st_size}:{found.st_mtime_ns}"


def _read(entry: Entry, file: str, known: Optional[Row], make: MakeSettings, check: Optional[Check]) -> Row:
    """The row of a session whose file is new or was touched. A bad file doesn't stop a monitor; the next call reads it again."""
    try:
        data = files.read(entry.path)
    except (OSError, SurveyError) as why:
        fault = f"unreadable: {getattr(why, 'strerror', None) or why}"
        return Row(entry.time, fault, hashlib.sha256(b"").hexdigest(), entry.name)
    if known and known.file and known.sha256 == hashlib.sha256(data).hexdigest():
        return replace(known, file=file)
    return replace(row_of(entry, data, make, check), file=file)
