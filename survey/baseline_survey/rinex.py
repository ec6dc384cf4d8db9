"""Three changes of an observation file of RINEX 2 or 3, with every byte kept that isn't meant: `correct`, `rebase`, `cut`.

- `correct` takes modelled delays off codes and phases: Saastamoinen's troposphere with Niell's mapping function
  (`atmosphere`), and where it is asked for the broadcast ionosphere (`orbits.klobuchar_delay`). With both files of a
  baseline corrected, `fix` reaches heights at which it declines otherwise. A certificate then speaks of the corrected
  files: lines COMMENT in them say what was done.
- `rebase` puts known coordinates of the mark into the header.
- `cut` takes a part by the clock.

Files are bytes in and bytes out; nothing is written here. Columns are those of RINEX 2.11 (tables A1, A2) and RINEX 3.04
(tables A2, A3), counted from 1 in texts and from 0 in slices. A file that breaks the form is refused at its line.
"""
from __future__ import annotations

import datetime
import math
import re
from dataclasses import dataclass, field
from typing import Iterator, Mapping, Optional, Sequence

import numpy as np

from . import atmosphere, geodesy, rinex_header
from .errors import SurveyError
from .orbits import FREQUENCIES, LIGHT, Navigation, elevation_azimuth, klobuchar_delay, seen
from .packed import why_packed

TICK = 10_000_000  # ticks of 100 ns in a second, as in a certificate
SLACK = TICK // 100  # a tag may be off its whole second by a receiver's clock
LOWEST = math.radians(3)  # Niell's mapping function is meant for elevations above this
MARK = "baseline-survey correct:"  # begins the COMMENT of a corrected file
OFF_M = 3.0  # delays that were taken off so far from the antenna's height cost some 3 mm
DECIDING = ("SYS / # / OBS TYPES", "SYS / SCALE FACTOR", "# / TYPES OF OBSERV", "WAVELENGTH FACT L1/2")  # labels that say what values mean
_EPOCH = datetime.date(1980, 1, 6).toordinal()
_VALUE = re.compile(r" *([+-]?)(?:([0-9]+)(?:\.([0-9]{0,3}))?|\.([0-9]{1,3})) *\Z")
_WHOLE = re.compile(r" *[0-9]+ *\Z")
_SECOND = re.compile(r" *([0-9]{1,2})(?:\.([0-9]{0,7}))? *\Z")
_PLACE = re.compile(r"[+-]?[0-9]{1,8}(?:\.[0-9]{0,4})?\Z")


_HEIGHT = re.compile(r"at height (-?[0-9]+\.[0-9]) m; orbits: broadcast")


def is_corrected(comments: Sequence[str]) -> bool:
    """Whether a file with these texts of its lines COMMENT was made by `correct`."""
    return any(comment.startswith(MARK) for comment in comments)


def height_of_correction(comments: Sequence[str]) -> Optional[float]:
    """The antenna's height in metres at which `correct` took the delays off; None where the file doesn't say it."""
    found = [float(it[1]) for it in map(_HEIGHT.match, comments) if it]
    return found[-1] if found and is_corrected(comments) else None


class RinexError(SurveyError):
    """An observation file that can't be changed: the line from 1 (0 where none is to blame), why, and the file's name."""

    def __init__(self, line: int, reason: str, name: str = "") -> None:
        super().__init__(line, reason, name)
        self.line, self.reason, self.name = line, reason, name

    def __str__(self) -> str:
        return ": ".join([self.name] * bool(self.name) + [f"line {self.line}"] * bool(self.line) + [self.reason])


@dataclass(frozen=True)
class Form:
    """What the header says of the file's form: RINEX 2 or 3, its number of lines with END OF HEADER, the lists of types by
    system (for RINEX 2 one list, under the empty name), and the texts of its lines COMMENT."""

    version: int
    lines: int
    types: Mapping[str, Sequence[str]]
    comments: Sequence[str]


@dataclass(frozen=True)
class Block:
    """An epoch or an event: its lines from `start` to before `stop`, its flag, its time in ticks since 1980-01-06 (None
    where an event has no date), and each satellite's name with its first line."""

    start: int
    stop: int
    flag: str
    time: Optional[int]
    satellites: Sequence[tuple[str, int]] = ()


@dataclass
class Corrected:
    """How much `correct` did. `dropped` are the values that were made missing, since no record serves their satellite or
    it is below three degrees; the zenith delay is in m."""

    values: int = 0
    dropped: int = 0
    satellites: set[str] = field(default_factory=set)
    dropped_of: set[str] = field(default_factory=set)
    zenith_m: float = 0.0
    height_m: float = 0.0


class Text:
    """The lines of a file without their ends, which are kept beside."""

    def __init__(self, data: bytes) -> None:
        self.packed = why_packed(data)
        self.lines = data.decode("latin-1").split("\n")
        self.ends_with_newline = self.lines[-1] == ""
        if self.ends_with_newline:
            self.lines.pop()

    def __getitem__(self, at: int) -> str:
        line = self.lines[at]
        return line[:-1] if line.endswith("\r") else line

    def __len__(self) -> int:
        return len(self.lines)

    def end_of(self, at: int) -> str:
        """A CR, where the line has one before its LF."""
        return "\r" if self.lines[at].endswith("\r") else ""

    def whole(self, lines: Sequence[str]) -> bytes:
        """The bytes of these lines, ended as the file was."""
        return ("\n".join(lines) + ("\n" if self.ends_with_newline else "")).encode("latin-1")


# ---- reading


def read_form(text: Text) -> Form:
    """The form of an observation file of RINEX 2.10, 2.11 or 3.00 to 3.05."""
    version = _version(text)
    types: dict[str, list[str]] = {}
    counts: dict[str, int] = {}
    comments: list[str] = []
    owner = ""
    for at in range(1, len(text)):
        line = text[at]
        label, content = line[60:80].rstrip(), line[:60].ljust(60)
        if label == "END OF HEADER":
            for name, count in counts.items():
                if len(types[name]) != count:
                    raise RinexError(at + 1, "bad list of observation types")
            if not types:
                raise RinexError(at + 1, "bad list of observation types")
            return Form(int(version[0]), at + 1, types, comments)
        if label == "COMMENT":
            comments.append(content.rstrip())
        elif label == "SYS / # / OBS TYPES" and version[0] == "3":
            if content[0] != " ":
                owner = content[0]
                counts[owner], types[owner] = _count(content[3:6], at), []
            if owner:
                types[owner] += [content[c:c + 3] for c in range(7, 59, 4)][:counts[owner] - len(types[owner])]
        elif label == "# / TYPES OF OBSERV" and version[0] == "2":
            if content[:6].strip():
                counts[""], types[""] = _count(content[:6], at), []
            if "" in types:
                types[""] += [content[c:c + 2] for c in range(10, 60, 6)][:counts[""] - len(types[""])]
        elif reason := _why_not(label, content):
            raise RinexError(at + 1, reason)
    raise RinexError(len(text) + 1, "no end of header")


def _version(text: Text) -> str:
    """The version of the first line, which must be that of an observation file."""
    first = (text[0] if len(text) else "").ljust(80)
    if first[60:80].rstrip() != "RINEX VERSION / TYPE":
        raise RinexError(1, text.packed or "not a RINEX file")
    version = first[:9].strip()
    if not re.match(r"(2\.1[01]?|3(\.0[0-5]?)?)\Z", version):
        raise RinexError(1, "version not 2.10 to 2.11 or 3.00 to 3.05")
    if first[20] != "O":
        raise RinexError(1, "not an observation file")
    return version


def _why_not(label: str, content: str) -> str:
    """What in a header's line changes the meaning of values, so that they can't be corrected; empty where nothing does."""
    if label == "SYS / SCALE FACTOR" and content[0] in FREQUENCIES:
        return "scale factor"
    if label == "WAVELENGTH FACT L1/2" and any(content[c:c + 6].strip() not in ("", "0", "1") for c in (0, 6)):
        return "wavelength factor not 1"
    if label == "TIME OF FIRST OBS" and content[48:51].strip() not in ("", "GPS", "GAL"):
        return "time system not GPS"
    return ""


def _count(word: str, at: int) -> int:
    if not _WHOLE.match(word) or not 1 <= int(word) <= 200:
        raise RinexError(at + 1, "bad list of observation types")
    return int(word)


def blocks(text: Text, form: Form) -> Iterator[Block]:
    """The epochs and events of the body, in the order of the file."""
    at = form.lines
    while at < len(text):
        if not text[at].strip(" "):
            at += 1
            continue
        block = _block3(text, at) if form.version == 3 else _block2(text, at, form)
        if block.stop > len(text):
            raise RinexError(len(text) + 1, "file ends early")
        yield block
        at = block.stop


def _block3(text: Text, at: int) -> Block:
    line = text[at].ljust(35)
    if line[0] != ">":
        raise RinexError(at + 1, "bad field")
    flag, count = _flag(line[31], at), _rows(line[32:35], at)
    time = _time(line, at, (2, 7, 10, 13, 16, 18), flag, line[2:6])
    satellites = [(_satellite(text[k][:3], k), k) for k in range(at + 1, min(at + 1 + count, len(text)))] if flag in "016" else []
    return Block(at, at + 1 + count, flag, time, satellites)


def _block2(text: Text, at: int, form: Form) -> Block:
    line = text[at].ljust(80)
    if line[0] != " ":
        raise RinexError(at + 1, "bad field")
    flag, count = _flag(line[28], at), _rows(line[29:32], at)
    short = line[1:3].strip(" ")
    year = ("19" if short >= "80" and len(short) == 2 else "20") + short.rjust(2, "0") if short else ""
    time = _time(line, at, (1, 4, 7, 10, 13, 15), flag, year)
    if flag not in "016":
        return Block(at, at + 1 + count, flag, time)
    names, heads, each = [], (count + 11) // 12, (len(form.types[""]) + 4) // 5
    for k in range(count):
        head = at + k // 12
        if head >= len(text):
            break
        names.append(_satellite(text[head].ljust(80)[32 + 3 * (k % 12):35 + 3 * (k % 12)], head))
    first = at + max(heads, 1)
    return Block(at, first + count * each, flag, time, [(name, first + k * each) for k, name in enumerate(names)])


def _flag(letter: str, at: int) -> str:
    if letter not in "0123456":
        raise RinexError(at + 1, "bad epoch flag")
    return letter


def _rows(word: str, at: int) -> int:
    if word.strip(" ") and not _WHOLE.match(word):
        raise RinexError(at + 1, "bad field")
    return int(word.strip(" ") or 0)


def _satellite(word: str, at: int) -> str:
    letter, number = word[:1].strip(" ") or "G", word[1:3].replace(" ", "0")
    if not letter.isalpha() or len(number) != 2 or not _WHOLE.match(number):
        raise RinexError(at + 1, "bad satellite name")
    return letter + number


def _time(line: str, at: int, columns: Sequence[int], flag: str, year: str) -> Optional[int]:
    """The ticks of an epoch line; None where an event has none."""
    words = [year, *(line[c:c + 2] for c in columns[1:5])]
    if flag in "23456" and not any(word.strip() for word in words):
        return None
    second = _SECOND.match(line[columns[5]:columns[5] + 11])
    try:
        if second is None or not all(_WHOLE.match(word) for word in words):
            raise ValueError
        y, month, day, hour, minute = (int(word) for word in words)
        if hour > 23 or minute > 59 or int(second[1]) > 59:
            raise ValueError
        days = datetime.date(y, month, day).toordinal() - _EPOCH
    except ValueError:
        if flag in "2345":
            return None
        raise RinexError(at + 1, "bad date") from None
    return ((days * 24 + hour) * 60 + minute) * 60 * TICK + int(second[1]) * TICK + int((second[2] or "").ljust(7, "0"))


def thousandths(word: str) -> Optional[int]:
    """The value of a field of 14 columns in thousandths: None where it is missing, `ValueError` where it is no number."""
    if not word.strip():
        return None
    told = _VALUE.match(word)
    if not told:
        raise ValueError(word)
    whole, places = told[2] or "0", told[3] or told[4] or ""
    return int(told[1] + whole + places.ljust(3, "0")) or None


# ---- correct


def correct(data: bytes, navigation: Navigation, *, ionosphere: bool = False, position: Optional[Sequence[float]] = None,
            weather: atmosphere.Weather = atmosphere.STANDARD) -> tuple[bytes, Corrected]:
    """Takes the modelled delays off the codes and phases of GPS and Galileo.

    `position` (m, X Y Z of the mark) stands in place of the header's: ten metres of height change the zenith delay by
    3 mm. The antenna is above it by the header's DELTA H/E/N. Values of a satellite without a record, or lower than three
    degrees, are made missing, since nobody could tell them from corrected ones. All other bytes stay, Doppler and signal
    strength among them; lines COMMENT before END OF HEADER say what was done.

    Errors: `RinexError` for a file that breaks the form, was corrected before, has no position, or has a value that
    leaves its columns; `SurveyError` where the ionosphere is asked for and the navigation file has none.
    """
    text = Text(data)
    form = read_form(text)
    if is_corrected(form.comments):
        raise RinexError(0, "is corrected already")
    if ionosphere and navigation.klobuchar is None:
        raise SurveyError("the navigation file has no lines GPSA and GPSB")
    header = rinex_header.read_header(data)
    mark = tuple(position) if position is not None else header.position_m
    if mark is None:
        raise RinexError(0, "no position in the header: `--position X Y Z`, or `rebase` first")
    if header.first_epoch is None:
        raise RinexError(0, "has no epochs")
    told = Corrected()
    delays = _Delays(navigation, mark, header.delta_m, header.first_epoch, ionosphere, weather)
    told.zenith_m, told.height_m = delays.zenith_m, delays.height_m
    lines = list(text.lines)
    for name, sight in _sights(text, form).items():
        kinds = _kinds(form, name)
        if not kinds:
            continue
        troposphere, ions = delays.of(name, np.array([time for time, _ in sight]))
        for (_, at), metres, bent in zip(sight, troposphere, ions):
            for k, kind, frequency in kinds:
                if _change(lines, at, k, kind, frequency, metres, bent, form.version, told):
                    (told.satellites if math.isfinite(metres) else told.dropped_of).add(name)
    lines[form.lines - 1:form.lines - 1] = [_comment(it) + text.end_of(form.lines - 1) for it in delays.comments(told)]
    return text.whole(lines), told


def _sights(text: Text, form: Form) -> dict[str, list[tuple[float, int]]]:
    """Of each satellite the time (s since 1980-01-06) and the first line of each epoch that has it."""
    sights: dict[str, list[tuple[float, int]]] = {}
    for block in blocks(text, form):
        if block.flag in "01" and block.time is not None:
            for name, at in block.satellites:
                sights.setdefault(name, []).append((block.time / TICK, at))
        for at in range(block.start + 1, block.stop if block.flag == "4" else 0):
            if text[at][60:80].rstrip() in DECIDING:
                raise RinexError(at + 1, "types or scale changed after header")
    return sights


def _kinds(form: Form, satellite: str) -> list[tuple[int, str, float]]:
    """The codes and phases of a satellite's system: number of the type, C or L, carrier frequency in Hz."""
    frequencies = FREQUENCIES.get(satellite[0])
    if not frequencies:
        return []
    types = form.types.get("" if form.version == 2 else satellite[0], ())
    return [(k, "L" if it[0] == "L" else "C", frequencies[it[1]]) for k, it in enumerate(types) if it[0] in "CPL" and it[1] in frequencies]


class _Delays:
    """The modelled delays at a place; the season of the mapping function is that of `time`, the file's first epoch."""

    def __init__(self, navigation: Navigation, mark: Sequence[float], delta: Sequence[float], time: datetime.datetime, ionosphere: bool,
                 weather: atmosphere.Weather) -> None:
        self.navigation, self.time, self.ionosphere, self.weather = navigation, time, ionosphere, weather
        self.place = geodesy.checked_place(mark, "the position") + geodesy.delta_xyz(delta, mark)
        self.latitude, self.longitude, self.height_m = geodesy.geodetic(self.place)
        here = weather.at(self.height_m)
        self.zenith_m = atmosphere.zenith_hydrostatic(here, self.latitude) + atmosphere.zenith_wet(here)

    def of(self, name: str, times: np.ndarray) -> tuple[np.ndarray, np.ndarray]:
        """Troposphere and ionosphere on L1 in m at these times (s since 1980-01-06), shape n each; the first isn't finite
        where the satellite can't be used."""
        troposphere, ions = np.full(len(times), math.nan), np.zeros(len(times))
        chosen = self.navigation.choose(name, times)
        for k in np.unique(chosen[chosen >= 0]):
            some = chosen == k
            away = seen(self.navigation.records[name][k], times[some], self.place)
            elevation, azimuth = elevation_azimuth(away, self.latitude, self.longitude)
            slant, high = np.full(len(elevation), math.nan), elevation > LOWEST
            slant[high] = atmosphere.delay(elevation[high], self.latitude, self.height_m, self.time, self.weather)
            troposphere[some] = slant
            if self.ionosphere and self.navigation.klobuchar:
                ions[some] = klobuchar_delay(self.navigation.klobuchar, self.latitude, self.longitude, elevation, azimuth, times[some])
        return troposphere, ions

    def comments(self, told: Corrected) -> list[str]:
        """What the file shall say, in lines of at most 60 columns."""
        systems = " ".join(sorted({name[0] for name in told.satellites}))
        kept = [f"{MARK} delays taken off codes and phases",
                f"of {systems}: Saastamoinen, Niell, zenith {self.zenith_m:.4f} m",
                f"at height {self.height_m:.1f} m; orbits: broadcast"]
        kept += ["ionosphere: Klobuchar, the navigation file's GPSA and GPSB"] if self.ionosphere else []
        return kept + (["made missing: values without an orbit or below 3 degrees"] if told.dropped else [])


def _comment(content: str) -> str:
    return f"{content[:60]:<60}COMMENT"


def _change(lines: list[str], at: int, number: int, kind: str, frequency: float, metres: float, ions: float, version: int,
            told: Corrected) -> bool:
    """Changes one value in place; says whether there was one."""
    if version == 3:
        column = 3 + 16 * number
    else:
        at, column = at + number // 5, 16 * (number % 5)
    line = lines[at]
    end = "\r" if line.endswith("\r") else ""
    body = line[:len(line) - len(end)]
    try:
        value = thousandths(body[column:column + 14])
    except ValueError:
        raise RinexError(at + 1, "bad field") from None
    if value is None:
        return False
    if not math.isfinite(metres):
        told.dropped += 1
        lines[at] = body[:column] + " " * len(body[column:column + 16]) + body[column + 16:] + end
        return True
    bent = ions * (FREQUENCIES["G"]["1"] / frequency)**2
    change = (metres - bent) * frequency / LIGHT if kind == "L" else metres + bent
    new = f"{_places(value - round(1000 * change)):>14}"
    if len(new) > 14:
        raise RinexError(at + 1, "corrected value is too long for its columns")
    told.values += 1
    lines[at] = body[:column] + new + body[column + 14:] + end
    return True


def _places(value: int) -> str:
    """A number of thousandths with three places."""
    return f"{'-' * (value < 0)}{abs(value) // 1000}.{abs(value) % 1000:03d}"


# ---- rebase


def rebase(data: bytes, place: Sequence[str]) -> bytes:
    """Puts known coordinates (m, as words with at most four places) into every line APPROX POSITION XYZ of the header.

    Where the header has none, one is put before its end. A COMMENT keeps the coordinates that stood there. The header's
    position is the mark: the antenna is above it by DELTA H/E/N. `RinexError` for a file whose delays `correct` took off at
    another height.
    """
    if len(place) != 3 or not all(_PLACE.match(word) for word in place):
        raise SurveyError("X Y Z are three numbers of metres with at most four places")
    geodesy.checked_place([float(word) for word in place], "X Y Z")
    text = Text(data)
    form = read_form(text)
    if (taken_at := height_of_correction(form.comments)) is not None:
        off = taken_at - rinex_header.read_header(data).delta_m[0] - geodesy.geodetic([float(word) for word in place])[2]
        if abs(off) >= OFF_M:
            raise RinexError(0, f"`correct` took the delays off {abs(off):.0f} m {'over' if off > 0 else 'under'} the new position: "
                                "`rebase` the original file, then `correct` it")
    lines, before, content = list(text.lines), "none", "".join(f"{float(word):14.4f}" for word in place)
    last = form.lines - 1
    for at in range(last):
        line = text[at]
        if line[60:80].rstrip() == "APPROX POSITION XYZ":
            before = " ".join(line[:42].split())
            lines[at] = content + line[42:] + text.end_of(at)
    added = [_comment(f"rebased, was {before}") + text.end_of(last)]
    if before == "none":
        added.append(f"{content:<60}APPROX POSITION XYZ" + text.end_of(last))
    lines[last:last] = added
    return text.whole(lines)


# ---- cut


def parse_time(word: str, day: int) -> int:
    """Ticks of `YYYY-MM-DDTHH:MM[:SS]`, or of `HH:MM[:SS]` on a day counted from 1980-01-06."""
    told = re.match(r"(?:(\d{4}-\d\d-\d\d)[T ])?(\d\d):(\d\d)(?::(\d\d)(?:\.(\d{1,7}))?)?\Z", word)
    try:
        if not told or int(told[2]) > 24 or int(told[3]) > 59 or int(told[4] or 0) > 59:
            raise ValueError
        if told[2] == "24" and any(int(it or 0) for it in told.groups()[2:]):
            raise ValueError
        days = datetime.date.fromisoformat(told[1]).toordinal() - _EPOCH if told[1] else day
    except ValueError:
        raise SurveyError(f"no time of the form 2005-04-02T00:05:00 or 00:05:00: {word}") from None
    return ((days * 24 + int(told[2])) * 60 + int(told[3])) * 60 * TICK + int(told[4] or 0) * TICK + int((told[5] or "").ljust(7, "0"))


def cut(data: bytes, begin: str, end: str) -> tuple[bytes, int]:
    """The epochs from `begin` on and before `end`, by the clock of the file's epochs, and how many these are.

    An epoch up to 10 ms before a full time counts as that time, since receivers tag by a clock that drifts.
    Events without a date go with what follows them; a changed header (flag 4) before the part is kept, since it still
    holds. The header's first and last time are set to the part's, and its counts of observations, which would be wrong,
    are left out.
    """
    text = Text(data)
    form = read_form(text)
    every = list(blocks(text, form))
    first = next((it.time for it in every if it.flag in "01" and it.time is not None), None)
    if first is None:
        raise RinexError(0, "has no epochs")
    day = first // (86_400 * TICK)
    low, high = parse_time(begin, day), parse_time(end, day)
    if low >= high:
        raise SurveyError("FROM isn't before TO")
    kept, times, waiting = [], [], []
    for block in every:
        if block.flag not in "01":
            waiting.append(block)
            continue
        assert block.time is not None  # an epoch's bad date is refused
        if low <= block.time + SLACK < high:
            kept += [*waiting, block]
            times.append(block.time)
            waiting = []
        else:
            waiting = [it for it in waiting if it.flag == "4" and block.time + SLACK < low]
    if not times:
        raise RinexError(0, f"has no epoch from {begin} to {end}")
    lines = list(_header_of(text, form, times[0], times[-1]))
    for block in kept:
        lines += text.lines[block.start:block.stop]
    return text.whole(lines), len(times)


def _header_of(text: Text, form: Form, first: int, last: int) -> Iterator[str]:
    """The header of a part that has these times."""
    for at in range(form.lines):
        line, label = text[at], text[at][60:80].rstrip()
        if label in ("# OF SATELLITES", "PRN / # OF OBS"):
            continue
        if label in ("TIME OF FIRST OBS", "TIME OF LAST OBS"):
            line = _date_fields(first if label == "TIME OF FIRST OBS" else last) + line[43:]
        yield line + text.end_of(at)


def _date_fields(ticks: int) -> str:
    """Columns 1 to 43 of TIME OF FIRST OBS (5I6, F13.7)."""
    day, rest = divmod(ticks, 86_400 * TICK)
    date = datetime.date.fromordinal(_EPOCH + day)
    minutes, second = divmod(rest, 60 * TICK)
    return f"{date.year:6d}{date.month:6d}{date.day:6d}{minutes // 60:6d}{minutes % 60:6d}{second // TICK:5d}.{second % TICK:07d}"
