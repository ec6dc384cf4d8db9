"""Which lines of a network control each other: connected stations, loops, and lines of one session.

Lines that were observed at the same time share their receivers' noise, their set-up and their air. Of k stations that were
observed together k - 1 lines are independent; the others follow from them and close a loop whatever is wrong with a height,
a centring or the atmosphere. The same holds for one line twice in a session, as by GPS and by Galileo. (Leick, Rapoport,
Tatarnikov, GPS Satellite Surveying, 4th ed., 2015, chapter 5.)
"""
from __future__ import annotations

from collections import deque
from dataclasses import dataclass
from datetime import datetime, timedelta
from typing import Iterable, Mapping, Sequence

import numpy as np

from .geodesy import to_local
from .lines import Line

Neighbours = Mapping[str, Sequence[tuple[str, int]]]


@dataclass(frozen=True)
class Loop:
    """A closed walk: lines with +1 or -1, misclosure east north up in mm, length in m, and whether one session holds it."""

    lines: Sequence[tuple[int, int]]
    enu_mm: np.ndarray
    length_m: float
    is_one_session: bool


@dataclass(frozen=True)
class Session:
    """Lines of one time that hang together: numbers of the lines, how many stations they join, which of the lines follow
    from others, and which are the same line again (each time two or more)."""

    lines: Sequence[int]
    stations: int
    dependent: Sequence[int]
    repeated: Sequence[Sequence[int]]
    first: datetime
    last: datetime


class Parts:
    """Names by the connected part that they are in (union-find)."""

    def __init__(self) -> None:
        self._above: dict[str, str] = {}

    def root(self, name: str) -> str:
        above = self._above
        while above.setdefault(name, name) != name:
            above[name] = above[above[name]]
            name = above[name]
        return name

    def join(self, one: str, other: str) -> bool:
        """Joins two names; whether they weren't joined before."""
        a, b = self.root(one), self.root(other)
        self._above[a] = b
        return a != b


def apart_from(held: Iterable[str], lines: Sequence[Line]) -> list[str]:
    """The stations from which no lines lead to a held one."""
    parts, held = Parts(), list(held)
    for line in lines:
        parts.join(line.start, line.end)
    reached = {parts.root(name) for name in held}
    return sorted({name for line in lines for name in (line.start, line.end) if parts.root(name) not in reached})


# ---- loops


def loops(lines: Sequence[Line]) -> list[Loop]:
    """One loop for each line that a spanning tree leaves over: that line, and the shortest way back without it."""
    near, parts = _neighbours(lines), Parts()
    return [_loop(lines, k, near) for k, line in enumerate(lines) if not parts.join(line.start, line.end)]


def _neighbours(lines: Sequence[Line]) -> Neighbours:
    """Of each station its neighbours with the number of the line."""
    near: dict[str, list[tuple[str, int]]] = {}
    for k, line in enumerate(lines):
        near.setdefault(line.start, []).append((line.end, k))
        near.setdefault(line.end, []).append((line.start, k))
    return near


def _loop(lines: Sequence[Line], k: int, near: Neighbours) -> Loop:
    walk = [(k, 1), *_way(lines, k, near)]
    misclosure = np.sum([sign * lines[i].vector for i, sign in walk], axis=0)
    length = sum(float(np.linalg.norm(lines[i].vector)) for i, _ in walk)
    together = all(_overlap(lines[i], lines[j]) for i, _ in walk for j, _ in walk)
    return Loop(walk, 1000 * to_local(misclosure, lines[k].base), length, together)


def _way(lines: Sequence[Line], k: int, near: Neighbours) -> list[tuple[int, int]]:
    """The fewest lines that lead from the end of line k to its start without it, each with its sign."""
    begin, goal = lines[k].end, lines[k].start
    before: dict[str, tuple[str, int]] = {begin: ("", -1)}
    queue = deque([begin])
    while goal not in before:
        name = queue.popleft()
        for other, via in near[name]:
            if via != k and other not in before:
                before[other] = (name, via)
                queue.append(other)
    way, name = [], goal
    while name != begin:
        name, via = before[name]
        way.append((via, 1 if lines[via].start == name else -1))
    return way[::-1]


# ---- sessions


def _overlap(one: Line, other: Line) -> bool:
    """Whether two lines share half of the shorter one's time."""
    shared = (min(one.last, other.last) - max(one.first, other.first)).total_seconds()
    shorter = min((it.last - it.first).total_seconds() for it in (one, other))
    return shared >= 0 and shared >= shorter / 2


def sessions(lines: Sequence[Line]) -> list[Session]:
    """Groups of two or more lines of one time that hang together by their stations. A line is of the time of a group where
    it overlaps with the group's first."""
    groups: list[list[int]] = []
    running: list[list[int]] = []  # groups whose first line hasn't ended
    for k in sorted(range(len(lines)), key=lambda k: (lines[k].first, k)):
        running = [it for it in running if lines[it[0]].last >= lines[k].first]
        group = next((it for it in running if _overlap(lines[it[0]], lines[k])), None)
        if group is None:
            group = []
            groups.append(group)
            running.append(group)
        group.append(k)
    return [_session(lines, part) for group in groups for part in _connected(lines, group) if len(part) > 1]


def _connected(lines: Sequence[Line], group: Sequence[int]) -> list[list[int]]:
    """The lines of a group by the connected parts of their stations."""
    parts, found = Parts(), {}
    for k in group:
        parts.join(lines[k].start, lines[k].end)
    for k in group:
        found.setdefault(parts.root(lines[k].start), []).append(k)
    return list(found.values())


def _session(lines: Sequence[Line], part: Sequence[int]) -> Session:
    stations = {name for k in part for name in (lines[k].start, lines[k].end)}
    same: dict[frozenset[str], list[int]] = {}
    for k in part:
        same.setdefault(frozenset((lines[k].start, lines[k].end)), []).append(k)
    return Session(sorted(part), len(stations), _dependent(lines, part), [sorted(it) for it in same.values() if len(it) > 1],
                   min(lines[k].first for k in part), max(lines[k].last for k in part))


def _dependent(lines: Sequence[Line], part: Sequence[int]) -> list[int]:
    """The lines, in the order of their begins, whose ends earlier lines of their own time join already. A long line gathers
    short ones that don't overlap with each other; these don't follow from each other. Only where earlier lines join the ends, and
    some of them may be of another time, does it take a look at each."""
    found, parts, first, last = [], Parts(), lines[part[0]].first, lines[part[0]].last  # first to last is common to the earlier ones
    longest = timedelta(0)
    for at, k in enumerate(part):
        line = lines[k]
        longest = max(longest, line.last - line.first)
        if parts.root(line.start) == parts.root(line.end):
            is_one_time = 2 * (min(last, line.last) - max(first, line.first)) >= longest
            if is_one_time or _joined([lines[j] for j in part[:at] if _overlap(lines[j], line)], line):
                found.append(k)
        parts.join(line.start, line.end)
        first, last = max(first, line.first), min(last, line.last)
    return sorted(found)


def _joined(others: Iterable[Line], line: Line) -> bool:
    """Whether the ends of a line are joined by others."""
    parts = Parts()
    for it in others:
        parts.join(it.start, it.end)
    return parts.root(line.start) == parts.root(line.end)
