"""Certificates of made surveys whose vector is known: the text, and the truth.

Satellites stand on a sphere of the radius that the adjustment takes for them, and move as their own go. What is observed is
computed here from ranges, not by the package's linear model; troposphere and antennas come in only where a test hands in a
function, so that a test says what it takes for true.
"""
from __future__ import annotations

import math
import random
from dataclasses import dataclass
from datetime import datetime, timedelta
from typing import Callable, Optional, Sequence

import numpy as np

IOTA_M = 299_792_458 / 2_174_079_600_000
WAVELENGTH = {1: 1380, 2: 1771, 5: 1848}
MHZ = {1: 1575.42, 2: 1227.60, 5: 1176.45}
RADIUS_M = {"G": 26.56e6, "E": 29.60e6}
SIGNALS = [(True, 1), (True, 2), (False, 1), (False, 2), (True, 5), (False, 5)]
BASE = (-3978242.4348, 3382841.1715, 3649902.7667)
START = datetime(2005, 4, 2)
SKY_DEG = [(20, 75), (95, 40), (170, 55), (240, 30), (310, 62), (45, 25), (140, 20), (280, 48), (350, 35), (200, 80)]


@dataclass
class Made:
    text: bytes
    vector_m: np.ndarray
    base_m: np.ndarray


def axes(place: np.ndarray) -> np.ndarray:
    """East, north, up by a sphere's normal: enough to put satellites into a sky."""
    up = place / np.linalg.norm(place)
    east = np.cross([0.0, 0.0, 1.0], up)
    east /= np.linalg.norm(east)
    return np.array([east, np.cross(up, east), up])


def made(vector: Sequence[float] = (2022.7734, -468.6314, 2610.2876), base: Sequence[float] = BASE, pairs: int = 20, step: float = 30.0,
         satellites: int = 7, bands: Sequence[int] = (1, 2), system: str = "G", seed: int = 1, noise_m: float = 0.0,
         longer: Optional[Callable[[int, str, np.ndarray, datetime], float]] = None, point_off_m: Sequence[float] = (0.02, -0.03, 0.01),
         ratio_reached: float = 10.0, verdict: str = "fixed", sky: Sequence[tuple[float, float]] = SKY_DEG,
         phase: Optional[Callable[[int, int, int], float]] = None) -> Made:
    """A certificate. `longer(band, "base" or "rover", satellite - receiver, time)` is what a phase is longer than its range,
    in metres; `phase(band, satellite, pair)` is added to a phase of the rover, in metres."""
    dice = random.Random(seed)
    base, vector = np.round(np.asarray(base, float), 4), np.asarray(vector, float)
    rover = base + vector
    point = np.round(rover + np.asarray(point_off_m, float), 4)
    count, frame = len(bands), axes(base)
    cycles = [[0] * count if k == 0 else [dice.randint(-3, 3) for _ in bands] for k in range(satellites)]
    lines = ["baseline-cert 2", "ratio 2000", "budget 1000000", f"system {system}", "base " + tenths(base), "point " + tenths(point),
             {(1, 2): "signals 12 C W", (1, 5): "signals 15 C Q", (1, 2, 5): "signals 125 C W Q"}[tuple(bands)], f"arcs {satellites}"]
    for k in range(satellites):
        shifts = " ".join(str(dice.randint(-10**6, 10**6)) for _ in bands)
        lines.append(f"arc {k + 1} 0 {pairs - 1} {'datum' if k == 0 else 'free'} {shifts}")
    lines.append(f"pairs {pairs}")
    start = round((START - datetime(1980, 1, 6)).total_seconds()) * 10**7
    for number in range(pairs):
        time = START + timedelta(seconds=number * step)
        lines.append(f"pair {number} {start + round(number * step * 1e7)} {dice.randint(-10**8, 10**8)} {satellites}")
        clocks = {signal: dice.uniform(-50, 50) for signal in SIGNALS}
        for k in range(satellites):
            place, direction = sighted(frame, point, rover, system, moved(sky[k], number * step, (-1)**k))
            # the difference of two ranges of 2e7 m is good to 1e-9 m alone; what the rows need is the small rest
            change = float(direction @ (rover - point))
            values = []
            for is_phase, band in SIGNALS:
                if band not in bands:
                    continue
                extra = change + clocks[is_phase, band]
                if longer:
                    extra += longer(band, "rover", place - rover, time) - longer(band, "base", place - base, time)
                if is_phase:
                    extra += cycles[k][bands.index(band)] * WAVELENGTH[band] * IOTA_M + dice.gauss(0, noise_m)
                    extra += phase(band, k, number) if phase else 0.0
                values.append(round(extra / IOTA_M * 2**13))
            lines.append(f"row {k} " + " ".join(map(str, values)) + " 10 " + " ".join(str(round(x * 2**24)) for x in direction) + " 9 9 9")
    move = [round(x / IOTA_M * 2**5) for x in rover - point]
    integers = " ".join(str(n) for row in cycles[1:] for n in row)
    top = 10**9
    lines += ["z1 " + integers, "z2 " + integers, "move " + " ".join(map(str, move)),
              f"values 40 {top} {round(64 * top * ratio_reached)} {top}", verdict]
    return Made(("\n".join(lines) + "\n").encode("ascii"), vector, base)


def moved(at_deg: tuple[float, float], seconds: float, side: int) -> tuple[float, float]:
    """Azimuth and elevation in radians after some seconds; `side` says whether it rises or sets."""
    azimuth, elevation = at_deg
    return math.radians(azimuth + seconds / 200), math.radians(elevation + side * seconds / 240)


def sighted(frame: np.ndarray, point: np.ndarray, rover: np.ndarray, system: str, at: tuple[float, float]) -> tuple[np.ndarray, np.ndarray]:
    """A satellite's place and the direction from it to the middle between two places."""
    azimuth, elevation = at
    toward = frame.T @ np.array([math.cos(elevation) * math.sin(azimuth), math.cos(elevation) * math.cos(azimuth), math.sin(elevation)])
    along = float(toward @ point)
    place = point + toward * (math.sqrt(along**2 - point @ point + RADIUS_M[system]**2) - along)
    return place, -(2 * (place - point) - (rover - point)) / (np.linalg.norm(place - point) + np.linalg.norm(place - rover))


def tenths(place: np.ndarray) -> str:
    return " ".join(str(round(x * 10_000)) for x in place)
