"""Sessions whose truth is known, from the satellites of examples/geonet.nav: what bench/atmosphere and its neighbours observe.

A phase has 3 mm of noise and a code 0.3 m, at the zenith, more by 1/sqrt(sin elevation).

The troposphere has Niell's mapping functions (1996) at 35 degrees north in April, a dry zenith delay by Saastamoinen, and a wet
one. Of each session are drawn: the pressure at height 0 (1013.25 hPa, 15 more or less), the wet zenith delay there (50 to
250 mm) and the height in which it falls to 1/e (1.5 to 3 km). The rover's wet delay differs by 0.15 mm (one sigma) for each km. So
it isn't the standard atmosphere of the programs that are measured.

The ionosphere is a thin shell at 350 km with `tecu` electrons at the zenith of the base, 20 where nothing is said, a gradient of a
twentieth of them over 100 km, and waves of 1.5 per cent on it.
"""
import math
import os
import random

ROOT = os.path.dirname(os.path.dirname(os.path.abspath(__file__)))
NAV = os.path.join(ROOT, "examples", "geonet.nav")
BASE = (-3978242.4348, 3382841.1715, 3649902.7667)
LIGHT, MU, TURN, RELATIVITY = 299792458.0, 3.986005e14, 7.2921151467e-5, -4.442807633e-10
L1, L2, L5 = 1575.42e6, 1227.60e6, 1176.45e6
# The frequencies of a set of bands, and the types of observations in its header.
BANDS = {"12": ((L1, L2), "G    4 C1C L1C C2W L2W"), "125": ((L1, L2, L5), "G    6 C1C L1C C2W L2W C5Q L5Q")}
AXIS, FLAT = 6378137.0, 1 / 298.257223563
SQUARED = FLAT * (2 - FLAT)
SHELL = 6371 / (6371 + 350)
START = 518400.0  # second of the week: 2005-04-02 00:00:00
LOWEST = math.radians(8)
# Niell's coefficients at 35.132 degrees north on April 2, between the rows of 30 and 45 degrees of his tables 3 and 4: of the dry air
# with its height's part, of the vapour.
DRY, DRY_HEIGHT, WET = (1.25298e-3, 2.90884e-3, 63.1064e-3), (2.53e-5, 5.49e-3, 1.14e-3), (5.7248e-4, 1.49450e-3, 4.57645e-2)


def mapped(sine, coefficients):
    """How many zenith delays the delay at an elevation is: the continued fraction, 1 at the zenith."""
    a, b, c = coefficients
    return (1 + a / (1 + b / (1 + c))) / (sine + a / (sine + b / (sine + c)))


def dry_zenith(pressure, lat, height):
    """The dry zenith delay in metres at a height, by the pressure in hPa at the height 0."""
    there = pressure * (1 - 2.25577e-5 * height)**5.25588
    return 0.0022768 * there / (1 - 0.00266 * math.cos(2 * lat) - 2.8e-7 * height)


def records_of(name):
    """The records of a navigation file: the satellite's number, with the numbers of its lines in their order."""
    with open(name, encoding="ascii") as file:
        lines = file.read().split("\n")
    records, at = [], next(k for k, line in enumerate(lines) if "END OF HEADER" in line) + 1
    for first in range(at, len(lines) - 7, 8):
        fields = [lines[first + k].ljust(80)[c:c + 19] for k in range(8) for c in ((23, 42, 61) if k == 0 else (4, 23, 42, 61))]
        records.append((int(lines[first][1:3]), [float(it.replace("D", "E")) if it.strip() else 0.0 for it in fields]))
    return records


def place_at(v, t):
    """A satellite's place in metres and its clock in seconds, by its record."""
    crs, dn, m0, cuc, e, cus, root, toe, cic, node0, cis, i0, crc, w, node_rate, idot = v[4:20]
    tk = t - toe
    m = m0 + (math.sqrt(MU) / root**3 + dn) * tk
    anomaly = m
    for _ in range(10):
        anomaly = m + e * math.sin(anomaly)
    p = math.atan2(math.sqrt(1 - e * e) * math.sin(anomaly), math.cos(anomaly) - e) + w
    s, c = math.sin(2 * p), math.cos(2 * p)
    u, r = p + cus * s + cuc * c, root * root * (1 - e * math.cos(anomaly)) + crs * s + crc * c
    i, node = i0 + idot * tk + cis * s + cic * c, node0 + (node_rate - TURN) * tk - TURN * toe
    x, y = r * math.cos(u), r * math.sin(u)
    place = (x * math.cos(node) - y * math.cos(i) * math.sin(node), x * math.sin(node) + y * math.cos(i) * math.cos(node), y * math.sin(i))
    return place, v[0] + v[1] * tk + v[2] * tk * tk + RELATIVITY * e * root * math.sin(anomaly)


def geodetic(p):
    x, y, z = p
    r, lat, height = math.hypot(x, y), math.atan2(z, math.hypot(x, y)), 0.0
    for _ in range(10):
        normal = AXIS / math.sqrt(1 - SQUARED * math.sin(lat)**2)
        height = r / math.cos(lat) - normal
        lat = math.atan2(z, r * (1 - SQUARED * normal / (normal + height)))
    return lat, math.atan2(y, x), height


def cartesian(lat, lon, height):
    normal = AXIS / math.sqrt(1 - SQUARED * math.sin(lat)**2)
    return ((normal + height) * math.cos(lat) * math.cos(lon), (normal + height) * math.cos(lat) * math.sin(lon),
            (normal * (1 - SQUARED) + height) * math.sin(lat))


def clock_of(seconds):
    """Hour, minute and second of the day."""
    return seconds // 3600, seconds % 3600 // 60, seconds % 60


def hour_of(seed, seconds):
    """Another hour of the day, and so another sky, for each seed; a session of this many seconds ends within the day."""
    return min(7 * seed % 24, 24 - math.ceil(seconds / 3600))


class Receiver:
    """A receiver at a place, its clock in seconds, and the air over it: the zenith delay at the height 0 in metres, the pressure there
    in hPa, and the height in metres in which the wet part of the delay falls to 1/e."""

    def __init__(self, place, zenith, clock, pressure=1013.25, scale=2000.0):
        self.place, self.clock = place, clock
        self.lat, self.lon, self.height = geodetic(place)
        self.dry = dry_zenith(pressure, self.lat, self.height)
        self.wet = (zenith - dry_zenith(pressure, self.lat, 0.0)) * math.exp(-self.height / scale)

    def sight(self, record, t):
        """Range, satellite's clock, elevation and azimuth at a true time."""
        travel = 0.075
        for _ in range(4):
            (x, y, z), clock = place_at(record, t - travel)
            a = TURN * travel
            seen = (x * math.cos(a) + y * math.sin(a), y * math.cos(a) - x * math.sin(a), z)
            dx, dy, dz = (s - p for s, p in zip(seen, self.place))
            travel = math.sqrt(dx * dx + dy * dy + dz * dz) / LIGHT
        east, north, up = self.local((dx, dy, dz))
        return travel * LIGHT, clock, math.asin(up / (travel * LIGHT)), math.atan2(east, north)

    def local(self, vector):
        """East, north and up here."""
        x, y, z = vector
        along = math.cos(self.lon) * x + math.sin(self.lon) * y
        return (math.cos(self.lon) * y - math.sin(self.lon) * x, math.cos(self.lat) * z - math.sin(self.lat) * along,
                math.cos(self.lat) * along + math.sin(self.lat) * z)

    def troposphere(self, elevation):
        """The delay in metres at an elevation."""
        sine = math.sin(elevation)
        dry = mapped(sine, DRY) + (1 / sine - mapped(sine, DRY_HEIGHT)) * self.height / 1000
        return self.dry * dry + self.wet * mapped(sine, WET)

    def electrons(self, elevation, azimuth, origin, tecu):
        """40.3 times the electrons on the way, where it passes the shell."""
        psi = math.pi / 2 - elevation - math.asin(SHELL * math.cos(elevation))
        lat = math.asin(math.sin(self.lat) * math.cos(psi) + math.cos(self.lat) * math.sin(psi) * math.cos(azimuth))
        lon = self.lon + math.asin(math.sin(psi) * math.sin(azimuth) / math.cos(lat))
        along = 6371 * ((lat - origin.lat) * 0.8 + (lon - origin.lon) * math.cos(origin.lat) * 0.6)
        here = tecu * (1 + along / 2000 + 0.015 * math.sin(along / 60))
        return 40.3e16 * here / math.sqrt(1 - (SHELL * math.cos(elevation))**2)


class Session:
    """Both receivers and the files of their session, which begins at an hour of the day; `off` is how far the headers are from the
    truth, in metres."""

    tecu, bands = 20.0, "12"

    def __init__(self, km, height, epochs, step, seed, off=0.0, tecu=tecu, bands=bands, hour=0):
        self.random, self.tecu = random.Random(seed), tecu
        (lat, lon, h), bearing, arc = geodetic(BASE), self.random.uniform(0, 2 * math.pi), km / 6371
        to = math.asin(math.sin(lat) * math.cos(arc) + math.cos(lat) * math.sin(arc) * math.cos(bearing))
        across = math.atan2(math.sin(bearing) * math.sin(arc) * math.cos(lat), math.cos(arc) - math.sin(lat) * math.sin(to))
        rover = tuple(round(x, 4) for x in cartesian(to, lon + across, h + height))
        pressure, wet, scale = 1013.25 + self.random.uniform(-15, 15), self.random.uniform(0.050, 0.250), self.random.uniform(1500, 3000)
        zenith = dry_zenith(pressure, lat, 0.0) + wet
        self.base, self.rover = (Receiver(place, zenith + self.random.gauss(0, sigma), self.random.uniform(-1e-4, 1e-4), pressure, scale)
                                 for place, sigma in ((BASE, 0.0), (rover, 0.00015 * km)))
        self.truth = [a - b for a, b in zip(rover, BASE)]
        self.epochs, self.step, self.off, self.bands = epochs, step, off, bands
        # in seconds after midnight
        self.begin = 3600 * hour
        # of each receiver the whole cycles of each satellite on each band
        self.cycles = {self.base: {}, self.rover: {}}

    def usable(self, records, t):
        """The record of each satellite at a time."""
        nearest = {}
        for number, v in records:
            away = abs(v[11] - t)
            if v[24] == 0 and away <= 7200 and away <= nearest.get(number, (7200, None))[0]:
                nearest[number] = (away, v)
        return sorted((number, v) for number, (_, v) in nearest.items())

    def observed(self, receiver, number, record, t):
        """A satellite's line, where it is high enough."""
        distance, clock, elevation, azimuth = receiver.sight(record, t - receiver.clock)
        if elevation < LOWEST:
            return []
        rough = 1 / math.sqrt(math.sin(max(elevation, 0.2)))
        rho = distance + receiver.troposphere(elevation) + LIGHT * (receiver.clock - clock)
        bent = receiver.electrons(elevation, azimuth, self.base, self.tecu)
        frequencies, _ = BANDS[self.bands]
        n = self.cycles[receiver].setdefault(number, tuple(self.random.randint(-10**6, 10**6) for _ in frequencies))
        values = []
        for f, whole in zip(frequencies, n):
            code = rho + bent / f**2 + self.random.gauss(0, 0.3 * rough)
            phase = (rho - bent / f**2 + self.random.gauss(0, 0.003 * rough)) * f / LIGHT + whole
            values += [f"{code:14.3f}  ", f"{phase:14.3f}  "]
        return [f"G{number:02d}" + "".join(values)]

    def header_place(self, receiver):
        """Where the header says that a receiver stands."""
        return [x + self.off / math.sqrt(3) for x in receiver.place]

    def write(self, receiver, name, records):
        """Writes the file of a receiver."""
        _, types = BANDS[self.bands]
        hour, minute, second = clock_of(self.begin)
        lines = [f"{content:<60}{label}" for content, label in (
            ("     3.04           OBSERVATION DATA    G", "RINEX VERSION / TYPE"),
            ("".join(f"{x:14.4f}" for x in self.header_place(receiver)), "APPROX POSITION XYZ"), (types, "SYS / # / OBS TYPES"),
            (f"  2005     4     2{hour:6d}{minute:6d}{second:13.7f}     GPS", "TIME OF FIRST OBS"), ("", "END OF HEADER"))]
        for epoch in range(self.epochs):
            s = self.begin + epoch * self.step
            hour, minute, second = clock_of(s)
            seen = [line for number, v in self.usable(records, START + s) for line in self.observed(receiver, number, v, START + s)]
            lines += [f"> 2005 04 02 {hour:02d} {minute:02d} {second:10.7f}  0{len(seen):3d}", *seen]
        with open(name, "w", encoding="ascii") as file:
            file.writelines(line + "\n" for line in lines)

    def has_right_integers(self, certificate):
        """Whether each free arc's cycles against the datum's are those of the session, on each band of the certificate."""
        lines = [line.split() for line in certificate.splitlines()]
        bands = [self.bands.index(digit) for digit in next(words[1] for words in lines if words[0] == "signals")]
        arcs = [words[1:] for words in lines if words[0] == "arc"]
        z1 = iter(map(int, next(words[1:] for words in lines if words[0] == "z1")))
        sats, told = [int(arc[0]) for arc in arcs], []
        for _, _, _, kind, *shifts in arcs:
            told.append([int(shift) + (next(z1) if kind == "free" else 0) for shift in shifts])
        cycles = [(self.cycles[self.base][sat], self.cycles[self.rover][sat]) for sat in sats]
        true = [[rover[k] - base[k] for k in bands] for base, rover in cycles]
        datum = next(at for at, arc in enumerate(arcs) if arc[3] == "datum")
        return all(here - there == own - other for one, right in zip(told, true)
                   for here, there, own, other in zip(one, told[datum], right, true[datum]))
