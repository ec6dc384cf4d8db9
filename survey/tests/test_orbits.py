"""Broadcast orbits against the program's proved boxes, the ionosphere's model, and files that aren't navigation files."""
import functools
import math
import subprocess

import numpy as np
import pytest
from conftest import repository
from seeded import junk, seeded

from baseline_survey import orbits
from baseline_survey.errors import SurveyError

PLACE = np.array([-3978242.4348, 3382841.1715, 3649902.7667])
LATITUDE, LONGITUDE = math.radians(35.132066), math.radians(139.624302)


@functools.lru_cache(maxsize=None)
def example(name):
    """The bytes of a file of examples/, read once for all tests."""
    return (repository() / "examples" / name).read_bytes()


@functools.lru_cache(maxsize=None)
def broadcast():
    return orbits.read_navigation(example("geonet.nav"))


@pytest.fixture
def navigation():
    return broadcast()


@pytest.mark.parametrize("satellite, seconds",
                         [("G07", 796435740), ("G11", 796436000), ("G28", 796470000.5), ("G01", 796450000), ("G24", 796470000.25)])
def test_places_lie_in_the_proved_boxes(examples, program, navigation, satellite, seconds):
    """`orbit` gives boxes in micrometres at a time of the satellite's clock; the user algorithm in floats lies in them to a millimetre (a
    time of 8e8 s has steps of 1e-7 s, in which a satellite moves by half of one)."""
    ran = subprocess.run([program, "orbit", examples / "geonet.nav", satellite, str(round(seconds * 1e7))], capture_output=True, text=True,
                         check=True)
    told = {line.split()[0]: [int(it) for it in line.split()[1:]] for line in ran.stdout.splitlines()}
    times = np.array([seconds - sum(told["clock"]) / 2 * 1e-15])
    record = navigation.records[satellite][navigation.choose(satellite, np.array([float(seconds)]))[0]]
    place = orbits.position(record, times)[0]
    assert place == pytest.approx([sum(told[axis]) / 2e6 for axis in "xyz"], abs=1e-3)


def test_the_seen_place_turns_with_the_earth(navigation):
    """The signal arrives where a straight line of its travel time leads: range and Earth rotation agree."""
    record = navigation.records["G11"][0]
    times = np.array([record.toe + 100.0])
    away = orbits.seen(record, times, PLACE)[0]
    travel = np.linalg.norm(away) / orbits.LIGHT
    there = orbits.position(record, times - travel)[0]
    angle = orbits.TURN * travel
    turned = [there[0] * math.cos(angle) + there[1] * math.sin(angle), there[1] * math.cos(angle) - there[0] * math.sin(angle), there[2]]
    assert away + PLACE == pytest.approx(turned, abs=1e-5) and 0.06 < travel < 0.1


def test_choice(navigation):
    """The nearest toe within two hours; of equally near ones the last."""
    records = navigation.records["G11"]
    toes = np.array([it.toe for it in records])
    times = np.linspace(toes.min() - 8000, toes.max() + 8000, 500)
    for time, k in zip(times, navigation.choose("G11", times)):
        least = np.abs(toes - time).min()
        assert k == -1 if least > 7200 else abs(toes[k] - time) == least and k == max(np.flatnonzero(np.abs(toes - time) == least))
    assert list(navigation.choose("G99", times[:2])) == [-1, -1]


def test_klobuchar_by_night_and_by_day(navigation):
    """By night 5 ns at the zenith, by day more, least at the zenith; greatest at 14 hours local time."""
    model, zenith = navigation.klobuchar, np.array([math.pi / 2])
    day = 25 * 365.25 * 86_400 // 86_400 * 86_400
    hours = np.arange(0, 24, 0.5)
    local = day + hours * 3600 - math.degrees(LONGITUDE) / 15 * 3600
    delay = np.array([orbits.klobuchar_delay(model, LATITUDE, LONGITUDE, zenith, np.zeros(1), np.array([it]))[0] for it in local])
    assert delay.min() == pytest.approx(orbits.LIGHT * 5e-9 * (1 + 16 * 0.03**3), rel=1e-9)
    assert hours[delay.argmax()] == pytest.approx(14, abs=0.5) and 2 < delay.max() < 10
    low = orbits.klobuchar_delay(model, LATITUDE, LONGITUDE, np.radians([10.0]), np.zeros(1), local[:1])
    assert 2 < low[0] / delay[0] < 3.5


def test_galileo_has_its_own_constant(examples):
    text = (examples / "geonet.nav").read_text().replace("\nG01 ", "\nE01 ").replace("G: GPS", "M: MIX")
    both = orbits.read_navigation(text.encode())
    assert "E01" in both.records and orbits.MU["E"] != orbits.MU["G"]


@pytest.mark.parametrize("change, part", [(lambda t: t[:200], "no end of header"), (lambda t: "", "not a RINEX file"),
                                          (lambda t: t.replace("     3.04  ", "     2.10  ", 1), "nav2to3"),
                                          (lambda t: t.replace("N: GNSS NAV DATA", "OBSERVATION DATA"), "not a navigation file"),
                                          (lambda t: t[:-200], "isn't whole"),
                                          (lambda t: t.replace("2.871534990340D+00", "2.87153499034xD+00", 1), "line 8: bad number")])
def test_what_is_no_navigation_file(examples, change, part):
    with pytest.raises(SurveyError, match=part):
        orbits.read_navigation(change((examples / "geonet.nav").read_text()).encode(), "nav")


@seeded(80)
def test_a_broken_file_is_refused_or_read_but_never_a_fault(dice):
    data = example("geonet.nav")
    at, broken = dice.randint(0, len(data)), junk(dice, 6, 1)
    try:
        orbits.read_navigation(data[:at] + broken + data[at + len(broken):])
    except SurveyError:
        pass
