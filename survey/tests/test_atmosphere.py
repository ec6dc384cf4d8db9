"""Saastamoinen's delays and Niell's functions by figures of the literature."""
import math
from datetime import datetime, timedelta

import numpy as np
import pytest
from seeded import seeded

from baseline_survey import atmosphere
from baseline_survey.atmosphere import STANDARD, Weather
from baseline_survey.errors import SurveyError

WINTER = datetime(2005, 1, 28)


def test_zenith_of_the_dry_air():
    # Davis et al. 1985, A11: 2.2768 mm for each hPa at 45 degrees and height 0
    assert atmosphere.zenith_hydrostatic(Weather(1000.0), math.radians(45)) == pytest.approx(2.2768, abs=1e-9)
    # Hofmann-Wellenhof et al., GPS: theory and practice, 6.3.3: 1013.25 mbar, 273.16 K, no vapour, at sea level: about 2.3 m
    assert atmosphere.zenith_hydrostatic(Weather(1013.25, 273.16, 0.0), math.radians(45)) == pytest.approx(2.307, abs=5e-4)
    # gravity: at the pole the air weighs more for its pressure (0.00266 of it), at the equator less
    pole, equator = (atmosphere.zenith_hydrostatic(Weather(1000.0), math.radians(lat)) for lat in (90, 0))
    assert pole == pytest.approx(2.2768 / 1.00266, abs=1e-9) and equator == pytest.approx(2.2768 / 0.99734, abs=1e-9)


def test_zenith_of_the_vapour():
    # 0.002277 (1255/T + 0.05) e by hand: T = 288.15 K, e = 8.5744 hPa
    assert atmosphere.zenith_wet(STANDARD) == pytest.approx(0.002277 * (1255 / 288.15 + 0.05) * 8.5744, abs=1e-6)
    assert atmosphere.zenith_wet(Weather(humidity=0.0)) == 0


@pytest.mark.parametrize("celsius, hpa", [(0, 6.11), (10, 12.27), (20, 23.37), (30, 42.43)])
def test_vapour_pressure(celsius, hpa):
    """Saturated air: the tables of the WMO (Guide to instruments, 2008, annex 4.B), to 2 per cent."""
    assert Weather(temperature_k=celsius + 273.15, humidity=1.0).vapour_hpa == pytest.approx(hpa, rel=0.02)


@pytest.mark.parametrize("height, hpa, kelvin", [(1000, 898.75, 281.65), (2000, 794.95, 275.15), (5000, 540.20, 255.65)])
def test_standard_atmosphere(height, hpa, kelvin):
    """ICAO's table (Doc 7488, 1993), by geopotential height."""
    here = STANDARD.at(height)
    assert here.pressure_hpa == pytest.approx(hpa, abs=0.05) and here.temperature_k == pytest.approx(kelvin, abs=0.01)


@seeded(100)
def test_weather_goes_up_and_down(dice):
    a, rise = dice.uniform(600, 4000), dice.uniform(-1500, 1500)
    there = Weather(900.0, 290.0, 0.3, a).at(a + rise).at(a)
    assert there.pressure_hpa == pytest.approx(900) and there.temperature_k == pytest.approx(290) and there.humidity == pytest.approx(0.3)


def test_niell_beside_a_published_value():
    """The test case that the IERS prints with its program GMF (Boehm et al. 2006; day 55055, 38.4 N, 844.715 m, zenith distance
    1.278564131 rad): 3.425245519339138678 and 3.449589116182419257. That function was fitted so as to continue Niell's."""
    elevation, day = np.array([math.pi / 2 - 1.278564131]), datetime(1858, 11, 17) + timedelta(days=55055)
    assert atmosphere.niell_hydrostatic(elevation, 0.6708665767, 844.715, day)[0] == pytest.approx(3.4252455, rel=1e-4)
    assert atmosphere.niell_wet(elevation, 0.6708665767)[0] == pytest.approx(3.4495891, rel=1e-4)


def test_niell_at_5_degrees():
    """Niell 1996, section 4: about 10.15 of the dry air and 10.75 of the vapour at 5 degrees in the middle latitudes."""
    five = np.array([math.radians(5)])
    assert atmosphere.niell_hydrostatic(five, math.radians(45), 0, WINTER)[0] == pytest.approx(10.15, abs=0.03)
    assert atmosphere.niell_wet(five, math.radians(45))[0] == pytest.approx(10.75, abs=0.03)


def test_niell_on_a_row_of_the_table():
    """At 45 degrees, height 0 and a quarter of a year from the extreme the coefficients are those of the table: by hand."""
    a, b, c, s = 1.2465397e-3, 2.9288445e-3, 63.721774e-3, math.sin(math.radians(10))
    by_hand = (1 + a / (1 + b / (1 + c))) / (s + a / (s + b / (s + c)))
    quarter = WINTER + timedelta(days=365.25 / 4)
    assert atmosphere.niell_hydrostatic(np.array([math.radians(10)]), math.radians(45), 0, quarter)[0] == pytest.approx(by_hand, rel=1e-9)


def test_seasons_are_turned_in_the_south():
    low, half = np.array([math.radians(6)]), timedelta(days=365.25 / 2)
    north = atmosphere.niell_hydrostatic(low, math.radians(50), 0, WINTER)
    assert atmosphere.niell_hydrostatic(low, math.radians(-50), 0, WINTER + half)[0] == pytest.approx(north[0], rel=1e-6)
    assert atmosphere.niell_hydrostatic(low, math.radians(-50), 0, WINTER)[0] != pytest.approx(north[0], rel=1e-5)


@seeded(100)
def test_mapping_functions_are_sane(dice):
    elevation, lat, height = dice.uniform(math.radians(3), math.pi / 2), dice.uniform(-math.pi / 2, math.pi / 2), dice.uniform(0, 4000)
    elevations = np.array([elevation, math.pi / 2])
    for found in (atmosphere.niell_hydrostatic(elevations, lat, height, WINTER), atmosphere.niell_wet(elevations, lat)):
        assert found[1] == pytest.approx(1, abs=1e-12) and 0.999 <= found[0] <= 1 / math.sin(elevation) + 1e-12


def test_the_delay_falls_with_the_height():
    level, up = (atmosphere.delay(np.array([math.pi / 2]), 0.6, height, WINTER)[0] for height in (0, 100))
    assert 0.027 < level - up < 0.034


@pytest.mark.parametrize("words",
                         [dict(pressure_hpa=0), dict(pressure_hpa=math.nan), dict(temperature_k=20), dict(humidity=50), dict(height_m=1e5)])
def test_impossible_weather(words):
    with pytest.raises(SurveyError, match="must be"):
        Weather(**words)


@pytest.mark.parametrize("height", [-2000, 9001, 45_000, 120_000])
def test_a_height_without_air(height):
    """A header with a wrong digit stands there: the height is refused, and no root of a negative temperature is taken."""
    with pytest.raises(SurveyError, match="height"):
        STANDARD.at(height)
