"""Places: round trips, PROJ as a second opinion, known points."""
import math

import numpy as np
import pytest
from seeded import seeded

from baseline_survey import geodesy
from baseline_survey.errors import SurveyError

BASE = (-3978242.4348, 3382841.1715, 3649902.7667)


def somewhere(dice):
    """A latitude, a longitude and a height; poles and the date line too."""
    return (dice.choice((dice.uniform(-math.pi / 2, math.pi / 2), math.pi / 2, -math.pi / 2, 0.0)),
            dice.choice((dice.uniform(-math.pi, math.pi), math.pi, -math.pi, 0.0)), dice.uniform(-10_000, 20_000))


@seeded(200)
def test_round_trip(dice):
    lat, lon, height = somewhere(dice)
    xyz = geodesy.cartesian(lat, lon, height)
    back = geodesy.geodetic(xyz)
    assert np.linalg.norm(geodesy.cartesian(*back) - xyz) < 1e-8
    assert abs(back[2] - height) < 1e-8 and abs(back[0] - lat) < 1e-14


@seeded(50)
def test_as_proj_has_it(dice):
    from pyproj import Transformer
    lat, lon, height = somewhere(dice)
    ours = geodesy.cartesian(lat, lon, height)
    theirs = Transformer.from_crs("EPSG:4979", "EPSG:4978").transform(math.degrees(lat), math.degrees(lon), height)
    assert np.abs(ours - np.array(theirs)).max() < 1e-6


@seeded(200)
def test_axes_are_a_rotation(dice):
    lat, lon, _ = somewhere(dice)
    axes = geodesy.local_axes(lat, lon)
    assert np.abs(axes @ axes.T - np.eye(3)).max() < 1e-12 and abs(np.linalg.det(axes) - 1) < 1e-12
    up = geodesy.cartesian(lat, lon, 1.0) - geodesy.cartesian(lat, lon, 0.0)
    assert np.abs(axes @ up - (0, 0, 1)).max() < 1e-8


def test_known_places():
    lat, lon, height = geodesy.geodetic(BASE)
    # cct of PROJ 9.1: 139.6243021302 35.1320661405 75.8027
    assert math.degrees(lon) == pytest.approx(139.6243021302, abs=1e-10) and math.degrees(lat) == pytest.approx(35.1320661405, abs=1e-10)
    assert height == pytest.approx(75.8027, abs=1e-4)
    # cct +proj=topocentric at the base: -953.3378 3196.2442 -6.4003
    assert geodesy.to_local((2022.7753, -468.6315, 2610.2942), BASE) == pytest.approx((-953.3378, 3196.2442, -6.4003), abs=1e-4)
    assert geodesy.geodetic((0, 0, 6356752.3142)) == pytest.approx((math.pi / 2, 0, 0), abs=1e-4)


@pytest.mark.parametrize("enu, azimuth, zenith", [((0, 1, 0), 0, 90), ((1, 0, 0), 90, 90), ((0, -1, 0), 180, 90), ((-1, 0, 0), 270, 90),
                                                  ((0, 0, 2), 0, 0), ((0, 1, -1), 0, 135)])
def test_azimuth_and_zenith(enu, azimuth, zenith):
    found = geodesy.azimuth_zenith(enu)
    assert np.degrees(found[:2]) == pytest.approx((azimuth, zenith)) and found[2] == pytest.approx(np.linalg.norm(enu))


def test_covariance_turns_with_the_axes():
    covariance = np.diag([4.0, 9.0, 1.0])
    turned = geodesy.rotated(covariance, geodesy.axes_at(BASE))
    assert np.trace(turned) == pytest.approx(14) and np.linalg.eigvalsh(turned) == pytest.approx([1, 4, 9])


def test_an_antenna_offset():
    up = geodesy.delta_xyz((1.5, 0, 0), BASE)
    assert geodesy.geodetic(np.array(BASE) + up)[2] == pytest.approx(geodesy.geodetic(BASE)[2] + 1.5)
    assert geodesy.to_local(geodesy.delta_xyz((0, 0.3, -0.2), BASE), BASE) == pytest.approx((0.3, -0.2, 0))


def test_places_off_the_earth():
    for place in ((0, 0, 0), (7e6, 0, 0), (math.nan, 0, 0)):
        with pytest.raises(SurveyError, match="the base isn't on the Earth"):
            geodesy.checked_place(place, "the base")
