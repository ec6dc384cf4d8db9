"""Systems of the header's own frame: PROJ's conversions, and what takes more is refused by name."""
import numpy as np
import pytest

from baseline_survey.errors import SurveyError
from baseline_survey.frames import projected

BASE = (-3978242.4348, 3382841.1715, 3649902.7667)


def test_a_projected_system():
    found = projected([BASE], "EPSG:32654")
    assert found.frame == "WGS 84 / UTM zone 54N"
    assert found.axes == ("Easting", "Northing", "Ellipsoidal height") and found.units == ("metre",) * 3
    assert found.coordinates[0] == pytest.approx((374663.2224, 3888554.8526, 75.8027), abs=1e-3)
    # the same place in another frame's system of the same projection has the same numbers: no frame is left for another
    assert projected([BASE], "EPSG:6691").coordinates[0] == pytest.approx(found.coordinates[0], abs=1e-3)


def test_other_kinds_of_the_same_frame():
    assert projected([BASE], "EPSG:4326").coordinates[0] == pytest.approx((35.1320661405, 139.6243021302, 75.8027), abs=1e-4)
    assert projected([BASE], "EPSG:7789").coordinates[0] == pytest.approx(BASE)
    # the axes in the system's own order: northing first
    assert projected([BASE], "EPSG:6677").axes[:2] == ("Northing", "Easting")


@pytest.mark.parametrize("crs, part", [
    ("EPSG:1", "EPSG:1"), ("nonsense", "nonsense"), ("", "system"), ("+proj=none", "none"), ("EPSG:4326 ; rm -rf", "rm -rf"),
    ("EPSG:6697", "JGD2011 .vertical. height has heights over the sea, which need the grid"),
    ("EPSG:5773", "EGM96 height has heights over the sea"),
    ("EPSG:31467", "DHDN .* is of another frame .ellipsoid Bessel 1841"), ("EPSG:27700", "OSGB36 .* is of another frame"),
    ("EPSG:25832", "ETRS89 / UTM zone 32N is for Europe"), ("+proj=utm +zone=54 +towgs84=1,2,3 +ellps=GRS80", "isn't a plain system")])
def test_what_takes_more_is_refused_by_name(crs, part):
    with pytest.raises(SurveyError, match=part) as found:
        projected([BASE], crs)
    assert "\n" not in str(found.value)


def test_a_neighbouring_zone_is_in_use():
    assert np.all(np.isfinite(projected([BASE], "EPSG:32653").coordinates[0]))
    with pytest.raises(SurveyError, match="is for"):
        projected([BASE], "EPSG:32633")
