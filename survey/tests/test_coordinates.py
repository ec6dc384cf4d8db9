"""Marks, and which files belong to a certificate."""
import math

import numpy as np
import pytest

from baseline_survey import geodesy
from baseline_survey.adjust import adjust
from baseline_survey.certificate import read_fixed
from baseline_survey.coordinates import check_belongs, coordinates
from baseline_survey.errors import SurveyError
from baseline_survey.rinex_header import read_header
from baseline_survey.words.coordinates import sexagesimal


@pytest.fixture
def survey(examples):
    cert = read_fixed(examples / "g2_quarter.cert")
    return cert, (examples / "g2_quarter_base.rnx").read_bytes(), (examples / "g2_quarter_rover.rnx").read_bytes()


def raised(data, height, east=0.0, north=0.0):
    line = f"{height:14.4f}{east:14.4f}{north:14.4f}".ljust(60).encode() + b"ANTENNA: DELTA H/E/N"
    old = next(it for it in data.split(b"\n") if it.endswith(b"ANTENNA: DELTA H/E/N"))
    return data.replace(old, line)


def test_marks_of_the_example(survey):
    cert, base, rover = survey
    found = coordinates(cert, read_header(base), read_header(rover))
    assert found.base.xyz_m == pytest.approx((-3978242.4348, 3382841.1715, 3649902.7667), abs=1e-9)
    assert found.rover.xyz_m - found.base.xyz_m == pytest.approx(adjust(cert).vector_m, abs=1e-9)
    assert found.slope_m == pytest.approx(np.linalg.norm(adjust(cert).vector_m)) and found.base.name == "3040"
    assert math.degrees(found.azimuth) == pytest.approx(343.391823, abs=1e-5)
    assert math.degrees(found.zenith) == pytest.approx(90.109989, abs=1e-4)
    assert found.rise_m == pytest.approx(-5.528, abs=0.002) and found.projected is None


def test_antenna_heights(survey):
    """The base's header is its mark: an antenna 1.5 m over it lifts the rover by 1.5 m, one over the rover lowers its mark."""
    cert, base, rover = survey
    plain = coordinates(cert, read_header(base), read_header(rover))
    high = coordinates(cert, read_header(raised(base, 1.5)), read_header(rover))
    assert high.rover.height_m == pytest.approx(plain.rover.height_m + 1.5, abs=1e-3) and high.base.height_m == plain.base.height_m
    low = coordinates(cert, read_header(base), read_header(raised(rover, 2.0)))
    assert low.rover.height_m == pytest.approx(plain.rover.height_m - 2.0, abs=1e-6)
    both = coordinates(cert, read_header(raised(base, 1.5, 0.1, 0.2)), read_header(raised(rover, 1.5, 0.1, 0.2)))
    assert np.linalg.norm(both.rover.xyz_m - plain.rover.xyz_m) < 2e-3
    aside = coordinates(cert, read_header(base), read_header(raised(rover, 0, 0.3, 0)))
    assert geodesy.axes_at(plain.rover.xyz_m) @ (aside.rover.xyz_m - plain.rover.xyz_m) == pytest.approx((-0.3, 0, 0), abs=1e-6)


def test_what_marks_the_recipe_gave(survey):
    """recipes/marks with an antenna 1.5 m over the rover's mark: 2023.7094 -469.4261 2609.4304, by the program's vector."""
    cert, base, rover = survey
    from baseline_survey.adjust import marks_of
    found = marks_of(np.array(cert.vector_m()), np.array(cert.base_m), read_header(base), read_header(raised(rover, 1.5)))
    assert found.vector_m == pytest.approx((2023.7094, -469.4261, 2609.4304), abs=6e-5)


def test_frames(survey):
    cert, base, rover = survey
    found = coordinates(cert, read_header(base), read_header(rover), crs="EPSG:32654")
    assert found.projected.coordinates[0] == pytest.approx((374663.2224, 3888554.8526, 75.8027), abs=1e-3)
    assert found.projected.frame == "WGS 84 / UTM zone 54N"


@pytest.mark.parametrize("change, reason", [
    (lambda b, r: (r, b), "exchanged"), (lambda b, r: (b.replace(b"-3978242.4348", b"-3978242.4349"), r), "another base"),
    (lambda b, r: (b.replace(b" -3978242.4348  3382841.1715  3649902.7667", b"        0.0000        0.0000        0.0000"), r),
     "no position"),
    (lambda b, r: (b.replace(b"> 2005 04 02", b"> 2006 04 02"), r), "another time"),
    (lambda b, r: (b, r.replace(b"> 2005 04 02", b"> 2005 04 03")), "another time"),
    (lambda b, r: (b, r.replace(b" -3976219.5082", b" -3946219.5082")), "another rover"),
    (lambda b, r: (b, r[:r.index(b"END OF HEADER") + 14]), "no observations")])
def test_files_that_do_not_belong(survey, change, reason):
    cert, base, rover = survey
    base, rover = change(base, rover)
    with pytest.raises(SurveyError, match=reason) as found:
        check_belongs(cert, read_header(base, "B"), read_header(rover, "R"))
    assert "\n" not in str(found.value)


def test_files_that_belong(survey):
    cert, base, rover = survey
    check_belongs(cert, read_header(base), read_header(rover))
    check_belongs(cert, read_header(base),
                  read_header(rover.replace(b" -3976219.5082  3382372.5671  3652512.9849", b"        0.0000        0.0000        0.0000")))


@pytest.mark.parametrize("degrees, text", [(139.6243021302, "139d37m27.48767s"), (-0.5, "-0d30m00.00000s"), (0.0, "0d00m00.00000s"),
                                           (59.99999999999, "60d00m00.00000s")])
def test_sexagesimal(degrees, text):
    assert sexagesimal(math.radians(degrees)) == text
