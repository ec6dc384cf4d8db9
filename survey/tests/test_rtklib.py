"""Simulated sessions beside RTKLIB, where its `rnx2rtkp` is installed: what it takes off files without an atmosphere.

In its modes of two receivers it takes the dry zenith delay of the standard atmosphere, by Niell's function, off both ends, also with
`pos1-tropopt` off; at an end over 10 km or below -100 m it takes nothing off. With this delay added to the files it finds the truth.
"""
import math
import shutil
import subprocess
from datetime import datetime, timedelta

import numpy as np
import pytest

from baseline_survey import orbits
from baseline_survey.atmosphere import STANDARD, niell_hydrostatic, zenith_hydrostatic
from baseline_survey.geodesy import geodetic

BASE, LIGHT, FREQUENCIES = (6378137.0, 0.0, 0.0), 299_792_458.0, (None, 1575.42e6, None, 1227.60e6)
START = datetime(2024, 1, 1)

pytestmark = pytest.mark.skipif(not shutil.which("rnx2rtkp"), reason="rnx2rtkp isn't installed")


def delayed(lines, navigation, place):
    """The lines of an observation file with RTKLIB's dry delay added, for a receiver at this place."""
    lat, lon, height = geodetic(place)
    zenith = zenith_hydrostatic(STANDARD.at(max(height, 0.0)), lat) if height >= -100 else 0.0
    time = None
    for line in lines:
        if line.startswith(">"):
            hour, minute, second = line[13:15], line[16:18], line[18:29]
            time = START + timedelta(hours=int(hour), minutes=int(minute), seconds=float(second))
        elif time is not None:
            record = navigation.records[line[:3]][0]
            away = orbits.seen(record, np.array([(time - datetime(1980, 1, 6)).total_seconds()]), np.array(place))
            elevation, _ = orbits.elevation_azimuth(away, lat, lon)
            metres = zenith * float(niell_hydrostatic(elevation, lat, max(height, 0.0), time)[0])
            values = [float(line[3 + 16 * k:17 + 16 * k]) + metres * (1 if it is None else it / LIGHT) for k, it in enumerate(FREQUENCIES)]
            line = line[:3] + "".join(f"{it:14.3f}  " for it in values)
        yield line


def theirs(folder, part, navigation):
    """The last line of rnx2rtkp: whether it is fixed, and the vector in m."""
    words = ["rnx2rtkp", "-p", "3", "-f", "2", "-m", "11.5", "-e", "-r", *map(str, BASE)]
    names = [str(folder / f"{it}{part}") for it in ("rover", "base")]
    last = subprocess.run([*words, *names, navigation], capture_output=True, text=True, check=True).stdout.splitlines()[-1].split()
    return last[5] == "1", np.array([float(it) for it in last[2:5]]) - BASE


@pytest.mark.parametrize("seed, height, is_fixed, off", [(3, 117, True, (0.060, 0.090)), (1, -166, False, (8.0, 10.0))])
def test_the_dry_delay(program, tmp_path, seed, height, is_fixed, off):
    """`fix` gives the true vector of a session without air. RTKLIB is 0.6 mm off for each metre of height, and metres where one end
    lies below -100 m."""
    texts = {it: subprocess.run([program, "sim", it, str(seed), "60", "8"], capture_output=True, text=True, check=True).stdout
             for it in ("base", "rover", "nav")}
    for name, text in texts.items():
        (tmp_path / name).write_text(text)
    ran = subprocess.run([program, "fix", *(tmp_path / it for it in ("base", "rover", "nav"))], capture_output=True, text=True, check=True)
    truth = np.array([float(it) for it in ran.stderr.split("baseline ")[1].splitlines()[0].split()])
    places = {"base": np.array(BASE), "rover": BASE + truth}
    assert geodetic(places["rover"])[2] == pytest.approx(height, abs=1)
    found, vector = theirs(tmp_path, "", tmp_path / "nav")
    assert found == is_fixed and off[0] < math.dist(vector, truth) < off[1]
    navigation = orbits.read_navigation(tmp_path / "nav")
    for name, place in places.items():
        (tmp_path / f"{name}2").write_text("\n".join([*delayed(texts[name].splitlines(), navigation, place), ""]))
    found, vector = theirs(tmp_path, "2", tmp_path / "nav")
    assert found and vector == pytest.approx(truth, abs=0.0005)
