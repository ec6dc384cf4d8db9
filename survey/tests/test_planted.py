"""A satellite that is 50 mm off for six minutes: planted in the example's rover file, it is named, left out, and `quality` says `look`."""
import json
import subprocess

import numpy as np
import pytest
from test_cli import run

LIGHT, L1_HZ, L2_HZ = 299_792_458.0, 1575.42e6, 1227.60e6
WHICH, FROM_S, TO_S, OFF_M = "G19", 240, 600, 0.050


def planted(rover: str) -> str:
    """The rover's file with both phases of one satellite longer by OFF_M, as a reflection makes them, from the minute FROM on."""
    lines, seconds = rover.split("\n"), None
    for at, line in enumerate(lines):
        if line.startswith(">"):
            seconds = 60 * int(line[16:18]) + float(line[18:29])
        elif line.startswith(WHICH) and seconds is not None and FROM_S <= seconds < TO_S:
            for column, hertz in ((19, L1_HZ), (51, L2_HZ)):
                value = float(line[column:column + 14]) + OFF_M * hertz / LIGHT
                line = line[:column] + f"{value:14.3f}" + line[column + 14:]
            lines[at] = line
    return "\n".join(lines)


@pytest.fixture
def survey(examples, program, tmp_path):
    base, rover, nav = examples / "g2_quarter_base.rnx", tmp_path / "rover.rnx", examples / "geonet.nav"
    text = (examples / "g2_quarter_rover.rnx").read_text()
    changed = planted(text)
    assert sum(a != b for a, b in zip(text.split("\n"), changed.split("\n"))) == 12
    rover.write_text(changed)
    ran = subprocess.run([program, "fix", base, rover, nav], capture_output=True, check=True)
    (tmp_path / "v.cert").write_bytes(ran.stdout)
    return tmp_path / "v.cert", base, rover


def test_it_is_named_left_out_and_looked_at(survey, examples):
    good = np.array(json.loads(run("adjust", examples / "g2_quarter.cert", "--combination", "both", "--json").stdout)["vector_m"])
    ran = run("quality", survey[0])
    looks = [line for line in ran.stdout.decode().splitlines() if line.startswith("look: ")]
    assert ran.returncode == 1 and any(f" of {WHICH} is " in line and "over 20 mm" in line for line in looks)
    told = {robust: json.loads(run("adjust", *survey, "--combination", "both", "--json",
                                   *([] if robust else ["--no-robust"])).stdout) for robust in (True, False)}
    out = {it["satellite"]: it["left_out"] for it in told[True]["satellites"] if it["left_out"] > 2}
    assert set(out) == {WHICH} and sum(it["left_out"] for it in told[True]["satellites"] if it["satellite"] == WHICH) >= 22
    off = {robust: 1000 * np.linalg.norm(np.array(it["vector_m"]) - good) for robust, it in told.items()}
    assert off[True] < 2.5 < 5 < off[False], off
