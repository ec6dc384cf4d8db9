"""What stands out in a certificate."""
import subprocess

import numpy as np
import pytest
from made import made

from baseline_survey.certificate import read, read_fixed
from baseline_survey.errors import SurveyError
from baseline_survey.quality import Limits, phase_residuals, quality


def test_the_example_looks_good(examples):
    found = quality(read_fixed(examples / "g2_quarter.cert"))
    assert not found.looks and found.ratio_asked == 2 and found.ratio_reached == pytest.approx(13.61, abs=0.01)
    assert (len(found.satellites), found.satellites_least, found.pairs) == (7, 7, 30)
    assert found.rms_m == pytest.approx(0.0044, abs=1e-4) and found.greatest_m == pytest.approx(0.0178, abs=1e-4)
    assert (found.greatest_satellite, found.greatest_signal) == ("G19", "L2")
    assert found.second.verdict == "certified" and found.second.notes == () and found.second.greatest_bound_mm == 0.03


def test_residuals_are_the_programs(program, examples):
    """To the micrometre that `residuals` prints, of a survey and of its tail `unseparated`."""
    name = str(examples / "g2_quarter.cert")
    printed = subprocess.run([program, "residuals", name], capture_output=True, text=True, check=True).stdout
    ours = phase_residuals(read(name))[2]
    theirs = np.array([[int(word) for word in line.split()[2:4]] for line in printed.splitlines()])
    assert np.abs(1e6 * ours - theirs).max() < 0.6


def test_by_the_definition(examples):
    """By FORMATS in whole numbers: nearest((n S - sum S) 2997924580 / (n 178100600832)) micrometres."""
    cert = read_fixed(examples / "g2_quarter.cert")
    ours = iter(phase_residuals(cert)[2])
    for pair in cert.pairs[:5]:
        sums = []
        for row in pair.rows:
            dot = sum(a * b for a, b in zip(row.direction, cert.tail.moves[0]))
            sums.append([(row.observed[k] * 2**16 - dot) // 2**16 - wavelength * 2**13 * cert.cycles(row.arc)[k] for k,
                         wavelength in enumerate((1380, 1771))])
        n = len(sums)
        for s in sums:
            want = [(n * s[k] - sum(it[k] for it in sums)) * 2997924580 / (n * 178100600832) for k in (0, 1)]
            assert 1e6 * next(ours) == pytest.approx(want, abs=0.05)


@pytest.mark.parametrize("words, limits, flag", [
    (dict(ratio_reached=4.9), Limits(), "ratio reached 4.9 is below 5"), (dict(ratio_reached=4.9), Limits(ratio=4), None),
    (dict(satellites=5), Limits(), "fewer than 6 satellites in 20 of 20 pairs"), (dict(satellites=5), Limits(satellites=5), None),
    (dict(phase=lambda band, k, number: 0.03 * (number == 3 and k == 1 and band == 2)), Limits(),
     "phase L2 of G02 is 25.7 mm off at 00:01:30, over 20 mm"),
    (dict(phase=lambda band, k, number: 0.03 * (number == 3 and k == 1)), Limits(phase_m=0.03), None)])
def test_flags(words, limits, flag):
    found = quality(read_fixed(made((500.0, 200.0, 100.0), **words).text), limits)
    # the second checker says of each made text that its numbers aren't those of its rows
    assert [it for it in found.flags if "second checker" not in it] == ([flag] if flag else []) and found.looks


def test_what_the_second_checker_says_stands_out(examples):
    """Forged rows, an integer that nobody can know, a time that doesn't grow: each looks, the example doesn't."""
    good = (examples / "g2_quarter.cert").read_bytes()
    late = quality(read_fixed(good.replace(b"pair 1 7964352300000000", b"pair 1 7964352000000000")))
    assert late.looks and late.flags == ("note of the second checker: pair 1 isn't later than the pair before it",)
    forged = quality(read_fixed(good.replace(b"move -2233", b"move -2333")))
    assert forged.looks and "the second checker says: not certified tail" in forged.flags and forged.second.greatest_bound_mm is None
    lines = made(satellites=6, pairs=3).text.decode().split("\n")
    at = next(k for k, line in enumerate(lines) if line.startswith("arc 2"))
    lines[at] = lines[at].replace("free", "datum")
    lines = [" ".join(line.split()[:1] + line.split()[3:]) if line.startswith(("z1", "z2")) else line for line in lines]
    assert any("note of the second checker: arc 1 is called datum" in flag for flag in quality(read_fixed("\n".join(lines).encode())).flags)


def test_a_decline_has_no_quality():
    with pytest.raises(SurveyError, match="no fix: declined unseparated"):
        quality(read(made(verdict="declined unseparated").text))
    for words in (dict(ratio=0), dict(phase_m=-1), dict(satellites=0), dict(ratio=float("nan"))):
        with pytest.raises(SurveyError):
            Limits(**words)
