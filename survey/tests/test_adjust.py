"""The adjustment finds vectors that are known, and its sums are those of the certificate's model."""
import math
import random
from dataclasses import replace
from datetime import datetime

import numpy as np
import pytest
from made import BASE, MHZ, made
from seeded import seeded

from baseline_survey import atmosphere, geodesy
from baseline_survey.adjust import Settings, adjust, blocks
from baseline_survey.antenna import read_antex
from baseline_survey.certificate import read, read_fixed
from baseline_survey.combination import BY_RULE, COMBINATIONS, Choice, chosen, combinations
from baseline_survey.errors import SurveyError
from baseline_survey.integers import real_integers
from baseline_survey.quality import quality

# without a troposphere and with none that is unknown, each phase with the same influence
PLAIN = Settings(troposphere=False, robust=False, zenith_per_m=0.0)


def sky(toward, place):
    east, north, up = geodesy.axes_at(place) @ (toward / np.linalg.norm(toward))
    return math.asin(up), math.atan2(east, north) % (2 * math.pi)


def troposphere(vector, more_m=0.0):
    """What a phase is longer than its range by the models of the package, with more vapour over the rover."""
    ends = {"base": np.array(BASE), "rover": np.array(BASE) + np.array(vector)}
    # the model takes its season from the first time
    start = datetime(2005, 4, 2)

    def longer(band, which, toward, time):
        lat, _, height = geodesy.geodetic(ends[which])
        elevation = np.array([sky(toward, ends[which])[0]])
        wet = more_m * atmosphere.niell_wet(elevation, lat)[0] if which == "rover" else 0.0
        return float(atmosphere.delay(elevation, lat, height, start)[0]) + wet
    return longer


def ionosphere(toward, place, band, tecu=40.0):
    """Metres that a phase of a band is shorter under a thin shell at 350 km."""
    elevation = sky(toward, place)[0]
    slant = 1 / math.sqrt(1 - (6371 / 6721 * math.cos(elevation))**2)
    return 40.3e16 * tecu * slant / (MHZ[band] * 1e6)**2


KINDS = [((1, 2), "G"), ((1, 5), "G"), ((1, 2, 5), "G"), ((1, 5), "E")]


@seeded(40)
def test_a_known_vector_is_found(dice):
    """Without noise: to a micrometre, whatever integers, clocks and groups there are."""
    (bands, system), combination = dice.choice(KINDS), dice.choice(COMBINATIONS)
    survey = made([dice.uniform(-3000, 3000) for _ in range(3)], bands=bands, system=system, seed=dice.randint(0, 99), pairs=8, step=60.0)
    found = adjust(read_fixed(survey.text), replace(PLAIN, combination=combination))
    assert np.abs(found.vector_m - survey.vector_m).max() < 2e-6
    assert found.sigma0 < 1e-3 and np.abs(found.residuals.residual_m).max() < 1e-6


@pytest.mark.parametrize("vector", [(2022.7, -468.6, 2610.3), (-300.0, 150.0, 900.0)])
def test_the_troposphere_is_taken_off(vector):
    survey = made(vector, longer=troposphere(vector), pairs=12, step=60.0)
    cert = read_fixed(survey.text)
    assert np.abs(adjust(cert).vector_m - survey.vector_m).max() < 2e-5
    assert np.abs(adjust(cert, PLAIN).vector_m - survey.vector_m).max() > 1e-3


def test_the_zenith_delay_is_found():
    vector = (2022.7, -468.6, 2610.3)
    survey = made(vector, longer=troposphere(vector, 0.02), pairs=60, step=60.0, noise_m=0.001)
    cert = read_fixed(survey.text)
    found = adjust(cert, Settings(zenith=True))
    assert found.zenith_m == pytest.approx(0.02, abs=4 * found.zenith_sd_m) and found.zenith_sd_m < 0.002
    assert np.linalg.norm(found.vector_m - survey.vector_m) < 0.003
    without = adjust(cert)
    assert without.zenith_m is None and np.linalg.norm(without.vector_m - survey.vector_m) > 0.02


def test_the_air_between_two_heights_is_an_unknown():
    """12 mm more vapour over a rover 320 m lower than the model has: without the unknown the height is centimetres off, with it the
    errors of made surveys are as large as their standard deviations say."""
    vector, errors, plain = (800.0, -200.0, 500.0), [], []
    for seed in range(12):
        survey = made(vector, longer=troposphere(vector, random.Random(seed).gauss(0, 0.0128)), pairs=20, step=60.0, noise_m=0.003,
                      seed=seed)
        cert = read_fixed(survey.text)
        found, without = adjust(cert, Settings(sigma_b_m=0.0)), adjust(cert, Settings(sigma_b_m=0.0, zenith_per_m=0.0))
        assert found.zenith_m is not None and without.zenith_m is None
        errors.append(geodesy.to_local(found.vector_m - survey.vector_m, BASE) / found.sd_enu_m)
        plain.append(geodesy.to_local(without.vector_m - survey.vector_m, BASE) / without.sd_enu_m)
    assert 0.5 < np.sqrt(np.mean(np.square(errors), axis=0))[2] < 1.7 < 4 < np.sqrt(np.mean(np.square(plain), axis=0))[2]
    level = made((500.0, 0.0, 545.0), pairs=10)
    assert adjust(read_fixed(level.text)).zenith_m is None


def test_real_integers_find_the_wrong_one():
    """Integers of a made survey are changed by a cycle: this arc alone is told, with the cycle, in each band or combined."""
    survey = made((500.0, 100.0, 300.0), pairs=12, noise_m=0.003, bands=(1, 2, 5))
    lines = survey.text.decode().split("\n")
    at = next(k for k, line in enumerate(lines) if line.startswith("z1 "))
    for combination, bands, off in (("both", (1,), -1.0), ("narrow", (0, 1, 2), -1.0), ("ionosphere-free", (0, 1, 2), -1.0)):
        words = lines[at].split()
        for band in bands:
            words[1 + 3 * 3 + band] = str(int(words[1 + 3 * 3 + band]) + 1)
        cert = read_fixed("\n".join([*lines[:at], " ".join(words), *lines[at + 1:]]).encode())
        found = real_integers(cert, replace(PLAIN, robust=True, combination=combination))
        assert len(found) == 7 * (3 if combination == "both" else 1)
        assert [(it.arc, round(it.off, 1)) for it in found if it.is_far] == [(4, off)], (combination, list(map(str, found)))
    assert not any(it.is_far for it in real_integers(read_fixed(survey.text), PLAIN))


def test_the_rule():
    """Short lines and short times take both, long ones the combination without ionosphere; a word that is asked for counts."""
    for length, seconds, taken in ((500, 870, "both"), (3300, 870, "ionosphere-free"), (3300, 60, "both"), (3300, 0, "both"),
                                   (900, 3570, "both"), (20_000, 300, "ionosphere-free")):
        choice = chosen(BY_RULE, length, seconds)
        assert choice.combination == taken and choice.why.startswith("by the rule: ")
    assert chosen("narrow", 1e5, 1e5) == Choice("narrow", "as asked")
    with pytest.raises(SurveyError):
        chosen("wide", 1, 1)


def test_the_ionosphere_free_combination_is():
    vector = (12_000.0, 8_000.0, 9_000.0)
    ends = {"base": np.array(BASE), "rover": np.array(BASE) + np.array(vector)}
    survey = made(vector, longer=lambda band, which, toward, time: -ionosphere(toward, ends[which], band), pairs=10, step=60.0)
    found = {it: adjust(read_fixed(survey.text), replace(PLAIN, combination=it)) for it in COMBINATIONS}
    errors = {name: np.linalg.norm(it.vector_m - survey.vector_m) for name, it in found.items()}
    assert errors["ionosphere-free"] < 1e-5 < 5e-3 < min(errors["both"], errors["narrow"])


@pytest.mark.parametrize("bands", [(1, 2), (1, 5), (1, 2, 5)])
def test_factors(bands):
    f = np.array([MHZ[band] for band in bands])
    names, factors = combinations(bands, "ionosphere-free")
    assert factors.sum() == pytest.approx(1) and (factors / f**2).sum() == pytest.approx(0, abs=1e-12)
    if len(bands) == 2:
        assert factors[0, 0] == pytest.approx(f[0]**2 / (f[0]**2 - f[1]**2)) and names == ("IF" + "".join(map(str, bands)),)
    narrow = combinations(bands, "narrow")[1]
    assert narrow.sum() == pytest.approx(1) and (narrow**2).sum() < 1
    assert (combinations(bands, "both")[1] == np.eye(len(bands))).all()
    assert math.sqrt((combinations((1, 2), "ionosphere-free")[1]**2).sum()) == pytest.approx(2.978, abs=1e-3)


def test_equal_weights_without_troposphere_give_the_programs_vector(examples):
    """The program weighs all phases alike and has codes of a hundredth of the weight in length; so both vectors agree to
    what the codes are worth, and to the fixed convention of signs, clocks and integers."""
    cert = read_fixed(examples / "g2_quarter.cert")
    found = adjust(cert, Settings(0.003, 0.0, troposphere=False, robust=False))
    assert np.abs(found.moved_enu_m).max() < 2e-4
    assert adjust(cert, Settings(robust=False)).moved_enu_m == pytest.approx((0.0012, -0.0063, -0.0017), abs=2e-4)


@pytest.mark.parametrize("options", [[], ["--bands", "15"], ["--bands", "125"], ["--system", "E"]])
def test_simulated_surveys_of_the_program(program, tmp_path, options):
    """They have no atmosphere and next to no noise: the adjustment stays on the vector of `fix` to 0.1 mm, with every combination."""
    import subprocess
    sizes = ["7", "30", "9"]
    for part in ("base", "rover", "nav"):
        with open(tmp_path / part, "wb") as file:
            subprocess.run([program, "sim", part, *sizes, *options], stdout=file, check=True)
    text = subprocess.run([program, "fix", "base", "rover", "nav", *options], cwd=tmp_path, capture_output=True, check=True).stdout
    cert = read_fixed(text)
    for combination in COMBINATIONS:
        found = adjust(cert, replace(PLAIN, combination=combination))
        assert np.abs(found.moved_enu_m).max() < 5e-4 and found.sigma0 < 0.3


def test_common_terms_are_double_differences():
    """Weighted least squares with a common term in each pair and signal is that of the double differences with their full
    covariance: by brute force."""
    vector = (800.0, -200.0, 500.0)
    survey = made(vector, pairs=6, step=120.0, noise_m=0.003, seed=5)
    cert, chosen = read_fixed(survey.text), PLAIN
    found = adjust(cert, chosen)
    normal, right, total, redundancy = np.zeros((3, 3)), np.zeros(3), 0.0, -3
    rest = []
    for pair in cert.pairs:
        u = np.array([row.direction for row in pair.rows]) / 2**24
        inside = found.residuals.pair == pair.number
        elevation = found.residuals.elevation[inside][::2]
        for column, wavelength in ((0, 1380), (1, 1771)):
            y = np.array([row.observed[column] / 2**13 - cert.cycles(row.arc)[column] * wavelength for row in pair.rows])
            y *= 299_792_458 / 2_174_079_600_000
            n = len(y)
            differences = np.hstack([-np.ones((n - 1, 1)), np.eye(n - 1)])
            variance = np.diag(found.residuals.sigma_m[inside][column::2]**2)
            weight = np.linalg.inv(differences @ variance @ differences.T)
            a, b = differences @ u, differences @ y
            normal, right, redundancy = normal + a.T @ weight @ a, right + a.T @ weight @ b, redundancy + n - 1
            rest.append((a, b, weight))
            assert len(elevation) == n
    moved = np.linalg.solve(normal, right)
    total = sum((b - a @ moved) @ weight @ (b - a @ moved) for a, b, weight in rest)
    assert np.array(cert.point_m) - np.array(cert.base_m) + moved == pytest.approx(found.vector_m, abs=1e-9)
    assert found.redundancy == redundancy and found.sigma0 == pytest.approx(math.sqrt(total / redundancy), rel=1e-6)
    assert found.covariance_m2 == pytest.approx(np.linalg.inv(normal) * total / redundancy, rel=1e-6)


@seeded(100)
def test_the_certificates_sum(dice):
    """(n sum s^2 - (sum s)^2) / n is the sum of squares less the mean."""
    s = np.array([dice.uniform(-10, 10) for _ in range(dice.randint(2, 15))])
    assert (len(s) * (s**2).sum() - s.sum()**2) / len(s) == pytest.approx(((s - s.mean())**2).sum(), abs=1e-8)


def test_weights_by_elevation_lessen_low_satellites():
    """A low satellite that is 30 mm off moves the vector less than with equal weights."""
    survey = made((500.0, 100.0, 300.0), pairs=5, phase=lambda band, k, number: 0.03 if k == 6 else 0.0)
    cert = read_fixed(survey.text)
    found = [adjust(cert, Settings(0.003, b, troposphere=False, robust=False, zenith_per_m=0.0)) for b in (0.0, 0.003, 0.006)]
    off = [np.linalg.norm(it.vector_m - survey.vector_m) for it in found]
    assert off[0] > off[1] > off[2] > 0


def test_outliers_are_left_out():
    """A low satellite that is 40 mm off in 12 of 30 pairs, as a reflection does it: the plain adjustment is centimetres off."""
    survey = made((2000.0, -400.0, 2600.0), pairs=30, noise_m=0.003, seed=4,
                  phase=lambda band, k, number: 0.04 if k == 6 and number < 12 else 0.0)
    cert = read_fixed(survey.text)
    robust, plain = adjust(cert, replace(PLAIN, robust=True)), adjust(cert, PLAIN)
    assert np.linalg.norm(plain.vector_m - survey.vector_m) > 0.005 > 0.002 > np.linalg.norm(robust.vector_m - survey.vector_m)
    out = {it.satellite: it.left_out for it in robust.statistics if it.left_out}
    assert set(out) == {"G07"} and robust.left_out >= 20 and plain.left_out == 0
    assert (plain.residuals.factor == 1).all() and robust.redundancy == 30 * 6 * 2 - 3 - robust.left_out
    worst = max((it for it in robust.statistics), key=lambda it: it.greatest_m)
    assert worst.satellite == "G07" and worst.greatest_m > 0.03


def test_robust_weights_cost_little():
    """Where the noise is white the robust vector is nearly as good as the plain one, and leaves almost nothing out."""
    errors, out = {True: [], False: []}, 0
    for seed in range(40):
        survey = made((800.0, -200.0, 500.0), pairs=20, noise_m=0.004, seed=seed)
        for robust, kept in errors.items():
            found = adjust(read_fixed(survey.text), Settings(0.003, 0.0, troposphere=False, robust=robust, zenith_per_m=0.0))
            kept.append(found.vector_m - survey.vector_m)
            out += found.left_out
    assert np.std(errors[True]) < 1.1 * np.std(errors[False]) and out < 5


@pytest.mark.parametrize("robust", [False, True])
def test_the_covariance_is_honest_where_the_noise_is_white(robust):
    """The scatter of 60 made surveys against the formal covariance, and against the blocks."""
    errors, formal, parts, chosen = [], [], [], Settings(0.003, 0.0, troposphere=False, robust=robust, zenith_per_m=0.0)
    for seed in range(60):
        survey = made((800.0, -200.0, 500.0), pairs=20, noise_m=0.004, seed=seed)
        cert = read_fixed(survey.text)
        found = adjust(cert, chosen)
        errors.append(geodesy.to_local(found.vector_m - survey.vector_m, BASE))
        formal.append(found.sd_enu_m)
        parts.append(blocks(cert, chosen, 2).sd_enu_m)
    scatter = np.std(errors, axis=0)
    assert np.mean(formal, axis=0) == pytest.approx(scatter, rel=0.3) and np.mean(parts, axis=0) == pytest.approx(scatter, rel=0.35)


def test_blocks_see_what_drifts():
    """An error that stays for minutes: the formal covariance doesn't see it, the blocks do."""
    survey = made((800.0, -200.0, 500.0), pairs=40, noise_m=0.001, seed=3, phase=lambda band, k, number: 0.006 * math.sin(number / 4 + k))
    cert = read_fixed(survey.text)
    assert (blocks(cert, PLAIN, 10).scatter_enu_m > 2 * adjust(cert, PLAIN).sd_enu_m).any()
    assert (blocks(cert, PLAIN, 10).used, blocks(cert, PLAIN, 15).used, blocks(cert, PLAIN, 12).used) == (4, 3, 3)
    for count in (20, 40, 1000):
        with pytest.raises(SurveyError, match="needs three"):
            blocks(cert, PLAIN, count)


def test_phase_centres(examples):
    """A rover's antenna whose centres are 0.1 m up: the corrected vector leads to its reference point, 0.1 m lower."""
    from test_antenna import antenna, antex, frequency
    up = [frequency("G01", (0, 0, 100.0), (0, 0, 0)), frequency("G02", (0, 0, 100.0), (0, 0, 0))]
    level = [frequency("G01", (0, 0, 0), (0, 0, 0)), frequency("G02", (0, 0, 0), (0, 0, 0))]
    low, high = read_antex(antex(antenna("LOW", *level), antenna("HIGH", *up)))
    cert = read_fixed(examples / "g2_quarter.cert")
    before = adjust(cert)
    after = adjust(cert, Settings(base_antenna=low, rover_antenna=high))
    assert geodesy.axes_at(before.rover_m) @ (after.vector_m - before.vector_m) == pytest.approx((0, 0, -0.1), abs=1e-5)
    both = adjust(cert, Settings(base_antenna=high, rover_antenna=high))
    assert np.abs(both.vector_m - before.vector_m).max() < 1e-4
    with pytest.raises(SurveyError, match="no frequency"):
        adjust(cert, Settings(base_antenna=low, rover_antenna=read_antex(antex(antenna("ONE", level[0])))[0]))


def test_residuals_and_statistics_agree(examples):
    found = adjust(read_fixed(examples / "g2_quarter.cert"))
    left = found.residuals
    assert len(left.residual_m) == 30 * 7 * 2 == sum(it.n for it in found.statistics)
    assert {it.signal for it in found.statistics} == {"L1", "L2"} and len(found.statistics) == 14
    one = next(it for it in found.statistics if (it.satellite, it.signal) == ("G19", "L2"))
    inside = (left.satellite == "G19") & (left.signal == "L2")
    assert one.greatest_m == pytest.approx(np.abs(left.residual_m[inside]).max()) and one.n == 30
    assert (left.elevation > 0.2).all() and (left.azimuth >= 0).all() and found.redundancy == 30 * 6 * 2 - 3 - found.left_out
    assert found.left_out == (left.factor == 0).sum() == sum(it.left_out for it in found.statistics) == 1
    for number in (0, 29):
        for signal in ("L1", "L2"):
            inside = (left.pair == number) & (left.signal == signal)
            assert (left.factor * left.residual_m / left.sigma_m**2)[inside].sum() == pytest.approx(0, abs=1e-6)
    assert np.linalg.eigvalsh(found.covariance_m2).min() > 0


def test_what_has_no_vector():
    one = made(pairs=1, satellites=4)
    assert adjust(read_fixed(one.text), PLAIN).redundancy == 3
    with pytest.raises(SurveyError, match="determine"):
        adjust(read_fixed(made(pairs=3, satellites=3, sky=[(20, 75), (20, 75), (20, 75)]).text), PLAIN)
    assert adjust(read_fixed(one.text), replace(PLAIN, robust=True)).left_out == 0
    with pytest.raises(SurveyError, match="no vector"):
        adjust(read(made(verdict="declined unseparated").text))
    with pytest.raises(SurveyError, match="Earth|horizon"):
        adjust(read(made().text.replace(b"\nbase -", b"\nbase ")))
    lines = made().text.split(b"\n")
    zeros = b"\n".join(b" ".join(it.split(b" ")[:-6] + [b"0"] * 6) if it.startswith(b"row") else it for it in lines)
    with pytest.raises(SurveyError, match="length 1"):
        adjust(read(zeros))


WILD = ["0", "1", "-1", "16777216", "17179869184", "-17179869184", "1048576", "9223372036854775807", "70000000000", "1073741823",
        "70368744177663"]


@pytest.mark.filterwarnings("error")
def test_wild_numbers_are_adjusted_or_refused():
    """Numbers of a good text are replaced by the ends of their ranges: a result of finite numbers, or one SurveyError."""
    lines, dice, done = made((500.0, 200.0, 100.0), pairs=4, satellites=6, noise_m=0.003).text.decode().split("\n"), random.Random(3), 0
    for _ in range(1500):
        wild = list(lines)
        for _ in range(dice.choice((1, 1, 2, 8))):
            at = dice.randrange(4, len(wild) - 1)
            words = wild[at].split(" ")
            words[dice.randrange(1, len(words)) if len(words) > 1 else 0] = dice.choice(WILD)
            wild[at] = " ".join(words)
        try:
            cert = read_fixed("\n".join(wild).encode())
            found = adjust(cert, dice.choice((Settings(), PLAIN, Settings(combination="ionosphere-free", zenith=True))))
            assert np.isfinite(found.vector_m).all() and np.isfinite(found.covariance_m2).all() and math.isfinite(found.sigma0)
            quality(cert)
            done += 1
        except SurveyError as why:
            assert "\n" not in str(why)
    assert done > 100


@pytest.mark.parametrize("words", [dict(combination="wide"), dict(sigma_a_m=-1), dict(sigma_a_m=math.nan), dict(sigma_a_m=0, sigma_b_m=0),
                                   dict(zenith_sd_m=0)])
def test_impossible_settings(words):
    with pytest.raises(SurveyError):
        Settings(**words)
