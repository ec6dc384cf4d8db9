"""The command line: statuses, one line an error, nothing written where something is wrong, no escape to a terminal."""
import io
import json
import os
import subprocess
import sys
from pathlib import Path

import pytest
from made import made
from sessions import stand_in

from baseline_survey import cli
from baseline_survey.text import number, table, visible

HERE = Path(__file__).resolve().parent.parent


def run(*words, cwd=None, input=b""):
    """A command line, run in this process: its status and what it wrote."""
    words, before = [os.fspath(word) for word in words], os.getcwd()
    streams = [io.TextIOWrapper(io.BytesIO(data)) for data in (input, b"", b"")]
    kept, (sys.stdin, sys.stdout, sys.stderr) = (sys.stdin, sys.stdout, sys.stderr), streams
    try:
        os.chdir(cwd or before)
        status = cli.main(words)
    except SystemExit as why:
        status = why.code or 0
    finally:
        os.chdir(before)
        sys.stdin, sys.stdout, sys.stderr = kept
    for stream in streams[1:]:
        stream.flush()
    return subprocess.CompletedProcess(words, status, *(stream.buffer.getvalue() for stream in streams[1:]))


def run_alone(*words, cwd=None):
    """The same in a process of its own."""
    env = dict(os.environ, PYTHONPATH=str(HERE), PYTHONDONTWRITEBYTECODE="1")
    return subprocess.run([sys.executable, "-m", "baseline_survey", *map(os.fspath, words)], capture_output=True, cwd=cwd, env=env,
                          timeout=120)


def refused(ran, *parts):
    """Status 2, one line on standard error that has these parts and nothing that steers a terminal, and no output."""
    assert (ran.returncode, ran.stdout) == (2, b""), (ran.returncode, ran.stdout, ran.stderr)
    assert ran.stderr.startswith(b"baseline-survey") and ran.stderr.endswith(b"\n") and ran.stderr.count(b"\n") == 1, ran.stderr
    assert all(byte >= 32 or byte == 10 for byte in ran.stderr)
    for part in parts:
        assert part.encode() in ran.stderr, ran.stderr


@pytest.fixture
def survey(examples):
    return [examples / name for name in ("g2_quarter.cert", "g2_quarter_base.rnx", "g2_quarter_rover.rnx")]


def test_adjust(survey):
    ran = run("adjust", survey[0], "--blocks", "5", "--combination", "both")
    assert ran.returncode == 0 and ran.stderr == b""
    assert ran.stdout.splitlines()[0] == b"vector_m 2022.7726 -468.6305 2610.2883 (antenna to antenna, X Y Z)"
    assert b"\ncombination both (as asked)\n" in ran.stdout and b"\nnote: without BASE and ROVER it isn't known whether" in ran.stdout
    assert b"\nintegers 14 as real numbers, greatest_off 0.02 cycles (L1 of G20)\n" in ran.stdout
    ran = run("adjust", survey[0])
    assert ran.stdout.splitlines()[0] == b"vector_m 2022.7699 -468.6195 2610.2994 (antenna to antenna, X Y Z)"
    assert b"\ncombination ionosphere-free (by the rule: 3.3 km in 14.5 minutes is beyond " in ran.stdout
    data = json.loads(run("adjust", survey[0], "--json", "--blocks", "5", "--combination", "both").stdout)
    assert data["vector_m"] == pytest.approx((2022.7726, -468.6305, 2610.2883), abs=6e-5)
    assert {"vector_m", "covariance_mm2", "enu_m", "covariance_enu_mm2", "sigma0", "satellites", "blocks", "integers", "look"} <= set(data)
    for words in (survey, [survey[0], "--no-troposphere"]):
        assert b"note: without BASE and ROVER" not in run("adjust", *words).stdout
    marks = json.loads(run("adjust", *survey, "--json", "--combination", "both").stdout)["marks"]
    assert marks["vector_m"] == pytest.approx(data["vector_m"])


def test_a_wrong_integer_is_told(survey, tmp_path):
    """An integer of a made certificate is one cycle off: the robust weights leave its satellite out, and its real number says which."""
    lines = made(noise_m=0.003).text.decode().split("\n")
    at = next(k for k, line in enumerate(lines) if line.startswith("z1 "))
    words = lines[at].split()
    words[3] = str(int(words[3]) + 1)
    (tmp_path / "c").write_text("\n".join([*lines[:at], " ".join(words), *lines[at + 1:]]))
    ran = run("adjust", tmp_path / "c", "--no-troposphere")
    assert ran.returncode == 1 and [line for line in ran.stdout.decode().splitlines() if line.startswith("look: ")] == [
        f"look: IF12 of G03 (arc 2): as a real number 4.53 cycles from the held {words[3]} and {words[4]}"]
    told = json.loads(run("adjust", tmp_path / "c", "--no-troposphere", "--combination", "both", "--json").stdout)
    assert told["look"] == [f"L1 of G03 (arc 2): as a real number 1.00 cycles from the held {words[3]}"] and len(told["integers"]) == 14


def test_a_wrong_integer_is_told_beside_coordinates(survey, tmp_path):
    """A mark that is 0.6 m off by one integer has the look that `adjust` has."""
    assert b"\nlook: " not in run("coordinates", *survey).stdout
    (tmp_path / "c").write_bytes(survey[0].read_bytes().replace(b"\nz1 0 0 0 ", b"\nz1 0 0 1 ", 1))
    ran = run("coordinates", tmp_path / "c", *survey[1:])
    assert ran.returncode == 1 and b"\nlook: IF12 of G11 (arc 2): as a real number 4.50 cycles from the held 1 and 0\n" in ran.stdout
    assert len(json.loads(run("coordinates", tmp_path / "c", *survey[1:], "--json").stdout)["look"]) == 1


def test_a_zenith_delay_of_a_quarter_is_noted(survey):
    ran = run("adjust", "--zenith", survey[0])
    assert ran.returncode == 0 and b"note: a zenith delay needs an hour or more" in ran.stdout and b"\nzenith_mm " in ran.stdout
    data = json.loads(run("adjust", "--zenith", "--zenith-sd", "1", survey[0], "--json").stdout)
    assert abs(data["zenith_mm"]) < 1 and data["zenith_sd_mm"] < 1.1


def test_quality_has_status_1_where_it_looks(survey):
    assert run("quality", survey[0]).returncode == 0
    ran = run("quality", survey[0], "--phase", "10", "--least-ratio", "14", "--satellites", "8")
    assert ran.returncode == 1 and ran.stdout.count(b"\nlook: ") >= 3
    assert len(json.loads(run("quality", survey[0], "--phase", "10", "--json").stdout)["look"]) > 0


def test_coordinates(survey):
    ran = run("coordinates", *survey, "--crs", "EPSG:32654")
    assert ran.returncode == 0 and b"base_lon_lat_h 139.6243021302 35.1320661405 75.8027" in ran.stdout
    assert b"Easting (metre), Northing (metre), Ellipsoidal height (metre)" in ran.stdout
    assert json.loads(run("coordinates", *survey, "--crs", "EPSG:32654", "--json").stdout)["projected"]["system"] == "WGS 84 / UTM zone 54N"


def test_corrected_files(survey, tmp_path):
    """Off files that `correct` made no troposphere is taken again, and one such file alone is refused."""
    made = []
    for name in survey[1:]:
        made.append(tmp_path / name.name)
        comment, end = b"baseline-survey correct: troposphere".ljust(60) + b"COMMENT\n", b"".ljust(60) + b"END OF HEADER"
        made[-1].write_bytes(name.read_bytes().replace(end, comment + end, 1))
    ran = run("adjust", survey[0], *made)
    assert ran.returncode == 0 and b"\nmodel troposphere taken off by `correct`, sigma" in ran.stdout
    assert b"\nmodel no troposphere, sigma" in run("adjust", *survey, "--no-troposphere").stdout
    assert ran.stdout.splitlines()[0] == run("adjust", survey[0], "--no-troposphere").stdout.splitlines()[0]
    refused(run("adjust", survey[0], made[0], survey[2]), "one of both files was made by `correct`", made[0].name)


@pytest.mark.parametrize("word", ["quality", "adjust", "coordinates"])
def test_help(word):
    ran = run(word, "--help")
    assert ran.returncode == 0 and ran.stderr == b""
    assert ran.stdout.startswith(b"usage: baseline-survey " + word.encode()) and b"--json" in ran.stdout


def test_the_first_help():
    ran = run("--help")
    assert ran.returncode == 0 and b"adjust" in ran.stdout and run("--version").returncode == 0
    assert run_alone("--help").stdout == ran.stdout


def test_a_process_of_its_own(survey, tmp_path):
    """The same answer, status and line of error as in the tests' process."""
    for words in (("adjust", survey[0]), ("quality", survey[0], "--phase", "10"), ("adjust", tmp_path / "none")):
        alone, here = run_alone(*words), run(*words)
        assert (alone.returncode, alone.stdout, alone.stderr) == (here.returncode, here.stdout, here.stderr)


def test_wrong_words(survey, tmp_path):
    refused(run(), "no word")
    refused(run("fix"), "no such word")
    refused(run("adjust"), "CERT")
    refused(run("adjust", survey[0], survey[1]), "ROVER is missing")
    refused(run("adjust", survey[0], "--sigma", "nan", "3"), "no number: nan")
    for least in ("0", "1e-200", "9e-4"):
        refused(run("adjust", survey[0], "--sigma", least, "0"), "standard deviations")
    refused(run("adjust", survey[0], "--zenith", "--zenith-sd", "1e-300"), "zenith delays")
    refused(run("adjust", survey[0], "--zenith-per-km", "1e-300"), "each metre of height")
    refused(run("adjust", survey[0], "--combination", "wide"), "wide")
    refused(run("adjust", survey[0], "--comb", "both"), "--comb")
    refused(run("adjust", survey[0], "--blocks", "0"), "no number above 0")
    refused(run("adjust", survey[0], "--blocks", "20"), "needs three")
    refused(run("adjust", survey[0], "--atx", survey[1]), "needs BASE and ROVER")
    refused(run("adjust", *survey, "--atx", survey[1]), "not ANTEX")
    refused(run("adjust", survey[0], "--pressure", "30"), "pressure")
    refused(run("adjust", survey[0], "--pressure", "900", "--no-troposphere"), "exclude")
    refused(run("quality", survey[0], "--phase", "-1"), "not above 0")
    refused(run("coordinates", *survey, "--crs", "EPSG:1"), "EPSG:1")
    refused(run("coordinates", *survey, "--crs", "EPSG:\udcff"), "EPSG:\\udcff", "aren't UTF-8")
    assert len(run("coordinates", *survey, "--crs", "x" * 5000).stderr) < 600
    refused(run("coordinates", survey[0], survey[2], survey[1]), "exchanged")
    (tmp_path / "few.atx").write_bytes(b"     1.4            M".ljust(60) + b"ANTEX VERSION / SYST\n" + b"".ljust(60) + b"END OF HEADER\n")
    refused(run("adjust", *survey, "--atx", tmp_path / "few.atx"), "no antenna TRM29659.00 NONE", "few.atx")


def test_bad_certificates(survey, tmp_path):
    good = survey[0].read_bytes()
    for name, text, part in (("a", b"declined few 30\n", "declined few 30"), ("b", good[:5000], "line"),
                             ("c", b"baseline-cert 1\n", "migrate"),
                             ("d", good.replace(b"\nfixed\n", b"\ndeclined unseparated\n"), "line 261: no"), ("e", b"", "no certificate"),
                             ("f", b"\x1b[2J\n", "no certificate"),
                             ("g", b"declined \x1b[31m\n", "\\x1b")):
        (tmp_path / name).write_bytes(text)
        for word in ("adjust", "quality"):
            refused(run(word, tmp_path / name), part, name)
    refused(run("adjust", tmp_path / "none"), "none: No such file")
    refused(run("adjust", tmp_path), "Is a directory")


HOSTILE = ["a b", "a'b", 'a"b', "$(reboot)", "`id`", "a;b", "a|b", "a&b", "%s%n", "{0}", "\\x1b", "a\nb", "\x1b[2J", "\x07", "\u202eb",
           "é", "\udcff", "<b>", "*", "~"]


@pytest.mark.parametrize("name", HOSTILE)
def test_names_are_data(survey, tmp_path, name):
    path = tmp_path / name
    try:
        path.write_bytes(survey[0].read_bytes())
    except OSError:
        pytest.skip("this name can't be a file's here")
    assert run("adjust", path).returncode == 0
    assert run("adjust", name, cwd=tmp_path).returncode == 0
    refused(run("adjust", str(path) + "x"), "No such file")
    path.write_bytes(b"declined few 1\n")
    refused(run("quality", path), "declined few 1")


def test_a_name_with_a_leading_dash(survey, tmp_path):
    (tmp_path / "-a").write_bytes(survey[0].read_bytes())
    assert run("adjust", "--", "-a", cwd=tmp_path).returncode == 0
    refused(run("adjust", "-a", cwd=tmp_path))


def test_markers_are_escaped(survey, tmp_path):
    base, rover = tmp_path / "b", tmp_path / "r"
    base.write_bytes(survey[1].read_bytes().replace(b"3040      ", b"\x1b[31m\x9b2J\x85 ", 1))
    rover.write_bytes(survey[2].read_bytes())
    out = run("coordinates", survey[0], base, rover).stdout
    assert b"base \\x1b[31m\\x9b2J\\x85" in out and b"\x1b" not in out
    assert "\x1b" not in run("coordinates", survey[0], base, rover, "--json").stdout.decode()


def test_outputs_that_fail(survey):
    with open("/dev/full", "wb") as full:
        ran = subprocess.run([sys.executable, "-m", "baseline_survey", "adjust", survey[0]], stdout=full, stderr=subprocess.PIPE, cwd=HERE)
    assert ran.returncode == 2 and ran.stderr.count(b"\n") == 1 and b"standard output" in ran.stderr
    with subprocess.Popen([sys.executable, "-m", "baseline_survey", "adjust", survey[0]], stdout=subprocess.PIPE, stderr=subprocess.PIPE,
                          cwd=HERE) as ran:
        ran.stdout.close()
        assert b"Traceback" not in ran.stderr.read()
    assert ran.returncode == 2


def test_no_file_stays_where_standard_output_is_full(survey, examples, tmp_path, monkeypatch, capsysbinary):
    """Status 2 is `not done`: files that a word leaves are as they were, old or not there."""
    from test_places import TRACK
    cert, base, rover = survey
    (tmp_path / "moving.track").write_bytes(TRACK)
    (tmp_path / "LIST").write_text(f"A B '{cert}' '{base}' '{rover}'\n")
    (tmp_path / "sessions").mkdir()
    (tmp_path / "sessions" / "one.cert").write_bytes(cert.read_bytes())
    (tmp_path / "old").write_bytes(b"old")
    before = sorted(it.name for it in tmp_path.iterdir())
    monkeypatch.chdir(tmp_path)
    for words in (["report", cert, base, rover, examples / "geonet.nav", "--program", stand_in(tmp_path / "p"), "--output", "old"],
                  ["correct", base, examples / "geonet.nav", "--output", "new"],
                  ["correct", base, examples / "geonet.nav", "--output", "old"],
                  ["cut", base, "00:00", "00:05", "--output", "old"], ["rebase", "-3978242", "3382841", "3649902", base, "--output", "old"],
                  ["places", "moving.track", "--picture", "p.png"], ["network", "LIST", "--unchecked", "--hold", "A", "0", "0", "6.4e6",
                                                                     "--gama", "old", "--sinex", "new"],
                  ["series", "sessions", "--unchecked", "--picture", "p.png", "--metrics", "old"]):
        with open("/dev/full", "w") as full:
            monkeypatch.setattr(sys, "stdout", full)
            assert cli.main([os.fspath(word) for word in words]) == 2, words
            monkeypatch.undo()
            monkeypatch.chdir(tmp_path)
        assert b"standard output" in capsysbinary.readouterr().err, words
        assert sorted(it.name for it in tmp_path.iterdir() if it.name != "p") == before, words
        assert (tmp_path / "old").read_bytes() == b"old", words
    # what isn't a file is written to before, so that a failure of it leaves standard output empty
    ran = run("cut", base, "00:00", "00:05", "--output", "/dev/full")
    refused(ran, "/dev/full")


def test_closed_outputs(survey, monkeypatch, capsysbinary):
    """Python has None for a stream that a shell closed (`>&-`)."""
    monkeypatch.setattr(sys, "stdout", None)
    assert cli.main(["adjust", str(survey[0])]) == 2
    assert capsysbinary.readouterr().err == b"baseline-survey: standard output: closed\n"
    monkeypatch.setattr(sys, "stderr", None)
    assert cli.main(["adjust", str(survey[0])]) == 2 and cli.main(["adjust", "none"]) == 2


def test_a_missing_library_is_named(survey, tmp_path):
    (tmp_path / "numpy.py").write_text("raise ModuleNotFoundError(\"No module named 'numpy'\", name='numpy')")
    env = dict(os.environ, PYTHONPATH=f"{tmp_path}:{HERE}", PYTHONDONTWRITEBYTECODE="1")
    ran = subprocess.run([sys.executable, "-m", "baseline_survey", "adjust", survey[0]], capture_output=True, env=env)
    refused(ran, "the library numpy isn't installed", "apt-get install python3-numpy")


def test_a_dateless_tag(tmp_path):
    text = made(pairs=2).text.decode().split("\n")
    text = [" ".join([*line.split()[:2], str(2**63 - 1), *line.split()[3:]]) if line.startswith("pair ") else line for line in text]
    (tmp_path / "c").write_text("\n".join(text))
    for word in ("adjust", "quality"):
        refused(run(word, tmp_path / "c"), "no date", str(tmp_path / "c"))


def test_tags_that_fall(tmp_path):
    """A forged order of the pairs: the time from first to last is that of the earliest and the latest, and `quality` has a note."""
    text = made(pairs=4, noise_m=0.003).text.decode().split("\n")
    tags = iter(sorted((int(line.split()[2]) for line in text if line.startswith("pair ")), reverse=True))
    text = [" ".join([*line.split()[:2], str(next(tags)), *line.split()[3:]]) if line.startswith("pair ") else line for line in text]
    (tmp_path / "c").write_text("\n".join(text))
    ran = run("adjust", tmp_path / "c", "--no-troposphere")
    assert ran.returncode == 0 and b"from 2005-04-02 00:00:00 to 2005-04-02 00:01:30 GPS time" in ran.stdout, ran
    assert b"isn't later than the pair before it" in run("quality", tmp_path / "c").stdout


def test_text():
    assert visible("a\x1b\n\x9b\u202e\udcff") == "a\\x1b\\x0a\\x9b\\u202e\\udcff" and visible("Höhe 5") == "Höhe 5"
    assert number(-0.0001, 2) == "0.00" and number(-0.01, 2) == "-0.01"
    assert table(("a", "b"), [("xx", "1"), ("y", "222")]) == ["a    b", "xx   1", "y  222"]
