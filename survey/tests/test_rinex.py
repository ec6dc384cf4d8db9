"""correct, rebase and cut: what they change, and that nothing else changes."""
import functools
import json
import math
import re
from datetime import datetime

import numpy as np
import pytest
from conftest import repository
from seeded import junk, seeded
from test_cli import refused, run

from baseline_survey import atmosphere, geodesy, orbits, rinex
from baseline_survey.errors import SurveyError

FILES = ["g2_quarter_base.rnx", "g2_quarter_rover.rnx", "g2_quarter_base.05o", "g2_quarter_rover.05o"]
SOME_PLACE = (-3978242.4348, 3382841.1715, 3649902.7667)


@functools.lru_cache(maxsize=None)
def example(name):
    """The bytes of a file of examples/, read once for all tests."""
    return (repository() / "examples" / name).read_bytes()


@functools.lru_cache(maxsize=None)
def broadcast():
    return orbits.read_navigation(example("geonet.nav"))


@pytest.fixture
def navigation():
    return broadcast()


def body(data):
    lines = data.decode("latin-1").split("\n")
    return lines[next(k for k, line in enumerate(lines) if line[60:73] == "END OF HEADER"):]


def observations(data):
    """Of each time and satellite the values of its types, in thousandths or None."""
    text = rinex.Text(data)
    form = rinex.read_form(text)
    told = {}
    for block in rinex.blocks(text, form):
        for name, at in block.satellites:
            types = form.types["" if form.version == 2 else name[0]]
            for k, kind in enumerate(types):
                line, column = (text[at], 3 + 16 * k) if form.version == 3 else (text[at + k // 5], 16 * (k % 5))
                told[block.time, name, kind[0].replace("P", "C") + kind[1]] = rinex.thousandths(line[column:column + 14])
    return told


@pytest.mark.parametrize("name", FILES)
def test_correct_changes_values_alone(examples, navigation, name):
    data = (examples / name).read_bytes()
    new, told = rinex.correct(data, navigation)
    before, after = body(data), body(new)
    assert len(before) == len(after)
    # every byte outside of the fields of values is kept
    for a, b in zip(before, after):
        assert len(a) == len(b) and re.sub(r"-?\d+\.\d{3}", "#", a).split() == re.sub(r"-?\d+\.\d{3}", "#", b).split()
        assert a[:1] != ">" or a == b
    head = data[:len(data) - len("\n".join(before))]
    added = [line for line in new.decode().split("\n") if line[60:67] == "COMMENT" and line not in data.decode()]
    assert new.startswith(head) and [line[:24] for line in added][0] == "baseline-survey correct:" and len(added) == 3
    assert all(len(line) == 67 for line in added)
    assert told.dropped == 0 and told.values == len([v for v in observations(data).values() if v])


@pytest.mark.parametrize("pair", [FILES[:3:2], FILES[1::2]])
def test_correct_of_both_forms_is_the_same(examples, navigation, pair):
    three, two = (observations(rinex.correct((examples / name).read_bytes(), navigation, ionosphere=True)[0]) for name in pair)
    assert three == two


def test_correct_takes_the_modelled_delay_off(examples, navigation):
    """The delay of one satellite by hand: elevation by the orbit, Saastamoinen and Niell, once on codes and phases."""
    data = (examples / FILES[0]).read_bytes()
    old, new = observations(data), observations(rinex.correct(data, navigation)[0])
    time = min(it[0] for it in old)
    lat, lon, height = geodesy.geodetic(SOME_PLACE)
    seconds = np.array([time / rinex.TICK])
    record = navigation.records["G11"][navigation.choose("G11", seconds)[0]]
    elevation, _ = orbits.elevation_azimuth(orbits.seen(record, seconds, np.array(SOME_PLACE)), lat, lon)
    metres = float(atmosphere.delay(elevation, lat, height, datetime(2005, 4, 2))[0])
    assert math.degrees(elevation[0]) == pytest.approx(69.4, abs=0.5) and metres == pytest.approx(2.3679 / math.sin(elevation[0]), abs=0.01)
    for kind, unit in (("C1", 1), ("L1", orbits.LIGHT / 1575.42e6), ("C2", 1), ("L2", orbits.LIGHT / 1227.60e6)):
        assert (old[time, "G11", kind] - new[time, "G11", kind]) / 1000 * unit == pytest.approx(metres, abs=0.0006)


def test_correct_of_the_ionosphere_has_both_signs(examples, navigation):
    data = (examples / FILES[0]).read_bytes()
    plain, both = (observations(rinex.correct(data, navigation, ionosphere=flag)[0]) for flag in (False, True))
    key = min(plain)[:2]
    code, phase = ((plain[(*key, kind)] - both[(*key, kind)]) / 1000 for kind in ("C1", "L1"))
    assert code > 1 and phase * orbits.LIGHT / 1575.42e6 == pytest.approx(-code, abs=0.002)
    second = (plain[(*key, "C2")] - both[(*key, "C2")]) / 1000
    assert second == pytest.approx(code * (1575.42 / 1227.60)**2, abs=0.002)


def test_correct_makes_missing_what_it_can_not_correct(examples, navigation):
    data = (examples / FILES[0]).read_bytes()
    without = orbits.Navigation({name: records for name, records in navigation.records.items() if name != "G11"}, None)
    new, told = rinex.correct(data, without)
    assert told.dropped_of == {"G11"} and told.dropped == 120
    left = observations(new)
    assert {value for (_, name, _), value in left.items() if name == "G11"} == {None}
    assert len([1 for block in rinex.blocks(rinex.Text(new), rinex.read_form(rinex.Text(new)))]) == 30


def test_correct_refuses(examples, navigation):
    data = (examples / FILES[0]).read_bytes()
    new, _ = rinex.correct(data, navigation)
    for bad, part in ((new, "corrected already"), (data.replace(b"APPROX POSITION XYZ", b"COMMENT            "), "no position"),
                      (data[:-100], "ends early"), (data.replace(b" 24801780.917 ", b" 2480178x.917 ", 1), "line 20: bad field"),
                      (data.replace(b"  24801780.917", b"-9999999999.99", 1), "line 20: corrected value is too long")):
        with pytest.raises(SurveyError, match=part):
            rinex.correct(bad, navigation)
    lines = data.split(b"\n")
    at = next(k for k, line in enumerate(lines) if line[:1] == b">")
    changed = b"\n".join([*lines[:at], b">" + b" " * 30 + b"4  1", b"G    4 L1C C1C C2W L2W".ljust(60) + b"SYS / # / OBS TYPES",
                          *lines[at:]])
    with pytest.raises(SurveyError, match=f"line {at + 2}: types or scale changed"):
        rinex.correct(changed, navigation)
    with pytest.raises(SurveyError, match="GPSA"):
        rinex.correct(data, orbits.Navigation(navigation.records, None), ionosphere=True)
    with pytest.raises(SurveyError, match="isn't on the Earth"):
        rinex.correct(data, navigation, position=(1, 2, 3))


def test_cr_at_line_ends_stays(examples, navigation):
    data = (examples / FILES[0]).read_bytes()
    dos = data.replace(b"\n", b"\r\n")
    assert rinex.correct(dos, navigation)[0] == rinex.correct(data, navigation)[0].replace(b"\n", b"\r\n")
    assert rinex.cut(dos, "00:05", "00:10")[0] == rinex.cut(data, "00:05", "00:10")[0].replace(b"\n", b"\r\n")
    assert rinex.rebase(dos, SOME_PLACE_WORDS) == rinex.rebase(data, SOME_PLACE_WORDS).replace(b"\n", b"\r\n")


SOME_PLACE_WORDS = [f"{x:.4f}" for x in SOME_PLACE]


@seeded(300)
def test_values_are_read_and_written_alike(dice):
    value = dice.choice((-1, 1)) * dice.choice((dice.randint(1, 10**12), dice.randint(1, 9)))
    assert rinex.thousandths(f"{rinex._places(value):>14}") == value


@pytest.mark.parametrize("word, value", [("              ", None), ("         0.000", None), ("          -.5 ", -500),
                                         ("           +5.", 5000), ("  1", 1000)])
def test_spellings_of_values(word, value):
    assert rinex.thousandths(word) == value


@pytest.mark.parametrize("word", ["1 2", ".", "1.2345", "1e3", "--1", "\u00b2", "1_0"])
def test_what_is_no_value(word):
    with pytest.raises(ValueError):
        rinex.thousandths(word)


# ---- rebase


@pytest.mark.parametrize("name", FILES)
def test_rebase(examples, name):
    data = (examples / name).read_bytes()
    new = rinex.rebase(data, ("-3978240.0001", "3382840", "3649900.5"))
    lines = [line for line in new.split(b"\n") if line not in data.split(b"\n")]
    assert lines[0].rstrip() == b" -3978240.0001  3382840.0000  3649900.5000                  APPROX POSITION XYZ"
    assert len(lines) == 2 and lines[1].startswith(b"rebased, was -39") and lines[1].endswith(b"COMMENT") and len(lines[1]) == 67
    assert body(new) == body(data)


def test_rebase_where_there_is_no_position(examples):
    data = (examples / FILES[0]).read_bytes()
    gone = b"\n".join(line for line in data.split(b"\n") if b"APPROX POSITION" not in line)
    zero = re.sub(rb"\n[^\n]*APPROX POSITION XYZ", b"\n" + b"        0.0000" * 3 + b" " * 18 + b"APPROX POSITION XYZ", data)
    broken = re.sub(rb"\n[^\n]*APPROX POSITION XYZ", b"\n" + b" -39782422.43482" * 2 + b" " * 28 + b"APPROX POSITION XYZ", data)
    for before in (gone, zero, broken):
        assert rinex.rinex_header.read_header(rinex.rebase(before, SOME_PLACE_WORDS)).position_m == pytest.approx(SOME_PLACE)


@pytest.mark.parametrize("place",
                         [("1", "2", "3"), ("nan", "0", "0"), ("-3978242.43481", "3382841", "3649902"), ("1e6", "6e6", "0"), ("", "", "")])
def test_rebase_refuses(examples, place):
    with pytest.raises(SurveyError):
        rinex.rebase((examples / FILES[0]).read_bytes(), place)


# ---- cut


@pytest.mark.parametrize("name", FILES)
def test_cut_in_three_parts_is_the_whole(examples, name):
    data = (examples / name).read_bytes()
    parts = [rinex.cut(data, *span) for span in (("00:00", "00:05"), ("2005-04-02T00:05:00", "00:10"), ("00:10", "24:00"))]
    assert [epochs for _, epochs in parts] == [10, 10, 10]
    assert [line for part, _ in parts for line in body(part)[1:] if line] == [line for line in body(data)[1:] if line]
    assert b"  2005     4     2     0     5    0.0000000     GPS         TIME OF FIRST OBS" in parts[1][0]


def test_cut_and_events(examples):
    """A changed header before the part is kept, and so is an event in it; one after it and a mark before it aren't."""
    lines = (examples / FILES[0]).read_bytes().decode().split("\n")
    epochs = [k for k, line in enumerate(lines) if line[:1] == ">"]
    blank = ">" + " " * 30
    events = {epochs[2]: [blank + "4  1", f"{'another name':60}MARKER NAME"], epochs[3]: [blank + "2  0"], epochs[12]: [blank + "3  0"],
              epochs[15]: ["> 2005 04 02 00 07 15.0000000  5  0"], epochs[25]: [blank + "4  1", f"{'late name':60}MARKER NAME"]}
    text = "\n".join(extra for k, line in enumerate(lines) for extra in [*events.get(k, []), line]).encode()
    part, count = rinex.cut(text, "00:05", "00:10")
    assert count == 10 and b"another name" in part and b"late name" not in part
    flags = [line[31] for line in part.decode().split("\n") if line[:1] == ">" and line[31] != "0"]
    assert flags == ["4", "3", "5"]


@pytest.mark.parametrize("begin, end, part", [("00:10", "00:05", "before TO"), ("01:00", "02:00", "no epoch"), ("x", "00:05", "no time"),
                                             ("2005-02-30T00:00", "00:05", "no time"), ("00:61", "00:05", "no time"),
                                             ("0:05", "00:10", "no time"), ("00:00", "24:30", "no time"),
                                             ("00:00", "24:00:01", "no time"), ("00:00", "24:00:00.1", "no time")])
def test_cut_refuses(examples, begin, end, part):
    with pytest.raises(SurveyError, match=part):
        rinex.cut((examples / FILES[0]).read_bytes(), begin, end)


@seeded(60)
def test_a_broken_file_is_refused_or_changed_but_never_a_fault(dice):
    data, navigation = example(FILES[2]), broadcast()
    at, broken = dice.randint(0, 20_000), junk(dice, 4, 1)
    bad = data[:at] + broken + data[at + len(broken):]
    for step in (lambda: rinex.correct(bad, navigation), lambda: rinex.rebase(bad, SOME_PLACE_WORDS),
                 lambda: rinex.cut(bad, "00:05", "00:10")):
        try:
            step()
        except SurveyError:
            pass


# ---- the words


def test_words(examples, tmp_path):
    base, nav = examples / FILES[0], examples / "geonet.nav"
    new = run("correct", base, nav)
    assert new.returncode == 0 and b"baseline-survey correct:" in new.stdout
    told = json.loads(run("correct", base, nav, "--json", "--output", tmp_path / "c").stdout)
    assert (tmp_path / "c").read_bytes() == new.stdout and told["values"] == 1080 and told["satellites"][0] == "G03"
    assert run("cut", tmp_path / "c", "00:00", "00:05").stdout.count(b"\n> ") == 10
    piped = run("rebase", *SOME_PLACE_WORDS, input=new.stdout)
    assert piped.returncode == 0 and piped.stdout.count(b"COMMENT") == new.stdout.count(b"COMMENT") + 1
    for words, parts in ((("correct", base, base), [base.name, "not a navigation file"]),
                         (("correct", nav, nav), ["not an observation file"]),
                         (("correct", tmp_path / "c", nav), ["corrected already"]), (("cut", base, "00:05"), ["TO"]),
                         (("correct", base, nav, "--output", tmp_path / "none" / "c"), ["No such file"]),
                         (("rebase", "1", "2", "3", base), ["isn't on the Earth"])):
        refused(run(*words), *parts)
    assert sorted(it.name for it in tmp_path.iterdir()) == ["c"]


def test_rebase_of_a_corrected_file(examples, tmp_path):
    """The delays were taken off at one height: a position at another one is refused, also where the antenna is over the mark."""
    place = np.array(SOME_PLACE)
    for over in (0.0, 1.5):
        data = (examples / FILES[0]).read_bytes().replace(b"        0.0000        0.0000        0.0000                  ANTENNA: DELTA",
                                                          f"{over:14.4f}{0:14.4f}{0:14.4f}".encode().ljust(60) + b"ANTENNA: DELTA", 1)
        (tmp_path / "c").write_bytes(rinex.correct(data, broadcast())[0])
        for rise, told in ((-2.5, ""), (2.5, ""), (-20, "20 m over the new position"), (4, "4 m under the new position")):
            words = [f"{x:.4f}" for x in place * (1 + rise / np.linalg.norm(place))]
            ran = run("rebase", *words, tmp_path / "c")
            assert ran.returncode == 0 if not told else refused(ran, told, "`rebase` the original file") is None


def test_rebase_of_too_large_an_input(examples, monkeypatch):
    """What is read from standard input has the limit of a file; the rest isn't dropped in silence."""
    from baseline_survey import files
    data = (examples / FILES[0]).read_bytes()
    monkeypatch.setattr(files, "MOST_BYTES", len(data) - 1)
    refused(run("rebase", *SOME_PLACE_WORDS, input=data), "standard input: file too large")
    refused(run("rebase", *SOME_PLACE_WORDS, examples / FILES[0]), FILES[0], "file too large")


def test_hostile_file_names(examples, tmp_path, monkeypatch, capfd):
    """Names of any kind are files and nothing else, in and out."""
    from sessions import HOSTILE

    from baseline_survey import cli
    monkeypatch.chdir(tmp_path)
    data, nav = (examples / FILES[0]).read_bytes(), (examples / "geonet.nav").read_bytes()
    for name in HOSTILE:
        name = name.replace("/", "_")
        (tmp_path / name).write_bytes(data)
        (tmp_path / f"n{name}").write_bytes(nav)
        assert cli.main(["correct", f"--output=o{name}", "--", name, f"n{name}"]) == 0
        assert cli.main(["rebase", f"--output=p{name}", "--", *SOME_PLACE_WORDS, name]) == 0
        assert cli.main(["cut", f"--output=q{name}", "--", name, "00:05", "00:10"]) == 0
        assert cli.main(["cut", "--", f"none {name}", "00:05", "00:10"]) == 2
        assert (tmp_path / f"o{name}").read_bytes() == rinex.correct(data, orbits.read_navigation(nav))[0]
    told = capfd.readouterr()
    assert all(it == "\n" or it >= " " for it in told.out + told.err) and told.err.count("\n") == len(HOSTILE)
    assert not (tmp_path / "PWNED").exists() and len(list(tmp_path.iterdir())) == 5 * len(HOSTILE)


def test_fix_of_corrected_files_is_the_adjusted_vector(examples, program, navigation, tmp_path):
    """The delay taken off before `fix` or after it by `adjust`: the same vector to 0.3 mm, and `fix` itself comes within 2 mm."""
    import subprocess

    from baseline_survey import certificate
    from baseline_survey.adjust import Settings, adjust
    for name in FILES[:2]:
        (tmp_path / name).write_bytes(rinex.correct((examples / name).read_bytes(), navigation)[0])
    ran = subprocess.run([program, "fix", *(tmp_path / name for name in FILES[:2]), examples / "geonet.nav"], capture_output=True,
                         check=True)
    cert = certificate.read_fixed(ran.stdout)
    before, after = adjust(cert, Settings(troposphere=False)), adjust(certificate.read_fixed(examples / "g2_quarter.cert"))
    assert before.vector_m == pytest.approx(after.vector_m, abs=0.0003) and cert.vector_m() == pytest.approx(after.vector_m, abs=0.002)
