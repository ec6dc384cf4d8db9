"""The monitor: rows, gaps, alarms, metrics, and that a kill loses and doubles nothing."""
import json
import os
import random
import re
import shutil
import signal
import subprocess
import sys
import time
from datetime import datetime, timedelta

import numpy as np
import pytest
from sessions import HOSTILE, session, stand_in
from test_cli import HERE, refused, run

from baseline_survey import alarm, metrics, pictures, series
from baseline_survey.errors import SurveyError

PLACE = np.array([500.0, -200.0, 300.0])
START = datetime(2024, 1, 1)
BASE = (-3978242.4348, 3382841.1715, 3649902.7667)


def rows(values, sd=(2.0, 2.0, 4.0), first=0, pairs=120, base=BASE):
    """Rows of one session an hour: deviations east north up in mm, or None for a decline."""
    made = []
    for k, value in enumerate(values, first):
        row = series.Row(START + timedelta(hours=k), "declined unseparated", f"{k:064x}", f"{k}.cert", satellites=7, pairs=pairs,
                         ratio_reached=1.5, base_m=base)
        if value is not None:
            enu = tuple(p + v / 1000 for p, v in zip((10.0, 20.0, 30.0), value))
            row = series.replace(row, state="fixed", enu_m=enu, sd_mm=tuple(sd), ratio_reached=9.5)
        made.append(row)
    return made


def noise(count, seed, sd=(2.0, 2.0, 4.0), move=lambda k: (0.0, 0.0, 0.0)):
    dice = np.random.default_rng(seed)
    return [tuple(dice.normal(0, sd) + np.array(move(k))) for k in range(count)]


def told_at(made, limits=alarm.Limits(), axis=None):
    """The first row whose run has an alarm: what a monitor that is called after each session says."""
    for n in range(1, len(made) + 1):
        if any(axis is None or it.axis == axis for it in alarm.judge(made[:n], limits).alarms):
            return n - 1
    return None


# ---- movements


@pytest.mark.parametrize("reference, window, count", [(24, 12, 200), (8, 6, 24)])
def test_no_alarm_in_noise_alone(reference, window, count):
    """Series of normal errors, with formal standard deviations that are three times too small: one in some 30 series of 200
    has an alarm."""
    limits = alarm.Limits(reference=reference, window=window)
    made = [rows(noise(count, seed), sd=(0.7, 0.7, 1.3)) for seed in range(30)]
    assert sum(bool(alarm.judge(it, limits).alarms) for it in made) <= 2


def test_scale_makes_up_for_small_formal_sd():
    """Vectors that scatter five times as much as their formal standard deviations say give no alarms."""
    done = alarm.judge(rows(noise(200, 3, sd=(10, 10, 20))))
    assert np.all((done.reference.scales > 3.5) & (done.reference.scales < 7)) and not done.alarms


def test_the_factor_is_students_t():
    """Of fewer fixes a limit has more of their standard deviations; the values are those of a table of Student's t."""
    def factor(n, sigmas):
        return alarm.judge(rows(noise(n, 1)), alarm.Limits(reference=n, sigmas=sigmas)).reference.factor
    assert factor(12, 1.959964) == pytest.approx(2.228, abs=1e-3) and factor(22, 2.575829) == pytest.approx(2.845, abs=1e-3)
    assert factor(500, 4) == pytest.approx(4.04, abs=0.02)


def test_one_bad_fix_doesnt_blind_the_monitor():
    made = noise(40, 5)
    made[3] = (0, 300, 0)
    done = alarm.judge(rows([*made, (0, 20, 0)]))
    assert {it.row for it in done.alarms if it.kind == "jump"} == {3, 40}


def test_a_jump_is_seen_at_once():
    made = rows(noise(200, 1, sd=(1.1, 1.5, 2.6), move=lambda k: (0, 10.0, 0) if k >= 120 else (0, 0, 0)), sd=(0.7, 0.7, 1.3))
    done = alarm.judge(made)
    north = [it.row for it in done.alarms if it.axis == "north"]
    assert min(north) == 120 and {it.kind for it in done.alarms} == {"jump", "creep"} and len(north) > 75


def test_a_creep_is_seen():
    done = alarm.judge(rows(noise(200, 2, move=lambda k: (0, 0, -0.1 * max(0, k - 60)))))
    up = [it.row for it in done.alarms if it.axis == "up" and it.kind == "creep"]
    # the mean of 12 sessions passes its limit at some 8 mm
    assert 80 < min(up) < 170 and max(up) == 199 and all(it.deviation_mm < 0 for it in done.alarms if it.kind == "creep")


def test_a_creep_from_the_first_session_on_is_seen():
    """Also where it goes through the reference: 2 mm an hour, with eight fixes as the reference."""
    limits = alarm.Limits(reference=8, window=6)
    found = [told_at(rows(noise(24, seed, sd=(1.0, 1.0, 2.0), move=lambda k: (2.0 * k, 0, 0)), sd=(0.3, 0.3, 0.6)), limits,
                     "east") for seed in range(5)]
    assert all(it is not None and it < 18 for it in found)


def test_an_alarm_is_against_its_own_sd():
    """The same deviation is an alarm of a good session and none of a weak one."""
    good, weak = rows([*noise(40, 5), (0, 20, 0)]), rows(noise(40, 5))
    weak += rows([(0, 20, 0)], sd=(8, 8, 16), first=40)
    assert [it.row for it in alarm.judge(good).alarms if it.kind == "jump"] == [40]
    assert not alarm.judge(weak).alarms


def test_later_sessions_take_no_alarm_back():
    values = noise(100, 8, move=lambda k: (15.0 if k > 60 else 0.0, 0, 0))
    values[30] = values[50] = values[51] = values[52] = None
    made = rows(values)
    whole = alarm.judge(made).alarms
    assert {it.kind for it in whole} == {"jump", "creep", "dead"}
    for n in (53, 70, 85):
        assert alarm.judge(made[:n]).alarms == [it for it in whole if it.row < n]


def test_gaps_and_few_fixes():
    done = alarm.judge(rows([None, (0, 0, 0), None, (1, 1, 1)]))
    assert done.reference is None and not done.alarms and done.fixed == 2
    made = noise(60, 4)
    made[10:12] = [None] * 2
    done = alarm.judge(rows(made))
    assert np.all(np.isnan(done.deviations_mm[10:12])) and done.fixed == 58 and not done.alarms


def test_floor():
    made = rows([*noise(40, 6, sd=(0.1, 0.1, 0.1)), (0, 3, 0)], sd=(0.1, 0.1, 0.1))
    assert alarm.judge(made).alarms and not alarm.judge(made, alarm.Limits(floor_mm=5)).alarms


# ---- faults of a station


def test_a_base_that_moves_is_seen():
    moved = (BASE[0] + 3.0, BASE[1], BASE[2])
    made = rows(noise(10, 1)) + rows(noise(4, 2), first=10, base=moved) + rows([None], first=14) + rows(noise(4, 3), first=15)
    found = [(it.row, it.text) for it in alarm.judge(made).alarms if it.kind == "base"]
    assert found == [(10, "the base's header moved by 3.0000 m"), (14, "the base's header moved by 3.0000 m")]


def test_a_short_session_is_seen():
    made = rows(noise(10, 1)) + rows([(0, 0, 0)], first=10, pairs=60)
    made += rows([None], first=11, pairs=0) + rows(noise(3, 1), first=12, pairs=91)
    assert [(it.row, it.kind, it.text) for it in alarm.judge(made).alarms] == [(10, "short", "60 pairs in place of 120")]


def test_a_dead_station_is_seen():
    made = rows([*noise(10, 1), None, None, None, None, (0, 0, 0), None, None])
    assert [(it.row, it.text) for it in alarm.judge(made).alarms] == [(12, "no fix in 3 sessions"), (13, "no fix in 4 sessions")]
    assert [it.row for it in alarm.judge(made, alarm.Limits(silent=2)).alarms] == [11, 12, 13, 16]


@pytest.mark.parametrize("count, hours, dead",
                         [(10, 9, False), (10, 11, False), (10, 12, True), (1, 0, False), (1, 2, False), (1, 3, True), (0, 0, True)])
def test_sessions_that_are_missing(count, hours, dead):
    """`count` sessions from hour 0 on; one of this hour should be there."""
    found = alarm.judge(rows(noise(count, 1)), until=START + timedelta(hours=hours)).alarms
    assert [(it.row, it.kind) for it in found] == ([(None, "dead")] if dead else [])


def test_declines_and_missing_sessions_count_together():
    made = rows([*noise(10, 1), None, None])
    assert not alarm.judge(made, until=START + timedelta(hours=11)).alarms
    found = alarm.judge(made, until=START + timedelta(hours=12)).alarms
    assert [it.text for it in found] == ["1 session is missing, after 2 without a fix"]


@pytest.mark.parametrize("name, told", [("20050402_0015.cert", datetime(2005, 4, 2, 0, 15)),
                                        ("roof-2005-04-02T23:59:30.cert", datetime(2005, 4, 2, 23, 59, 30)),
                                        ("2005-04-02 00h15.cert", datetime(2005, 4, 2, 0, 15)), ("20051402_0015.cert", None),
                                        ("line7.cert", None)])
def test_times_in_names(name, told):
    assert series.stamp(name) == told


# ---- the log


@pytest.fixture
def folder(tmp_path):
    """A day of sessions, one an hour, with a decline of one line and one that was cut short."""
    made = tmp_path / "sessions"
    made.mkdir()
    for k in range(8):
        (made / f"20050402_{k:02d}00.cert").write_bytes(session(PLACE, k / 24, k + 1))
    (made / "20050402_0800.cert").write_bytes(b"declined few 30\n")
    (made / "20050402_0900.cert").write_bytes(session(PLACE, 9 / 24, 10)[:-20])
    (made / "20050402_1000.cert").write_bytes(session(PLACE, 10 / 24, 11, verdict="declined unseparated"))
    return made


def series_of(folder, *more):
    return run("series", folder, "--unchecked", "--no-troposphere", "--silent", "9", *more)


def test_rows_by_the_clock(folder):
    ran = series_of(folder, "--json", "--picture", folder.parent / "p.png")
    assert ran.returncode == 0, ran.stderr
    data = json.loads(ran.stdout)
    assert [it["time"][11:13] for it in data["rows"]] == [f"{k:02d}" for k in range(11)] and data["fixed"] == 8 and data["new"] == 11
    assert [it["state"].split(":")[0] for it in data["rows"][8:]] == ["declined few 30", "unreadable", "declined unseparated"]
    assert data["rows"][0]["pairs"] == 10 and data["rows"][0]["base_m"] == list(BASE) and data["rows"][8]["base_m"] is None
    assert (folder.parent / "p.png").read_bytes().startswith(b"\x89PNG")
    log = (folder / "series.tsv").read_bytes()
    again = json.loads(series_of(folder, "--json").stdout)
    assert again["new"] == 0 and again["rows"] == data["rows"] and (folder / "series.tsv").read_bytes() == log
    # a session that was made again replaces its row
    (folder / "20050402_0900.cert").write_bytes(session(PLACE, 9 / 24, 10))
    more = json.loads(series_of(folder, "--json").stdout)
    assert more["new"] == 1 and len(more["rows"]) == 11 and more["fixed"] == 9
    # and one that was taken away stays
    (folder / "20050402_0000.cert").unlink()
    assert len(json.loads(series_of(folder, "--json").stdout)["rows"]) == 11


def test_known_files_are_not_read_again(folder):
    """Nor is anything of theirs computed: by their size and time they are known, and a touched one by its bytes."""
    series_of(folder)
    log = folder / "series.tsv"
    for name in ("20050402_0000.cert", "20050402_0100.cert"):
        time = os.stat(folder / name).st_mtime_ns
        (folder / name).write_bytes(b"x" * os.stat(folder / name).st_size)
        os.utime(folder / name, ns=(time, time))
    os.utime(folder / "20050402_0200.cert")
    before = log.read_bytes()
    assert b"11 sessions, 8 fixed, 0 new" in series_of(folder).stdout
    assert log.read_bytes() != before and len(log.read_bytes().splitlines()) == 13
    os.utime(folder / "20050402_0000.cert")
    assert b"11 sessions, 7 fixed, 1 new" in series_of(folder).stdout


def test_status_1_on_an_alarm(folder):
    for k in range(12, 30):
        (folder / f"{k}.cert").write_bytes(session(PLACE + np.array([0.05, 0, 0]) * (k > 20), k / 24, k))
    ran = series_of(folder, "--reference", "12")
    assert ran.returncode == 1 and b"\nalarm jump east since 2005-04-02 21:00: " in ran.stdout and b"fixed ALARM jump" in ran.stdout
    assert series_of(folder, "--reference", "12", "--since", "2006-01-01T00:00").returncode == 0


def test_a_clock_that_is_early(folder):
    """A tag of 10:59:59.995 is that of the session of 11:00: in the table, for --since, and beside a decline's name."""
    moved = {"base": (BASE[0] + 2, BASE[1], BASE[2])}
    early = re.sub(rb"(?m)^(pair \d+ )(\d+)", lambda it: it[1] + b"%d" % (int(it[2]) - 50_000), session(PLACE, 11 / 24, 12, **moved))
    (folder / "20050402_1100.cert").write_bytes(early)
    (folder / "20050402_1100 first.cert").write_bytes(b"declined few 30\n")
    ran = series_of(folder, "--since", "2005-04-02T11:00")
    assert ran.returncode == 1 and b"\nalarm base since 2005-04-02 11:00: " in ran.stdout, ran
    assert b"\n2005-04-02 11:00 " in ran.stdout and b"10:59" not in ran.stdout and b"12 sessions, 9 fixed, 13 new" in ran.stdout


def test_faults_are_alarms(folder):
    """A base that moved, a short session and a station that went silent, by the certificates' own rows."""
    (folder / "20050402_1100.cert").write_bytes(session(PLACE, 11 / 24, 12, base=(BASE[0] + 2, BASE[1], BASE[2])))
    (folder / "20050402_1200.cert").write_bytes(session(PLACE, 12 / 24, 13, base=(BASE[0] + 2, BASE[1], BASE[2])))
    ran = series_of(folder, "--until", "2005-04-03T00:00")
    assert ran.returncode == 1, ran
    text = ran.stdout.decode()
    assert "\nalarm base since 2005-04-02 11:00: the base's header moved by 2.0000 m\n" in text
    assert "\nalarm dead since 2005-04-03 00:00: 12 sessions are missing\n" in text
    assert series_of(folder, "--until", "2005-04-02T14:00", "--since", "2005-04-02T12:00").returncode == 0


def test_a_file_with_itself_is_no_vector(folder):
    (folder / "20050402_1100.cert").write_bytes(session((0.0, 0.0, 0.0), 11 / 24, 1, noise_m=0.0, point_off_m=(0.0, 0.0, 0.0)))
    data = json.loads(series_of(folder, "--json").stdout)
    assert data["rows"][11]["state"] == "one file as base and rover" and data["rows"][11]["enu_m"] is None


def test_a_session_counts_once(folder):
    """A copy, a second certificate of a session, an upload that was sent again under the next hour's name, a second try of a decline."""
    before = json.loads(series_of(folder, "--json").stdout)
    shutil.copy(folder / "20050402_0300.cert", folder / "20050402_0300 (copy).cert")
    shutil.copy(folder / "20050402_0700.cert", folder / "20050402_1100.cert")
    (folder / "second.cert").write_bytes(session(PLACE + 0.001, 5 / 24, 99))
    (folder / "20050402_1000 second.cert").write_bytes(session(PLACE, 10 / 24, 12))
    (folder / "again 20050402_0800.cert").write_bytes(b"declined few 30\n")
    ran = series_of(folder)
    assert ran.stdout.startswith(b"series sessions: 11 sessions, 9 fixed, 5 new, ")
    assert b"\nagain: 5, of sessions that count already: 20050402_0300 (copy).cert is that of 20050402_0300.cert, ..\n" in ran.stdout
    data = json.loads(series_of(folder, "--json").stdout)
    assert [it["time"] for it in data["rows"]] == [it["time"] for it in before["rows"]]
    assert [it["name"] for it in data["rows"][:8]] == [it["name"] for it in before["rows"][:8]]
    assert [it["name"] for it in data["rows"]][10] == "20050402_1000 second.cert" and data["rows"][10]["state"] == "fixed"
    assert data["again"][1:] == [["second.cert", "20050402_0500.cert"], ["20050402_1100.cert", "20050402_0700.cert"],
                                 ["again 20050402_0800.cert", "20050402_0800.cert"],
                                 ["20050402_1000.cert", "20050402_1000 second.cert"]]
    # declines of one line are the same bytes, and sessions of their own
    (folder / "20050402_1200.cert").write_bytes(b"declined few 30\n")
    assert len(json.loads(series_of(folder, "--json").stdout)["rows"]) == 12
    # a receiver that sends the same hour again and again is dead
    assert b"alarm dead since 2005-04-02 20:00: 8 sessions are missing" in series_of(
        folder, "--until", "2005-04-02T20:00", "--silent", "3").stdout


def test_a_list(folder):
    (folder.parent / "LIST").write_text("# two\nsessions/20050402_0000.cert\n2005-04-02T08:00 sessions/20050402_0800.cert\n"
                                        "'sessions/20050402_0100.cert'\n")
    data = json.loads(series_of(folder.parent / "LIST", "--json").stdout)
    assert [it["time"][11:13] for it in data["rows"]] == ["00", "01", "08"] and (folder.parent / "LIST.tsv").is_file()


def test_a_vector_only_where_check_certifies(folder, tmp_path):
    program = stand_in(tmp_path / "no", check=b"not certified tail\n")
    data = json.loads(run("series", folder, "--no-troposphere", "--program", program, "--json").stdout)
    assert data["fixed"] == 0 and {it["state"] for it in data["rows"][:8]} == {"not certified tail"}
    # the check's answer goes with the log, so another way of making rows wants another log
    refused(series_of(folder), "made by another version or with other settings")
    assert json.loads(series_of(folder, "--log", tmp_path / "other.tsv", "--json").stdout)["fixed"] == 8


def test_bad_input(folder, tmp_path):
    refused(series_of(tmp_path / "none"), "none", "No such file")
    (tmp_path / "L").write_text("a b c\n")
    refused(series_of(tmp_path / "L"), "line 1")
    for zone in ("Z", "+05:45"):
        (tmp_path / "L").write_text(f"sessions/20050402_0000.cert\n2005-04-02T08:00{zone} sessions/20050402_0800.cert\n")
        refused(series_of(tmp_path / "L"), "line 2", "without a zone")
    assert sorted(it.name for it in tmp_path.iterdir()) == ["L", "sessions"]
    refused(series_of(folder, "--picture", tmp_path / "p.gif"), ".png")
    refused(series_of(folder, "--since", "today"), "today")
    refused(series_of(folder, "--reference", "4"), "5 fixes or more")
    series_of(folder)
    log = (folder / "series.tsv").read_bytes()
    for bad in (log[:-1], log.replace(b"\t7\t", b"\tx\t"), log + b"one more\n", b"something else\n",
                re.sub(rb'"fixed"', b"5", log, 1), re.sub(rb'("fixed"\t)[^\t]+', rb"\1nan", log, 1),
                re.sub(rb"(\n[^\t]{26})\t", rb"\1+05:45\t", log, 1)):
        assert bad != log
        (folder / "series.tsv").write_bytes(bad)
        refused(series_of(folder), "series.tsv")
        assert (folder / "series.tsv").read_bytes() == bad


SAVES_OFTEN = "import sys; from baseline_survey import cli, series; series.SAVE_EVERY = 3; sys.exit(cli.main(sys.argv[1:]))"


def test_kills_lose_and_double_nothing(tmp_path):
    """Killed again and again soon after it has saved, until it is done, the log is that of one undisturbed run."""
    folder, log = tmp_path / "sessions", tmp_path / "killed.tsv"
    folder.mkdir()
    for k in range(30):
        (folder / f"{k}.cert").write_bytes(session(PLACE, k, k + 1))
    words = [sys.executable, "-c", SAVES_OFTEN, "series", folder, "--unchecked", "--no-troposphere", "--log", log]
    env = dict(os.environ, PYTHONPATH=str(HERE), PYTHONDONTWRITEBYTECODE="1")
    dice, sizes = random.Random(1), [0]
    for _ in range(4):
        process = subprocess.Popen(words, env=env, stdout=subprocess.DEVNULL, stderr=subprocess.DEVNULL)
        while process.poll() is None and (len(log.read_bytes().splitlines()) if log.exists() else 0) == sizes[-1]:
            time.sleep(0.005)
        time.sleep(dice.uniform(0, 0.03))
        process.send_signal(signal.SIGKILL)
        process.wait()
        sizes.append(len(log.read_bytes().splitlines()))
    assert sizes == sorted(sizes) and 2 < sizes[1] < sizes[-1] < 32, sizes
    log.with_name(log.name + ".part").write_bytes(b"what a kill left")
    assert run("series", folder, "--unchecked", "--no-troposphere", "--log", log).returncode in (0, 1)
    assert run("series", folder, "--unchecked", "--no-troposphere", "--log", tmp_path / "clean.tsv").returncode in (0, 1)
    assert log.read_bytes() == (tmp_path / "clean.tsv").read_bytes() and len(log.read_text().splitlines()) == 32
    assert sorted(it.name for it in tmp_path.iterdir()) == ["clean.tsv", "clean.tsv.lock", "killed.tsv", "killed.tsv.lock", "sessions"]


def test_a_bad_file_stops_nothing(folder):
    """A folder, a file that may not be read and a text of another kind are rows without a vector."""
    (folder / "20050402_1100.cert").mkdir()
    (folder / "20050402_1200.cert").write_bytes(b"\xff\x00")
    os.symlink(folder / "nowhere", folder / "20050402_1300.cert")
    data = json.loads(series_of(folder, "--json").stdout)
    states = [it["state"] for it in data["rows"]]
    assert states[11:14:2] == ["unreadable: Is a directory", "unreadable: No such file or directory"] and data["fixed"] == 8
    assert json.loads(series_of(folder, "--json").stdout)["new"] == 0
    (folder / "20050402_1300.cert").unlink()
    (folder / "20050402_1300.cert").write_bytes(session(PLACE, 13 / 24, 14))
    again = json.loads(series_of(folder, "--json").stdout)
    assert again["new"] == 1 and again["fixed"] == 9


def test_two_at_a_time_wait(folder, tmp_path):
    words = [sys.executable, "-m", "baseline_survey", "series", folder, "--unchecked", "--no-troposphere", "--log", tmp_path / "log",
             "--silent", "9"]
    env = dict(os.environ, PYTHONPATH=str(HERE), PYTHONDONTWRITEBYTECODE="1")
    running = [subprocess.Popen([*words, "--json"], env=env, stdout=subprocess.PIPE) for _ in range(2)]
    told = [json.loads(it.communicate(timeout=600)[0]) for it in running]
    assert sorted(it["new"] for it in told) == [0, 11] and told[0]["rows"] == told[1]["rows"]


def test_hostile_names(tmp_path):
    folder = tmp_path / "$x^2$ \x1b[31m"
    folder.mkdir()
    for k, name in enumerate(HOSTILE):
        (folder / f"{name.replace('/', '_')}.cert").write_bytes(session(PLACE, k, k + 1))
    (folder / "\udcff.cert").write_bytes(session(PLACE, 99, 99))
    words = ("series", folder, "--unchecked", "--no-troposphere")
    ran = run(*words, "--all", "--picture", tmp_path / "p.svg", "--metrics", tmp_path / "m.prom", cwd=tmp_path)
    assert ran.returncode in (0, 1), ran.stderr
    assert all(byte == 10 or byte >= 32 for byte in ran.stdout) and not (tmp_path / "PWNED").exists() and not (folder / "PWNED").exists()
    key = (folder / "series.tsv").read_text().split("\n")[0][len(series.HEAD) + 1:]
    assert {row.name for row in series.load(str(folder / "series.tsv"),
                                            key)} == {f"{name.replace('/', '_')}.cert" for name in HOSTILE} | {"\udcff.cert"}
    drawn = (tmp_path / "p.svg").read_bytes()
    assert b"\x1b" not in drawn and b"$x^2$ \\x1b[31m" in drawn
    assert {labels["series"] for _, labels, _ in read_metrics((tmp_path / "m.prom").read_bytes())} == {"$x^2$ \\x1b[31m"}
    assert b", 0 new" in run(*words, cwd=tmp_path).stdout


def test_pictures_of_anything(tmp_path):
    for made in ([], rows([None]), rows([*noise(30, 1), None, None, (0, 0, 50)])):
        pictures.drawn_series(str(tmp_path / "p.svg"), alarm.judge(made, until=START + timedelta(days=9)), "title")
    with pytest.raises(SurveyError):
        pictures.drawn_series(str(tmp_path / "p.txt"), alarm.judge([]), "title")


# ---- metrics

SAMPLE = re.compile(r'([a-zA-Z_:][a-zA-Z0-9_:]*)\{((?:[a-z]+="(?:[^"\\\n]|\\["\\n])*",?)+)\} (\S+)')


def read_metrics(data):
    """A second reader of Prometheus' text form: name, labels and value of each sample, each after its HELP and TYPE."""
    told, known = [], set()
    assert data.endswith(b"\n")
    for line in data.decode("utf-8").split("\n")[:-1]:
        if line.startswith("# "):
            kind, name, rest = line[2:].split(" ", 2)
            assert kind in ("HELP", "TYPE") and (kind, name) not in known and (kind == "HELP" or rest == "gauge")
            known.add((kind, name))
            continue
        name, labels, value = SAMPLE.fullmatch(line).groups()
        assert {("HELP", name), ("TYPE", name)} <= known
        pairs = re.findall(r'([a-z]+)="((?:[^"\\]|\\.)*)"', labels)
        told.append((name, {key: re.sub(r"\\(.)", lambda it: {"n": "\n"}.get(it[1], it[1]), text) for key, text in pairs}, float(value)))
    return told


def test_metrics_are_read_back():
    done = alarm.judge(rows([*noise(30, 1), None, (0.0, 0.0, 60.0)]), until=START + timedelta(hours=40))
    told = read_metrics(metrics.metrics(done, done.alarms, 'a "b\\\nc'))
    values = {(name.removeprefix("baseline_series_"), labels.get("axis") or labels.get("kind")): value for name, labels, value in told}
    assert len(values) == len(told) and {labels["series"] for _, labels, _ in told} == {'a "b\\\\x0ac'}
    assert (values["sessions", None], values["fixed_sessions", None], values["last_session_fixed", None]) == (32, 31, 1)
    # 2024-01-02 07:00 GPS time is 18 s before that of UTC
    assert values["last_fix_timestamp_seconds", None] == 1704178800 - 18 == values["last_session_timestamp_seconds", None]
    for c, axis in enumerate(alarm.AXES):
        assert values["deviation_meters", axis] == pytest.approx(done.deviations_mm[31, c] / 1000)
        assert values["jump_limit_meters", axis] == pytest.approx(done.limits_mm[31, c] / 1000)
    assert {kind: values["alarms", kind] for kind in alarm.KINDS} == {"jump": 1, "creep": 0, "base": 0, "short": 0, "dead": 1}


def test_metrics_without_a_fix():
    """What isn't known has no line; a series without sessions has some all the same."""
    names = {name.removeprefix("baseline_series_") for name, _, _ in read_metrics(metrics.metrics(alarm.judge([]), [], "none"))}
    assert {"sessions", "alarms", "last_session_fixed"} <= names and not {"last_fix_timestamp_seconds", "deviation_meters"} & names


def test_metrics_are_whole(folder):
    """The file is replaced by a rename: who has the old one open reads it to its end."""
    target = folder.parent / "series.prom"
    series_of(folder, "--metrics", target)
    with open(target, "rb") as file:
        before, inode = file.read(10), os.stat(target).st_ino
        (folder / "20050402_1100.cert").write_bytes(session(PLACE, 11 / 24, 12))
        series_of(folder, "--metrics", target)
        old = before + file.read()
    read_metrics(old), read_metrics(target.read_bytes())
    assert os.stat(target).st_ino != inode and old != target.read_bytes()
    assert [it for it in os.listdir(folder.parent) if it.endswith(".part")] == []


# ---- the scripts of examples/

POINTS = ["P1", "-odd $(touch PWNED) 'name'"]


@pytest.fixture
def station(tmp_path):
    """A program whose `fix` gives the rover's file as the certificate, hours of uploads for it, and a state without rows."""
    program = tmp_path / "program"
    program.write_text("""#!/bin/sh
word=$1; [ "$word" = check ] && { cat >/dev/null; echo certified; exit; }
echo "$word $3" >>"$(dirname "$0")/calls"
case $(tail -n 1 -- "$3") in
    fixed) cat -- "$3"; exit 0;;
    declined*) cat -- "$3"; exit 1;;
    *) echo "refused: $3 line 7 column 1: bad field" >&2; exit 3;;
esac
""")
    program.chmod(0o755)
    survey = tmp_path / "survey"
    survey.write_text(f"""#!/bin/sh
PYTHONPATH='{HERE}' PYTHONDONTWRITEBYTECODE=1 exec '{sys.executable}' -m baseline_survey "$@"
""")
    survey.chmod(0o755)
    (tmp_path / "state").mkdir()
    (tmp_path / "state" / "POINTS").write_text("".join(name + "\n" for name in POINTS))
    for hour in range(6):
        made = tmp_path / "uploads" / f"20050402_{hour:02d}00"
        made.mkdir(parents=True)
        for k, name in enumerate(POINTS):
            (made / f"{name}.obs").write_bytes(session(PLACE + 100 * k, hour / 24, 10 * k + hour + 1))
        (made / "BASE.obs").write_bytes(b"base")
        (made / "brdc.nav").write_bytes(b"nav")
    return tmp_path


def monitor(station, *hours, **more):
    env = {**os.environ, "BASELINE": "./program", "SURVEY": "./survey", "SERIES": "--no-troposphere", "JOBS": "3", **more}
    words = ["sh", str(HERE / "examples" / "monitor.sh"), "uploads", "state", *hours]
    return subprocess.run(words, capture_output=True, cwd=station, env=env, timeout=600)


def test_from_uploads_to_the_alarm(station):
    hours = sorted(it.name for it in (station / "uploads").iterdir())
    (station / "uploads" / hours[3] / "P1.obs").write_bytes(b"declined few 0")
    (station / "uploads" / hours[4] / "P1.obs").write_bytes(b"half a file")
    ran = monitor(station, *hours[:5])
    assert ran.returncode == 0, ran
    assert ran.stdout.decode() == ("until 2005-04-02T04:00: 2 points, 0 with an alarm, 0 failed\n"
                                   f"hour {hours[4]} point P1: refused: P1.rover line 7 column 1: bad field\n")
    logs = {name: (station / "state" / "points" / name / "series.tsv").read_text().splitlines() for name in POINTS}
    assert [len(logs[name]) for name in POINTS] == [6, 7]
    assert {it.name for it in (station / "state" / "metrics").iterdir()} == {f"{name}.prom" for name in POINTS}
    assert not list(station.rglob("PWNED")) and not list(station.rglob("*.png"))
    # the next hour finds P1 silent for the third time, and does again only what has no answer
    os.remove(station / "uploads" / hours[5] / "P1.obs")
    (station / "calls").unlink()
    ran = monitor(station, *hours[4:])
    assert ran.returncode == 1 and ran.stdout.startswith(b"until 2005-04-02T05:00: 2 points, 1 with an alarm, 0 failed\n")
    assert b"\n\nseries P1: 4 sessions, 3 fixed, 0 new" in ran.stdout and ran.stdout == (station / "state" / "summary.txt").read_bytes()
    assert b"\nalarm dead since 2005-04-02 05:00: 2 sessions are missing, after 1 without a fix\n" in ran.stdout
    assert sorted((station / "calls").read_text().splitlines()) == ["fix ./-odd $(touch PWNED) 'name'.rover", "fix P1.rover"]
    assert [it.parent.name for it in station.rglob("*.png")] == ["P1"]
    # an acknowledged alarm doesn't count
    (station / "state" / "points" / "P1" / "since").write_text("2005-04-02T06:00\n")
    assert monitor(station, hours[5]).returncode == 0


def test_a_failure_is_told(station):
    """A series that can't be made is status 2 with its reason, also where an earlier run was good; so is an hour without files."""
    folder = station / "state" / "points" / "P1"
    folder.mkdir(parents=True)
    (folder / "series.tsv").write_text("something else\n")
    (folder / "status").write_text("0\n")
    (station / "state" / "POINTS").write_text("P1\n")
    ran = monitor(station, "20050402_0900", "20050402_0000")
    assert ran.returncode == 2, ran
    assert ran.stdout.startswith(b"until 2005-04-02T00:00: 1 points, 0 with an alarm, 1 failed\nhour 20050402_0900: no uploads\n\n"
                                 b"baseline-survey series: ")
    assert b"made by another version or with other settings" in ran.stdout
    (station / "state" / "POINTS").write_text("../x\n")
    assert monitor(station, "20050402_0000").returncode == 2 and not (station / "x").exists()


def test_a_run_that_fails_leaves_no_old_summary(station):
    """Before there is a summary of its own: what is mailed says why."""
    assert monitor(station, "20050402_0000").returncode == 0
    (station / "state" / "POINTS").write_text("")
    ran = monitor(station, "20050402_0000")
    assert ran.returncode == 2 and ran.stderr.startswith(b"monitor.sh: no names in /")
    assert (station / "state" / "summary.txt").read_bytes() == ran.stderr


def test_what_ran_no_fix_is_told(station):
    """A program that isn't there, and a cluster that doesn't answer."""
    (station / "state" / "POINTS").write_text("P1\n")
    ran = monitor(station, "20050402_0000", BASELINE="/none")
    assert b"\nhour 20050402_0000 point P1: no answer\nhour 20050402_0000: one: /none is not found; " in ran.stdout
    (station / "bin").mkdir()
    (station / "bin" / "sbatch").write_text("#!/bin/sh\necho 'sbatch: error: Unable to contact slurm controller' >&2; exit 1\n")
    (station / "bin" / "sbatch").chmod(0o755)
    ran = monitor(station, "20050402_0000", SLURM="1", PATH=f"{station}/bin:{os.environ['PATH']}")
    assert b"\nhour 20050402_0000: sbatch: error: Unable to contact slurm controller\n" in ran.stdout


def test_the_line_for_cron(station):
    """As cron calls it: with its short environment, in another folder; its output is the mail."""
    lines = (HERE / "examples" / "crontab").read_text().splitlines()
    env = {"PATH": "/usr/bin:/bin", "HOME": "/", **dict(it.split("=", 1) for it in lines if re.match("[A-Z]+=", it))}
    env.update(BASELINE=str(station / "program"), SURVEY=str(station / "survey"), SERIES="--no-troposphere")
    line = lines[-1].split(None, 6)[6].replace("\\%", "%")
    assert "%" not in lines[-1].replace("\\%", "")
    for there, here in (("/srv/baseline/survey", HERE), ("/srv/uploads", station / "uploads"), ("/srv/monitor", station / "state")):
        assert there in line
        line = line.replace(there, str(here))

    def mail():
        return subprocess.run(["sh", "-c", line], capture_output=True, cwd="/", env=env, timeout=600)
    ran = mail()  # hours without uploads, and so points that are dead
    assert ran.stdout == (station / "state" / "summary.txt").read_bytes() and b"2 with an alarm, 0 failed\nhour " in ran.stdout
    with open(station / "state" / "lock", "w") as lock:
        subprocess.run(["flock", "-n", str(lock.fileno())], pass_fds=[lock.fileno()], check=True)
        ran = mail()
    assert (ran.returncode, ran.stdout, ran.stderr) == (0, b"", b"")
    (station / "state" / "POINTS").unlink()
    assert b"\nmonitor.sh: no names in " in mail().stdout
    line = line.replace(str(station / "state"), "/none")
    assert mail().stdout == b"monitor.sh: UPLOADS or STATE is no folder\n"


def test_with_slurm(station):
    """The baselines go to a job array, here of a stand-in for sbatch that runs the tasks one by one."""
    (station / "bin").mkdir()
    sbatch = station / "bin" / "sbatch"
    sbatch.write_text("""#!/bin/sh
echo "$*" >>"$STATION/calls"
[ "$1 $2" = "--quiet --wait" ] || exit 1
tasks=${3#--array=1-}
shift 3
for task in $(seq "${tasks%\\%*}"); do SLURM_ARRAY_TASK_ID=$task sh "$@" || s=1; done
exit ${s:-0}
""")
    sbatch.chmod(0o755)
    hour = station / "uploads" / "20050402_0000"
    for name in ("P3", "P4"):
        (hour / f"{name}.obs").write_bytes((hour / "P1.obs").read_bytes())
    (station / "state" / "POINTS").write_text("P1\nP3\nP4\n")
    ran = monitor(station, hour.name, SLURM="2", SURVEY="true", STATION=str(station), PATH=f"{station}/bin:{os.environ['PATH']}")
    assert ran.returncode == 0 and len(list((station / "state" / "points").rglob("*.cert"))) == 3, ran
    calls = (station / "calls").read_text().splitlines()
    assert calls[0].endswith("/recipes/array.sbatch AGAIN 2") and "--array=1-2%3 " in calls[0]
    assert sorted(calls[1:]) == ["fix P1.rover", "fix P3.rover", "fix P4.rover"]


def test_one_monitor_at_a_time(station):
    with open(station / "state" / "lock", "w") as lock:
        subprocess.run(["flock", "-n", str(lock.fileno())], pass_fds=[lock.fileno()], check=True)
        ran = monitor(station, "20050402_0000")
    assert ran.returncode == 75 and b"another run holds" in ran.stderr and not (station / "state" / "hours").exists()


def test_the_examples_hold():
    """What systemd and the shell say of the examples, where they are there."""
    folder = HERE / "examples"
    for script in ("monitor.sh", "point.sh"):
        assert subprocess.run(["sh", "-n", folder / script]).returncode == 0
    if shutil.which("systemd-analyze"):
        for unit in ("baseline-monitor.timer", "baseline-monitor.service", "baseline-alarm.service"):
            ran = subprocess.run(["systemd-analyze", "verify", "--man=no", folder / unit], capture_output=True, text=True)
            assert ran.returncode == 0 and unit not in ran.stderr, ran.stderr
