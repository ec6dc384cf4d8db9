"""Networks: what is adjusted against truth and against a dense solution, sessions, loops, lists, exports."""
import json
import os
import shlex
import time
import tracemalloc
from datetime import datetime, timedelta
from xml.etree import ElementTree

import numpy as np
import pytest
from made import BASE
from seeded import seeded
from sessions import HOSTILE, session, stand_in
from test_cli import refused, run

from baseline_survey import exports, lines, loops, network
from baseline_survey.errors import SurveyError

START = datetime(2024, 1, 1)
HOLD = ("--hold", "A", *(f"{x:.4f}" for x in BASE))
PLACES = {"A": np.array(BASE), "B": np.array(BASE) + [500.0, -200.0, 300.0], "C": np.array(BASE) + [-100.0, 400.0, 600.0]}


@pytest.fixture(autouse=True)
def program(tmp_path_factory, monkeypatch):
    """The folder of a program that calls each certificate certified."""
    folder = tmp_path_factory.mktemp("program")
    monkeypatch.setenv("BASELINE", os.fspath(stand_in(folder)))
    return folder


def line(start, end, vector, covariance=None, hours=0.0, minutes=15, base=BASE, system="G"):
    first = START + timedelta(hours=hours)
    covariance = 4e-6 * np.eye(3) if covariance is None else covariance
    return lines.Line(start, end, np.asarray(vector, float), covariance, first, first + timedelta(minutes=minutes),
                      np.asarray(base, float), system, f"{start}{end}.cert", "both")


def some_network(seed, stations, count):
    """Lines between random stations, each of its own hour, with errors of their covariance; the first station is held."""
    dice = np.random.default_rng(seed)
    places = {f"P{k}": np.array(BASE) + dice.normal(0, 3000, 3) for k in range(stations)}
    names, made = list(places), []
    for k in range(count):
        a, b = (names[dice.integers(0, k + 1)],
                names[k + 1]) if k < stations - 1 else (names[it] for it in dice.choice(stations, 2, replace=False))
        root = 0.002 * np.tril(dice.normal(0, 1, (3, 3))) + 0.001 * np.eye(3)
        covariance = root @ root.T + 1e-7 * np.eye(3)
        made.append(line(a, b, places[b] - places[a] + np.linalg.cholesky(covariance) @ dice.normal(0, 1, 3), covariance, k,
                         base=places[a]))
    return places, made


def dense(observed, held, names):
    """The same adjustment without sparse matrices, by the plain normal equations."""
    at, n = {name: 3 * k for k, name in enumerate(names)}, 3 * len(observed)
    design, right, weight = np.zeros((n, 3 * len(names))), np.zeros(n), np.zeros((n, n))
    for k, it in enumerate(observed):
        part = slice(3 * k, 3 * k + 3)
        right[part], weight[part, part] = it.vector, np.linalg.inv(it.covariance)
        for name, sign in ((it.start, -1), (it.end, 1)):
            if name in held:
                right[part] -= sign * held[name]
            else:
                design[part, at[name]:at[name] + 3] = sign * np.eye(3)
    inverse = np.linalg.inv(design.T @ weight @ design)
    solution = inverse @ design.T @ weight @ right
    left = design @ solution - right
    return solution, inverse, float(left @ weight @ left)


@pytest.mark.parametrize("seed", range(15))
def test_sparse_is_dense(seed):
    stations, more = 2 + seed * 7 % 11, seed * 5 % 21
    places, made = some_network(seed, stations, stations - 1 + more)
    held = {"P0": places["P0"]}
    done = network.adjust(made, held, full=True)
    solution, inverse, chi = dense(made, held, done.stations)
    assert np.concatenate([done.places[it] for it in done.stations]) == pytest.approx(solution, abs=1e-6)
    assert done.full == pytest.approx(inverse, rel=1e-6, abs=1e-15)
    for k, name in enumerate(done.stations):
        assert done.blocks[name] == pytest.approx(inverse[3 * k:3 * k + 3, 3 * k:3 * k + 3], rel=1e-6, abs=1e-15)
    assert done.chi_square == pytest.approx(chi, rel=1e-4, abs=1e-4) and done.redundancy == 3 * more
    assert sum(it.redundancy for it in done.residuals) == pytest.approx(done.redundancy, abs=1e-6)
    assert len(done.loops) == more and not done.sessions


def test_statistics_of_a_large_network():
    """Chi square lies in its limits, and the errors of the stations are as their covariances say."""
    places, made = some_network(7, 120, 400)
    done = network.adjust(made, {"P0": places["P0"]})
    low, high = done.limits(0.999)
    assert low < done.chi_square < high
    squares = [float(error @ np.linalg.solve(done.blocks[name],
                                             error)) for name in done.stations for error in [done.places[name] - places[name]]]
    assert np.mean(squares) == pytest.approx(3, abs=1)


def test_a_wrong_line_stands_out():
    places, made = some_network(3, 10, 30)
    made[20] = line(made[20].start, made[20].end, made[20].vector + [0, 0, 0.2], made[20].covariance, 20)
    done = network.adjust(made, {"P0": places["P0"]})
    worst = max(done.residuals, key=lambda it: it.test)
    assert worst.line is made[20] and worst.test > done.greatest_test
    assert done.chi_square > done.limits()[1]


def test_nothing_stands_out_without_a_mistake():
    """The limit goes by the number of lines: of networks of 120 lines one in a hundred has a residual beyond it."""
    made = [some_network(seed, 40, 120) for seed in range(30)]
    done = [network.adjust(observed, {"P0": places["P0"]}) for places, observed in made]
    assert sum(max(it.test for it in one.residuals) > one.greatest_test for one in done) <= 2


def test_held_and_joined():
    made = [line("A", "B", [1, 2, 3]), line("C", "D", [1, 2, 3])]
    with pytest.raises(SurveyError, match="no line leads to a held station from C, D"):
        network.adjust(made, {"A": BASE})
    with pytest.raises(SurveyError, match="held station X is on no line"):
        network.adjust(made, {"X": BASE})
    with pytest.raises(SurveyError, match="every station is held"):
        network.adjust(made[:1], {"A": BASE, "B": BASE})
    with pytest.raises(SurveyError, match="positive definite"):
        network.adjust([line("A", "B", [1, 2, 3], np.zeros((3, 3)))], {"A": BASE})
    done = network.adjust(made[:1], {})
    assert done.places["B"] == pytest.approx(np.array(BASE) + [1, 2, 3]) and "A stands at its file's header" in done.note
    assert done.sigma0 is None and done.scale == 1


def test_sessions_and_loops():
    """Three lines of one time close whatever is wrong; the same triangle on three days is a test."""
    wrong = {("A", "B"): [1.0, 2.0, 3.0], ("A", "C"): [2.0, 0.0, 1.0], ("B", "C"): [1.0, -2.0, -2.0]}
    same = [line(*ends, vector) for ends, vector in wrong.items()]
    done = network.adjust(same, {"A": BASE})
    assert (done.redundancy, done.independent_redundancy, done.sigma0) == (3, 0, None)
    assert [it.dependent for it in done.sessions] == [[2]] and done.loops[0].is_one_session
    days = [line(*ends, vector, hours=24 * k) for k, (ends, vector) in enumerate(wrong.items())]
    done = network.adjust(days, {"A": BASE})
    assert done.independent_redundancy == 3 and not done.sessions and not done.loops[0].is_one_session


@seeded(40)
def test_lines_that_follow_from_others(dice):
    """By all earlier lines of the same time, one after the other."""
    some = [line(*dice.sample("ABCDEF", 2), np.ones(3), hours=dice.choice((0, 0, 0, 0.1, 0.2, 0.5)), minutes=dice.choice((15, 15, 30, 0)))
            for _ in range(dice.randrange(2, 15))]
    some.sort(key=lambda it: it.first)
    expected = []
    for k, it in enumerate(some):
        parts = loops.Parts()
        for other in some[:k]:
            if loops._overlap(other, it):
                parts.join(other.start, other.end)
        expected += [k] if parts.root(it.start) == parts.root(it.end) else []
    assert loops._dependent(some, range(len(some))) == expected


def test_many_lines_of_one_session(monkeypatch):
    """Each line isn't compared with each other: of 10,000 that took minutes."""
    places, observed = some_network(3, 400, 1200)
    at_once = [line(it.start, it.end, it.vector) for it in observed]
    calls, overlap = [], loops._overlap
    monkeypatch.setattr(loops, "_overlap", lambda one, other: calls.append(1) or overlap(one, other))
    (session,) = loops.sessions(at_once)
    assert len(session.dependent) == 1200 - 399 and len(calls) < 4 * 1200


def test_what_is_of_one_session():
    """A short session within a long one is of its time; one that only touches it isn't."""
    near = [line("A", "B", [1, 2, 3], minutes=60), line("A", "B", [1, 2, 3], hours=0.5, minutes=15),
            line("A", "B", [1, 2, 3], hours=0.99, minutes=60)]
    assert [(it.lines, it.dependent, it.repeated) for it in loops.sessions(near)] == [([0, 1], [1], [[0, 1]])]
    # two short sessions within a long one aren't of one time with each other
    day = [line("A", "B", [1, 2, 3], minutes=1440), line("A", "C", [1, 0, 0], hours=1), line("C", "A", [-1, 0, 0], hours=5)]
    assert [(it.lines, it.dependent, it.repeated) for it in loops.sessions(day)] == [([0, 1, 2], [], [[1, 2]])]
    # two pairs of stations of one time have nothing in common
    assert loops.sessions([line("A", "B", [1, 2, 3]), line("C", "D", [1, 2, 3])]) == []


def test_a_loop_is_short_and_closed():
    made = [line("A", "B", [1, 0, 0]), line("B", "C", [1, 0, 0], hours=1), line("C", "D", [1, 0, 0], hours=2),
            line("D", "A", [-3, 0, 0.001], hours=3),
             line("A", "B", [1.002, 0, 0], hours=4)]
    done = network.adjust(made, {"A": BASE})
    assert sorted(len(it.lines) for it in done.loops) == [2, 4]
    for loop in done.loops:
        assert sum(sign * np.array(made[k].vector) for k,
                   sign in loop.lines) @ [1, 1, 1] == pytest.approx(0.002 if len(loop.lines) == 2 else 0.001, rel=0.01)


@pytest.mark.parametrize("text, told", [
    ("A B c.cert", [("A", "B", "c.cert", None, None)]), ("# all\n\nA B c # end\n", [("A", "B", "c", None, None)]),
    ('"St 1" \'it"s\' c\\ d', [("St 1", 'it"s', "c d", None, None)]), ("A 'two\nlines' c", [("A", "two\nlines", "c", None, None)]),
    ("A B c b.obs r.obs\n", [("A", "B", "c", "b.obs", "r.obs")]), ("A B\tc\r\n", [("A", "B", "c", None, None)])])
def test_lists(text, told):
    assert lines.read_list(text) == [lines.Entry(*it) for it in told]


@pytest.mark.parametrize("text, part", [("", "no lines"), ("A B", "L: line 1: FROM TO CERT"), ("\nA B c d", "line 2"),
                                        ("A A c", "to itself"), ("A 'B c\n", "line 1: a quote")])
def test_lists_that_are_none(text, part):
    with pytest.raises(SurveyError, match=part):
        lines.read_list(text, "L")


@seeded(300)
def test_a_list_is_read_as_by_shlex(dice):
    """Quotes, backslashes, comments and line ends in any order: the words are those of shlex for the whole text, line by line."""
    text = "".join(dice.choices("ab \n'\"\\#", k=dice.randint(0, 30)))
    try:
        told = [words for _, words in lines._spelled(text, "L")]
    except SurveyError:
        with pytest.raises(ValueError):
            shlex.split(text, comments=True)
        return
    assert [word for words in told for word in words] == shlex.split(text, comments=True)


def test_an_apostrophe_in_a_long_list():
    """A quote that nothing closes is told in the time that it takes to read the list, not in the square of it."""
    begin = time.process_time()
    with pytest.raises(SurveyError, match="line 1: a quote isn't closed"):
        lines.read_list("O'Brien B c.cert\n" + "A B c.cert\n" * 10_000, "L")
    assert time.process_time() - begin < 5


# ---- from certificates to exports


@pytest.fixture
def triangle(tmp_path):
    """A triangle of made certificates on three days."""
    for k, (a, b) in enumerate((("A", "B"), ("A", "C"), ("B", "C"))):
        (tmp_path / f"{a}{b}.cert").write_bytes(session(PLACES[b] - PLACES[a], k, k + 1, noise_m=0.002, base=PLACES[a]))
    (tmp_path / "LIST").write_text("A B AB.cert\nA C AC.cert\nB C BC.cert\n")
    return tmp_path


def test_a_triangle(triangle):
    ran = run("network", triangle / "LIST", *HOLD, "--no-troposphere", "--json")
    assert ran.returncode == 0, ran
    data = json.loads(ran.stdout)
    for point in data["points"]:
        assert point["position_m"] == pytest.approx(PLACES[point["name"]], abs=0.004)
    assert data["redundancy"] == data["independent_redundancy"] == 3 and 0.1 < data["sigma0"] < 2.5 and len(data["loops"]) == 1
    text = run("network", triangle / "LIST", *HOLD, "--no-troposphere").stdout.decode()
    assert "\npoint" in text and "held A -3978242.4348" in text and "note 3 of 3 lines go from antenna to antenna" in text


def test_each_certificate_is_checked(triangle, program):
    """One that isn't certified is no line, whatever adjusts it; the check reads the bytes that are adjusted."""
    words = ("network", triangle / "LIST", *HOLD, "--no-troposphere")
    assert run(*words).returncode == 0
    assert [json.loads(it) for it in (program / "words").read_text().splitlines()] == 3 * [["check", "--", "/dev/stdin"]]
    (program / "check").write_bytes(b"not certified unseparated\n")
    refused(run(*words), "AB.cert: not certified unseparated")
    assert run(*words, "--unchecked").returncode == 0
    refused(run(*words, "--program", triangle / "none"), "no program")


def test_one_session_is_told(triangle):
    (triangle / "BC.cert").write_bytes(session(PLACES["C"] - PLACES["B"], 1, 9, base=PLACES["B"]))
    (triangle / "AB.cert").write_bytes(session(PLACES["B"] - PLACES["A"], 1, 8, base=PLACES["A"]))
    ran = run("network", triangle / "LIST", *HOLD, "--no-troposphere")
    assert ran.returncode == 1 and b"3 lines of 3 stations: 1 follow from the others and control nothing" in ran.stdout
    assert b"one session: closes whatever is wrong" in ran.stdout and b"look nothing independent controls the network" in ran.stdout


def test_gps_and_galileo_are_one_line(triangle):
    """Both systems of one session see the same set-up: two lines that close, and nothing that is controlled."""
    for k, system in enumerate("GE"):
        cert = session(PLACES["B"] - PLACES["A"], 1, k + 1, noise_m=0.002, base=PLACES["A"], system=system)
        (triangle / f"{system}.cert").write_bytes(cert)
    (triangle / "LIST").write_text("A B G.cert\nB A E.cert\n")
    ran = run("network", triangle / "LIST", *HOLD, "--no-troposphere")
    assert ran.returncode == 1 and b"nothing independent controls the network" in ran.stdout
    assert b"\n  lines 1 2 are one line 2 times, from A to B (GPS and Galileo of one session)\n" in ran.stdout
    data = json.loads(run("network", triangle / "LIST", *HOLD, "--no-troposphere", "--json").stdout)
    assert [it["repeated"] for it in data["sessions"]] == [[[1, 2]]] and [it["system"] for it in data["residuals"]] == ["G", "E"]


SPACE = "{http://www.gnu.org/software/gama/gama-local}"


def adjusted_gama(data):
    """A second reader of a file for Gama: its vectors, adjusted without sparse matrices; X Y Z (m) and their covariances
    (m^2) of each station that isn't held, by its name."""
    root = ElementTree.fromstring(data)
    assert root.tag == SPACE + "gama-local" and root.find(f".//{SPACE}parameters").get("sigma-apr") == "1"
    points = {it.get("id"): (np.array([float(it.get(axis)) for axis in "xyz"]), it.get("fix")) for it in root.iter(SPACE + "point")}
    held = {name: place for name, (place, fix) in points.items() if fix == "xyz"}
    free = [name for name in points if name not in held]
    observed = []
    for part in root.iter(SPACE + "vectors"):
        vector, matrix = part.find(SPACE + "vec"), part.find(SPACE + "cov-mat")
        assert (matrix.get("dim"), matrix.get("band")) == ("3", "2")
        covariance = np.zeros((3, 3))
        covariance[np.triu_indices(3)] = [float(x) for x in matrix.text.split()]
        covariance = covariance + np.triu(covariance, 1).T
        observed.append(line(vector.get("from"), vector.get("to"), [float(vector.get(f"d{axis}")) for axis in "xyz"], covariance / 1e6))
    solution, inverse, _ = dense(observed, held, free)
    return {name: (solution[k:k + 3], inverse[k:k + 3, k:k + 3]) for name, k in zip(free, range(0, 3 * len(free), 3))}


def read_sinex(data):
    """A second reader of SINEX, by the columns of its description: of each station X Y Z (m), standard deviations (m) and the
    blocks' lines; and the whole covariance (m^2)."""
    text = data.decode("ascii").split("\n")
    assert text[0][:11] == "%=SNX 2.02 " and text[-2:] == ["%ENDSNX", ""] and all(len(it) <= 80 for it in text)
    blocks, title = {}, None
    for it in text:
        if it[:1] in "+-" and it:
            assert (title is None) == (it[0] == "+") and title in (None, it[1:])
            title = it[1:] if it[0] == "+" else None
            blocks.setdefault(it[1:], [])
        elif title and it[0] == " ":
            blocks[title].append(it)
    assert title is None
    estimates = blocks["SOLUTION/ESTIMATE"]
    assert [int(it[1:6]) for it in estimates] == list(range(1, len(estimates) + 1)) and int(text[0][60:65]) == len(estimates)
    assert [it[7:13] for it in estimates[:3]] == ["STAX  ", "STAY  ", "STAZ  "] and {it[40:44] for it in estimates} == {"m   "}
    places, deviations = {}, {}
    for it in estimates:
        places.setdefault(it[14:18], []).append(float(it[47:68]))
        deviations.setdefault(it[14:18], []).append(float(it[69:80]))
    whole = np.zeros((len(estimates),) * 2)
    for it in blocks["SOLUTION/MATRIX_ESTIMATE L COVA"]:
        row, column = int(it[1:6]), int(it[7:12])
        for k, value in enumerate(it[13:].split()):
            whole[row - 1, column - 1 + k] = whole[column - 1 + k, row - 1] = float(value)
    return places, deviations, whole, blocks


def test_gama_is_read_back(triangle):
    ran = run("network", triangle / "LIST", *HOLD, "--no-troposphere", "--gama", triangle / "out.xml", "--json")
    data, again = json.loads(ran.stdout), adjusted_gama((triangle / "out.xml").read_bytes())
    assert set(again) == {"B", "C"}
    for point in data["points"]:
        place, covariance = again[point["name"]]
        assert place == pytest.approx(point["position_m"], abs=2e-5)
        assert 1e6 * data["scale"]**2 * covariance == pytest.approx(np.array(point["covariance_mm2"]), rel=1e-5, abs=1e-6)


def test_sinex_is_read_back(triangle):
    ran = run("network", triangle / "LIST", *HOLD, "--no-troposphere", "--sinex", triangle / "out.snx", "--json")
    data = json.loads(ran.stdout)
    places, deviations, whole, blocks = read_sinex((triangle / "out.snx").read_bytes())
    assert list(places) == ["S001", "S002", "S003"] and np.all(np.linalg.eigvalsh(whole) > 0)
    assert blocks["FILE/COMMENT"][:3] == [" S001 A", " S002 B", " S003 C"] and len(blocks["SITE/ID"]) == 3
    assert places["S001"] == pytest.approx(BASE, abs=1e-6)
    for k, point in enumerate(data["points"], 1):
        part = slice(3 * k, 3 * k + 3)
        assert places[f"S00{k + 1}"] == pytest.approx(point["position_m"], abs=1e-5)
        assert 1e6 * whole[part, part] == pytest.approx(np.array(point["covariance_mm2"]), rel=1e-9)
        assert deviations[f"S00{k + 1}"] == pytest.approx(np.sqrt(np.diag(whole[part, part])), rel=1e-4)


def test_sinex_has_the_whole_covariance():
    places, made = some_network(5, 4, 7)
    done = network.adjust(made, {"P0": places["P0"]}, full=True)
    _, _, whole, _ = read_sinex(exports.sinex(done, now=datetime(2024, 1, 2)))
    assert whole[3:, 3:] == pytest.approx(done.scale**2 * done.full, rel=1e-9) and np.all(np.linalg.eigvalsh(whole) > 0)


def test_codes_have_four_letters():
    given = exports.codes(["S002", "a", "b", *map(str, range(3000))])
    assert given["S002"] == "S002" and given["a"] == "S001" and given["b"] == "S003"
    assert len(set(given.values())) == 3003 and all(len(it) == 4 for it in given.values())


def test_hostile_station_names():
    """Names of any kind stay data: in XML and in SINEX, and a second reader finds each once."""
    made = [line("A", name, [100.0 + k, 2, 3], hours=k) for k, name in enumerate(HOSTILE)]
    done = network.adjust([*made, line(HOSTILE[0], HOSTILE[1], [1, 0, 0], hours=99)], {"A": BASE}, full=True)
    again = adjusted_gama(exports.gama(done))
    assert len(again) == len(HOSTILE) and "two words" in again and "<script>alert(1)</script>" in again
    places, _, _, _ = read_sinex(exports.sinex(done))
    assert len(places) == len(HOSTILE) + 1
    assert all(byte == 10 or 32 <= byte < 127 for byte in exports.sinex(done))
    assert not any(byte in exports.gama(done) for byte in b"\x1b\r\t")


def test_hostile_names_on_the_command_line(tmp_path):
    for k, name in enumerate(HOSTILE):
        (tmp_path / f"{name.replace('/', '_')}.cert").write_bytes(session([100.0 + k, 2, 3], k, k + 1))
    (tmp_path / "LIST").write_text("".join(f"A {shlex.quote(name)} {shlex.quote(name.replace('/', '_') + '.cert')}\n" for name in HOSTILE),
                                   encoding="utf-8")
    ran = run("network", "LIST", *HOLD, "--gama", "--odd=name.xml", "--no-troposphere", cwd=tmp_path)
    assert ran.returncode == 2  # an option's value that begins with a dash wants =
    ran = run("network", "LIST", *HOLD, "--gama=--odd=name.xml", "--no-troposphere", cwd=tmp_path)
    assert ran.returncode == 1, ran.stderr  # nothing is controlled
    assert all(byte == 10 or byte >= 32 for byte in ran.stdout) and b"\x1b" not in ran.stdout
    assert ran.stdout.count(b"\nresidual") == 1 and (tmp_path / "--odd=name.xml").is_file() and not (tmp_path / "PWNED").exists()


def test_marks_by_headers(examples, tmp_path):
    """With the files of observations the vector goes to the marks; a file of another session is refused."""
    base = (examples / "g2_quarter_base.rnx").read_text()
    high = (examples / "g2_quarter_rover.rnx").read_text().replace("        0.0000        0.0000        0.0000                  ANTENNA",
                                                                   "        1.5000        0.0000        0.0000                  ANTENNA")
    for name, text in (("base", base), ("high", high), ("v.cert", (examples / "g2_quarter.cert").read_text()), ("L3", "A B v.cert"),
                       ("L5", "A B v.cert base high"),
                       ("BAD", "A B v.cert high base")):
        (tmp_path / name).write_text(text)
    low, marks = (json.loads(run("network", tmp_path / it, "--json").stdout)["points"][0]["lon_lat_deg_height_m"] for it in ("L3", "L5"))
    assert low[2] - marks[2] == pytest.approx(1.5, abs=1e-4) and low[:2] == pytest.approx(marks[:2], abs=1e-9)
    refused(run("network", tmp_path / "BAD"), "high", "another base")


def test_bad_input(triangle):
    for text, parts in (("A B none.cert\n", ["none.cert", "No such file"]), ("A B LIST\n", ["LIST", "no certificate"]),
                        ("A B\n", ["line 1"])):
        (triangle / "L").write_text(text)
        refused(run("network", triangle / "L", "--gama", triangle / "x.xml"), *parts)
    (triangle / "AB.cert").write_bytes((triangle / "AB.cert").read_bytes().replace(b"\nfixed\n", b"\ndeclined unseparated\n"))
    refused(run("network", triangle / "LIST", *HOLD), "AB.cert", "declined unseparated")
    refused(run("network", triangle / "LIST", "--hold", "A", "1", "2", "x"), "--hold A")
    refused(run("network", triangle / "LIST", "--hold", "A", "0", "0", "0"), "--hold A isn't on the Earth")
    refused(run("network", triangle / "LIST", *HOLD, *HOLD), "--hold A: held twice")
    refused(run("network", triangle / "LIST", "--scale", "0"), "--scale")
    assert not (triangle / "x.xml").exists()

def test_both_exports_or_none(triangle):
    more = ("--no-troposphere", "--gama", triangle / "x.xml", "--sinex")
    refused(run("network", triangle / "LIST", *HOLD, *more, triangle / "none" / "x.snx"), "none/x.snx")
    assert not (triangle / "x.xml").exists()
    assert run("network", triangle / "LIST", *HOLD, *more, triangle / "x.snx").returncode == 0 and (triangle / "x.xml").exists()


def test_a_long_chain():
    """Of lines that nothing controls the places are the sums."""
    dice = np.random.default_rng(8)
    vectors = dice.normal(600, 400, (1500, 3))
    roots = 0.002 * np.tril(dice.normal(0, 1, (1500, 3, 3))) + 0.001 * np.eye(3)
    observed = [line(f"C{k:04}", f"C{k + 1:04}", vectors[k], roots[k] @ roots[k].T + 1e-7 * np.eye(3)) for k in range(1500)]
    done = network.adjust(observed, {"C0000": np.array(BASE)})
    sums = np.array(BASE) + np.cumsum(vectors, axis=0)
    assert max(float(np.abs(done.places[f"C{k + 1:04}"] - sums[k]).max()) for k in range(1500)) < 1e-6


def test_a_thousand_lines():
    """The adjustment alone takes a small part of the ten seconds; bench/network_lines measures all of it."""
    places, made = some_network(1, 400, 1000)
    begin = time.process_time()
    done = network.adjust(made, {"P0": places["P0"]}, full=True)
    assert time.process_time() - begin < 8 and len(done.residuals) == 1000
    error = [np.linalg.norm(done.places[name] - places[name]) for name in done.stations]
    assert max(error) < 0.02


def test_memory_follows_the_lines():
    """Of the inverse of the normal matrix nothing is kept but the blocks: the whole of it grows with the square of the stations, as
    7 GB of a chain of 10,000."""
    places, observed = some_network(4, 700, 720)
    tracemalloc.start()
    try:
        done = network.adjust(observed, {"P0": places["P0"]})
        kept, _ = tracemalloc.get_traced_memory()
    finally:
        tracemalloc.stop()
    assert len(done.blocks) == 699 and kept < 8_000_000  # the whole inverse has 35 MB


def test_many_lines_are_read_by_several_processes(triangle, program):
    (triangle / "MANY").write_text("".join(f"A P{k} AB.cert\n" for k in range(lines.MANY + 3)))
    data = json.loads(run("network", triangle / "MANY", *HOLD, "--no-troposphere", "--json").stdout)
    assert [it["to"] for it in data["residuals"]] == [f"P{k}" for k in range(lines.MANY + 3)]
    assert len((program / "words").read_text().splitlines()) == lines.MANY + 3  # each was checked
    (triangle / "MANY").write_text("".join(f"A P{k} {'none' if k == 20 else 'AB'}.cert\n" for k in range(lines.MANY + 3)))
    refused(run("network", triangle / "MANY", *HOLD), "none.cert")


def test_the_settings_go_to_each_line(triangle):
    both, free = (json.loads(run("network", triangle / "LIST", *HOLD, "--no-troposphere", "--combination", it,
                                 "--json").stdout) for it in ("both", "ionosphere-free"))
    assert both["points"][0]["sd_enu_mm"][0] < free["points"][0]["sd_enu_mm"][0]
    more = json.loads(run("network", triangle / "LIST", *HOLD, "--no-troposphere", "--plus", "5", "--scale", "2", "--json").stdout)
    assert more["points"][0]["sd_enu_mm"][0] > 3 and os.path.exists(triangle / "LIST")


def test_each_line_has_its_combination(triangle):
    """By the rule a long line goes without the ionosphere and short ones don't; a word that is asked for counts for all."""
    (triangle / "AD.cert").write_bytes(session([9000.0, -5000.0, 6000.0], 3, 4, noise_m=0.002, base=BASE))
    with open(triangle / "LIST", "a") as file:
        file.write("A D AD.cert\n")
    told = {words: run("network", triangle / "LIST", *HOLD, "--no-troposphere", "--json",
                       *words) for words in ((), ("--combination", "narrow"))}
    taken = {words: [it["combination"] for it in json.loads(ran.stdout)["residuals"]] for words, ran in told.items()}
    assert list(taken.values()) == [["both", "both", "both", "ionosphere-free"], ["narrow"] * 4]
    assert b"\ncombination both 3 ionosphere-free 1\n" in run("network", triangle / "LIST", *HOLD, "--no-troposphere").stdout


def test_corrected_files_in_a_list(examples, tmp_path):
    """Lines of one base, one with corrected files: each has its own settings; one corrected file beside another is refused."""
    from baseline_survey import orbits, rinex
    navigation = orbits.read_navigation(examples / "geonet.nav")
    for name in ("base", "rover"):
        data = (examples / f"g2_quarter_{name}.rnx").read_bytes()
        (tmp_path / name).write_bytes(data)
        (tmp_path / f"{name}.c").write_bytes(rinex.correct(data, navigation)[0])
    (tmp_path / "v.cert").write_bytes((examples / "g2_quarter.cert").read_bytes())
    (tmp_path / "LIST").write_text("A B v.cert base rover\nA C v.cert base.c rover.c\n")
    b, c = json.loads(run("network", tmp_path / "LIST", "--json").stdout)["points"]
    plain = json.loads(run("network", tmp_path / "LIST", "--json", "--no-troposphere").stdout)["points"]
    assert c["position_m"] == plain[1]["position_m"] and b["position_m"] != plain[0]["position_m"]
    (tmp_path / "LIST").write_text("A B v.cert base.c rover\n")
    refused(run("network", tmp_path / "LIST"), "one of both files was made by `correct`")
