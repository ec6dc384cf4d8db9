"""The report: one page that stands alone, says what applies to its observation, and shows others' names as names."""
import html.parser
import json
import os
import re
import shutil
import threading
from datetime import datetime

import pytest
from sessions import HOSTILE, stand_in
from test_cli import refused, run

from baseline_survey import report
from baseline_survey.adjust import Settings
from baseline_survey.errors import SurveyError

NAMES = ("g2_quarter.cert", "g2_quarter_base.rnx", "g2_quarter_rover.rnx", "geonet.nav")


class Page(html.parser.HTMLParser):
    """The tags, the texts and the references of a page; asserts that its tags close in order."""

    VOID = {"meta", "br", "link", "img", "input"}

    def __init__(self, text):
        super().__init__()
        self.tags, self.open, self.texts, self.references = [], [], [], []
        self.feed(text)
        self.close()
        assert not self.open

    def handle_starttag(self, tag, attributes):
        self.tags.append(tag)
        self.references += [value for name, value in attributes if name in ("src", "href", "xlink:href", "action", "data")]
        if tag not in self.VOID:
            self.open.append(tag)

    def handle_startendtag(self, tag, attributes):
        self.tags.append(tag)
        self.references += [value for name, value in attributes if name in ("src", "href", "xlink:href")]

    def handle_endtag(self, tag):
        assert self.open.pop() == tag

    def handle_data(self, data):
        self.texts.append(data)

    @property
    def text(self):
        return re.sub(r"\s+", " ", " ".join(self.texts))


@pytest.fixture
def files(examples):
    return [(examples / name).read_bytes() for name in NAMES]


@pytest.fixture
def no_pictures(monkeypatch):
    """Pictures take a second each: tests that don't look at them have none."""
    monkeypatch.setattr(report.pictures, "as_svg", lambda draw, name: f'<svg id="{name}"></svg>')


def made(files, names=NAMES, settings=Settings(), verdicts=report.Verdicts(), **more):
    return report.build(report.Input(*files, tuple(map(str, names))), verdicts, lambda *_: settings, **more)


def head_changed(data, label, content):
    """An observation file with another line of its header."""
    text = data.decode("latin-1").split("\n")
    at = next(k for k, line in enumerate(text) if line[60:80].rstrip() == label)
    text[at] = f"{content:<60}{label}"
    return "\n".join(text).encode("latin-1")


def test_the_page(files):
    done = made(files, verdicts=report.Verdicts("certified", True, ["--mask", "200"], "ab" * 32))
    data = report.html(done, datetime(2026, 1, 2, 3, 4))
    page = Page(data.decode())
    for part in ("3040 to 0759", "2005-04-02 00:00:00 to 2005-04-02 00:14:30", "TRM29659.00", "asked 2.0, reached 13.6", "certified",
                 "30 pairs", "lies within 0.03 mm of the certificate's, before fix rounds it to 0.1 mm",
                 "C1C L1C, C2W L2W", "G07 (0 to 29, datum)", "12 integers",
                 "baseline fix g2_quarter_base.rnx g2_quarter_rover.rnx geonet.nav --mask 200",
                 "35° 07′ 55.4", "Printed 2026-01-02 03:04", "ab" * 32, "gives the same bytes from these three files"):
        assert part in page.text, part
    # pictures are in the page, and nothing is loaded
    assert page.tags.count("svg") == 3 and not {"script", "img", "link", "iframe", "object"} & set(page.tags)
    assert page.references and all(it.startswith("#") for it in page.references)
    assert not re.search(r"url\((?!#)", data.decode()) and "@import" not in data.decode()
    ids = re.findall(r'\bid="([^"]*)"', data.decode())
    assert len(ids) == len(set(ids)) and {it[1:] for it in page.references} <= set(ids)
    assert report.html(done, datetime(2026, 1, 2, 3, 4)) == data


def test_what_to_keep_in_mind(files, no_pictures):
    """Each caveat stands only where it applies."""
    others = ("antennas differ", "corrected", "minutes:", "in height. The vector")
    assert not [it for it in made(files).caveats if any(part in it for part in others)]
    cert, base, rover, nav = files
    other = head_changed(rover, "ANT # / TYPE", " " * 20 + "LEIAT504        LEIS")
    assert any("The antennas differ" in it for it in made((cert, base, other, nav)).caveats)
    assert any("names no antenna" in it for it in made((cert, base, head_changed(rover, "ANT # / TYPE", ""), nav)).caveats)
    high = head_changed(rover, "ANTENNA: DELTA H/E/N", f"{1.5:14.4f}{0:14.4f}{0:14.4f}")
    done = made((cert, base, high, nav))
    assert not any("Both headers give 0" in it for it in done.caveats)
    assert "antenna to antenna" in Page(report.html(done).decode()).text
    fixed = rover.replace(b"COMMENT", b"COMMENT", 1)
    corrected = fixed.replace(b"Linux 2.0.36|Pentium II|gcc -static|Linux|486/DX+           COMMENT",
                              f"{'baseline-survey correct: delays taken off':<60}COMMENT".encode())
    assert len([it for it in made((cert, base, corrected, nav)).caveats if "corrected" in it or "--no-troposphere" in it]) == 2
    by_correct = head_changed(base, "COMMENT", "baseline-survey correct: delays taken off")
    for one, told in ((base, "no troposphere taken off"), (by_correct, "troposphere taken off the files by `correct`")):
        page = Page(report.html(made((cert, one, rover, nav), settings=Settings(troposphere=False))).decode())
        assert told in page.text
    assert not any("ionosphere" in it for it in made(files, settings=Settings(combination="ionosphere-free")).caveats)
    less = cert.replace(b"ratio 2000", b"ratio 1500")
    assert any("A ratio of 1.5 was asked for" in it for it in made((less, base, rover, nav)).caveats)


def test_hostile_headers_and_names(files, no_pictures):
    """Names of stations, antennas, receivers and files are shown, never obeyed. The pictures have none of them."""
    cert, base, rover, nav = files
    for name in HOSTILE:
        short = name.replace("\n", "\x0b").replace("\r", "\x0c").encode("latin-1", "replace").decode("latin-1")[:18]
        odd = head_changed(head_changed(rover, "MARKER NAME", short), "ANT # / TYPE", " " * 20 + short)
        data = report.html(made((cert, base, odd, nav), (f"{name}.cert", f"b {name}", f"r {name}", f"n {name}"), title=f"T {name}"))
        page = Page(data.decode())
        assert not {"script", "img"} & set(page.tags) and b"\x1b" not in data and b"\x07" not in data and "\u202e" not in data.decode()
        assert "49" not in re.findall(r"T (\S+)", page.text)
        assert not page.references


def test_files_that_do_not_belong(files, examples):
    cert, base, rover, nav = files
    for bad, part in (((cert, rover, base, nav), "exchanged"), ((cert[:-30], base, rover, nav), "vector.cert|g2_quarter.cert: line"),
                      ((cert.replace(b"\nfixed\n", b"\ndeclined unseparated\n"), base, rover, nav), "declined unseparated"),
                      ((cert, base, rover.replace(b"> 2005 04 02", b"> 2005 04 03"), nav), "another time"),
                      ((b"declined few 3\n", base, rover, nav), "declined few 3")):
        with pytest.raises(SurveyError, match=part):
            made(bad)


def test_by_blocks(files):
    done = made(files, block_pairs=10)
    greater = [max(a, b) for a, b in zip(done.adjustment.sd_enu_m, done.blocks.sd_enu_m)]
    assert done.blocks.used == 3 and done.sd_enu_m == pytest.approx(greater)
    with pytest.raises(SurveyError):
        made(files, block_pairs=29)
    assert made(files).blocks.used in (5, 6)


# ---- the word


def test_word_with_a_certificate(examples, tmp_path, monkeypatch, no_pictures):
    monkeypatch.delenv("BASELINE", raising=False)
    program = stand_in(tmp_path / "p", (examples / NAMES[0]).read_bytes())
    shutil.copy(examples / NAMES[0], tmp_path / "v.cert")
    names = [examples / name for name in NAMES[1:]]
    ran = run("report", tmp_path / "v.cert", *names, "--program", program)
    assert ran.returncode == 0 and b"check certified" in ran.stdout and b"\nfiles: the same bytes\n" in ran.stdout
    ran = run("report", tmp_path / "v.cert", *names, "--program", program, "--verify", "--output", tmp_path / "w.html", "--json")
    data = json.loads(ran.stdout)
    assert data["verified"] is True and data["check"] == "certified" and b"the same bytes" in (tmp_path / "w.html").read_bytes()
    (tmp_path / "v.cert").write_bytes((tmp_path / "v.cert").read_bytes().replace(b"move -2233", b"move -2333"))
    for more in ((), ("--verify",)):
        (tmp_path / "v.html").unlink()
        ran = run("report", tmp_path / "v.cert", *names, "--program", program, *more)
        assert ran.returncode == 1 and b"another text" in (tmp_path / "v.html").read_bytes()
        assert b"\nfiles: `fix` gives another" in ran.stdout


def test_the_originals_of_a_corrected_certificate(examples, program, tmp_path, no_pictures):
    """Their headers are those of the corrected files. `fix` gives another text from them, so the page says that something is wrong."""
    names = [examples / name for name in NAMES[1:]]
    for name in names[:2]:
        assert run("correct", name, names[2], "--output", tmp_path / name.name).returncode == 0
    corrected = [tmp_path / name.name for name in names[:2]] + names[2:]
    ran = run("report", tmp_path / "v", *corrected, "--program", program)
    assert ran.returncode == 0 and b"taken off the files by `correct`" in (tmp_path / "v.html").read_bytes()
    ran = run("report", tmp_path / "v.cert", *corrected, "--program", program)
    assert ran.returncode == 0 and b"\nfiles: the same bytes\n" in ran.stdout
    ran = run("report", tmp_path / "v.cert", *names, "--program", program)
    assert ran.returncode == 1 and b"Something stands out" in (tmp_path / "v.html").read_bytes()


def test_word_with_a_name(examples, tmp_path, no_pictures):
    program = stand_in(tmp_path / "p", (examples / NAMES[0]).read_bytes())
    names = [examples / name for name in NAMES[1:]]
    for name in ("line 7", "$(touch PWNED)"):
        ran = run("report", name, *names, "--mask", "300", "--program", program, cwd=tmp_path)
        assert ran.returncode == 0, ran.stderr
        assert (tmp_path / f"{name}.cert").read_bytes() == (examples / NAMES[0]).read_bytes()
        assert (tmp_path / f"{name}.log").read_bytes().startswith(b"fix --mask 300 -- ") and (tmp_path / f"{name}.html").is_file()
    assert not (tmp_path / "PWNED").exists()
    told = [json.loads(it) for it in (tmp_path / "p" / "words").read_text().splitlines()]
    assert told[0] == ["fix", "--mask", "300", "--", *map(str, names)] and told[1] == ["check", "--", "/dev/stdin"]


def test_word_writes_nothing_where_it_can_not(examples, tmp_path, no_pictures):
    names = [examples / name for name in NAMES[1:]]
    program = stand_in(tmp_path / "p", b"declined few 30\n", status=1)
    refused(run("report", tmp_path / "n", *names, "--program", program), "declined few 30")
    program = stand_in(tmp_path / "q", b"", status=3)
    refused(run("report", tmp_path / "n", *names, "--program", program), "fix: verdict fixed")
    refused(run("report", tmp_path / "n", *names, "--program", tmp_path / "none"), "no program")
    refused(run("report", tmp_path / "none.cert", *names), "none.cert")
    refused(run("report", tmp_path / "n", names[0], names[1], tmp_path / "none", "--program", program), "none")
    refused(run("report", tmp_path / "n", *names, "--mask", "17.5"), "0 to 900")
    for name in ("", f"{tmp_path}/", f"{tmp_path}/.", ".."):
        refused(run("report", name, *names, "--program", stand_in(tmp_path / "p")), "the name of a certificate", name)
    program = stand_in(tmp_path / "p", (examples / NAMES[0]).read_bytes())
    refused(run("report", tmp_path / "n", *names, "--program", program, "--output", tmp_path / "none" / "n.html"), "none/n.html")
    assert sorted(it.name for it in tmp_path.iterdir()) == ["p", "q"]


def test_a_pipe_where_fix_reads_too(examples, tmp_path, no_pictures):
    """What is read here is gone when `fix` opens the pipe, and it would wait for ever."""
    os.mkfifo(tmp_path / "pipe")
    names = [examples / NAMES[1], tmp_path / "pipe", examples / NAMES[3]]
    threading.Thread(target=(tmp_path / "pipe").write_bytes, args=((examples / NAMES[2]).read_bytes(),), daemon=True).start()
    program = stand_in(tmp_path / "p", (examples / NAMES[0]).read_bytes())
    refused(run("report", tmp_path / "n", *names, "--program", program), "pipe: no file")
    refused(run("report", examples / NAMES[0], *names, "--program", program, "--verify", "--output", tmp_path / "n.html"), "pipe: no file")
    assert (tmp_path / "pipe").read_bytes() and sorted(it.name for it in tmp_path.iterdir()) == ["p", "pipe"]


def test_with_the_program(examples, program, tmp_path, no_pictures):
    names = [examples / name for name in NAMES[1:]]
    ran = run("report", tmp_path / "line", *names, "--program", program)
    assert ran.returncode == 0 and b"files: the same bytes" in ran.stdout and b"check certified" in ran.stdout, (ran.stdout, ran.stderr)
    assert (tmp_path / "line.cert").read_bytes() == (examples / NAMES[0]).read_bytes()
    refused(run("report", tmp_path / "no", *names, "--program", program, "--ratio", "15000"), "declined unseparated")


def test_corrected_files_with_a_wrong_height(files):
    """The delays of a corrected file belong to the height that its COMMENT says, whatever its header was made to say later."""
    from baseline_survey import geodesy
    cert, base, rover, nav = files
    marks = made(files).adjustment.marks
    for which, mark in ((1, marks.base_m), (2, marks.rover_m)):
        for rise, told in ((0.0, ""), (2.0, ""), (20.0, "20 m too high"), (-4.0, "4 m too low")):
            comments = ("baseline-survey correct: x", f"at height {geodesy.geodetic(mark)[2] + rise:.1f} m; orbits: broadcast")
            changed = list(files)
            changed[which] = files[which].replace(
                b" " * 60 + b"END OF HEADER", "".join(f"{it:<60}COMMENT\n" for it in comments).encode() + b" " * 60 + b"END OF HEADER", 1)
            caveats = made(changed, settings=Settings(troposphere=False)).caveats
            found = [it for it in caveats if "too high" in it or "too low" in it]
            assert len(found) == bool(told) and all(told in it and it.startswith(("", "The base's", "The rover's")[which]) for it in found)


def test_what_a_check_says_stands_out(files, no_pictures):
    """A certificate that isn't certified, or that the files don't give, is told at the head of the page."""
    for verdicts, told in ((report.Verdicts("certified", True), False), (report.Verdicts("not certified tail"), True),
                           (report.Verdicts("certified", False), True), (report.Verdicts(), False)):
        done = made(files, verdicts=verdicts)
        assert done.looks == told and ("Something stands out" in Page(report.html(done).decode()).text) == told


def test_a_tag_without_a_date():
    """One pair of a forged certificate, between others, has a tag past the year 9999."""
    with pytest.raises(SurveyError, match="is no date"):
        report.pictures._times([0, 2**63 - 1])


def test_three_bands(tmp_path, no_pictures):
    """Three signals, long names and offsets of the antennas."""
    from made import made as certificate
    cert = certificate(bands=(1, 2, 5), noise_m=0.003)
    texts = []
    for place, name in ((cert.base_m, "A" * 60), (cert.base_m + cert.vector_m, "B")):
        head = [f"{content:<60}{label}" for content, label in (
            ("     3.04           OBSERVATION DATA    M", "RINEX VERSION / TYPE"), (name, "MARKER NAME"),
            ("".join(f"{x:14.4f}" for x in place), "APPROX POSITION XYZ"),
            ("        1.5000        0.0000        0.0000", "ANTENNA: DELTA H/E/N"), ("G    2 C1C L1C", "SYS / # / OBS TYPES"),
            ("", "END OF HEADER"))]
        texts.append("\n".join([*head, *(f"> 2005 04 02 00 {k // 2:02d} {30 * (k % 2):2d}.0000000  0  0" for k in range(20)), ""]).encode())
    page = Page(report.html(made((cert.text, *texts, b""), settings=Settings(troposphere=False))).decode())
    assert "L5" in page.text and "A" * 60 in page.text and "antenna to antenna" in page.text
