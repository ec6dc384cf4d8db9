"""Certificates: what is read is what stands there, and what is wrong is named in one line. How a text is spelled is the second
checker's matter (tools/mutate compares it with the program); here only the layer over it is tried."""
import subprocess
import sys

import pytest
from conftest import repository
from made import made
from seeded import junk, seeded

from baseline_survey import checker
from baseline_survey.certificate import CertificateError, decided, read, read_fixed
from baseline_survey.errors import SurveyError

EXAMPLE = (repository() / "examples" / "g2_quarter.cert").read_bytes()
SMALL = made(pairs=2, satellites=4).text
THREE = made(pairs=2, satellites=4, bands=(1, 2, 5)).text
GALILEO = made(pairs=2, satellites=4, bands=(1, 5), system="E").text
OF_FIX = (b"point", b"move", b"values", b"fixed", b"pair ")
TRACK = b"\n".join([b"baseline-track 1", *[line for line in SMALL.split(b"\n")[1:] if not line.startswith(OF_FIX)][:-1]]) + b"\n"


def reads(text: bytes) -> bool:
    try:
        read(text)
        return True
    except CertificateError as why:
        assert 1 <= why.line <= text.count(b"\n") + 2
        assert why.reason and "\n" not in str(why)
        return False


def test_the_example_is_read():
    cert = read_fixed(EXAMPLE)
    assert (cert.ratio, cert.budget, cert.system, cert.bands, cert.codes) == (2000, 1_000_000, "G", (1, 2), ("C", "W"))
    assert cert.vector_m() == (2022.7753, -468.6315, 2610.2942)
    assert [cert.satellite(arc) for arc in range(7)] == ["G07", "G08", "G11", "G19", "G20", "G24", "G28"]
    assert cert.arcs[0].is_datum and not cert.arcs[1].is_datum and cert.arcs[1].shifts == (45760424, 35636028)
    assert cert.phase_columns == [0, 1] and read(THREE).phase_columns == [0, 1, 4]
    assert len(cert.pairs) == 30 and len(cert.pairs[0].rows) == 7
    assert cert.pairs[1].time.isoformat() == "2005-04-02T00:00:30"
    assert cert.pairs[0].rows[0].direction == (-9628851, -10465439, -8901393)
    assert cert.tail.values.exponent == 43 and round(cert.ratio_reached, 2) == 13.61
    assert cert.lines == 261 and len(cert.sha256) == 64


def test_bytes_are_read_once(tmp_path):
    """A pipe can be read once alone."""
    import os
    import threading
    pipe = tmp_path / "pipe"
    os.mkfifo(pipe)
    writer = threading.Thread(target=lambda: pipe.write_bytes(EXAMPLE))
    writer.start()
    assert read_fixed(pipe) == read_fixed(EXAMPLE)
    writer.join()


def test_cycles_are_those_of_the_free_arcs():
    cert = read_fixed(SMALL)
    assert cert.cycles(0) == (0, 0)
    assert [n for arc in range(1, 4) for n in cert.cycles(arc)] == list(cert.tail.z1)


@pytest.mark.parametrize("text", [SMALL, THREE, GALILEO, EXAMPLE])
def test_good_texts_are_read(text):
    assert reads(text)


@pytest.mark.parametrize("text, line, reason", [
    (b"", 1, "no certificate"), (b"declined few 30\n", 1, "no certificate: declined few 30"), (b"baseline-cert 1\n", 1, "version 1"),
    (b"hello\n", 1, "no certificate"),
    (EXAMPLE[:-1], 261, "no end"), (EXAMPLE[:5000], None, ""), (EXAMPLE[:EXAMPLE.index(b"z1")], 257, "ends early"),
    (EXAMPLE + b"\n", 262, "bad line"),
    (EXAMPLE.replace(b"ratio 2000", b"ratio +2000"), 2, "column 1: bad line"),
    (EXAMPLE.replace(b"ratio 2000", b"ratio 100001"), 2, "column 7: number out of range"),
    (EXAMPLE.replace(b"\n", b"\r\n"), 1, "no certificate"), (EXAMPLE.replace(b"fixed\n", b"fix\n"), 261, "bad line"),
    (EXAMPLE.replace(b"ratio 2000", b"ratio 2000" + b" " * 5000), 2, "line too long"),
    (b"\x1f\x8b\x08", 1, "packed: unpack it first (gunzip)"),
    (b"\x1f\x9d\x90", 1, "uncompress")])
def test_bad_texts_name_their_line(text, line, reason):
    with pytest.raises(CertificateError) as found:
        read(text)
    assert line in (None, found.value.line) and reason in found.value.reason and "\n" not in str(found.value)


def test_the_error_names_the_file(tmp_path):
    path = tmp_path / "a.cert"
    path.write_bytes(b"declined few 30\n")
    with pytest.raises(CertificateError) as found:
        read_fixed(path)
    assert str(found.value) == f"{path}: line 1: no certificate: declined few 30"
    with pytest.raises(OSError):
        read(tmp_path / "none")


def test_a_decline_has_rows_and_no_vector():
    text = EXAMPLE.replace(b"\nfixed\n", b"\ndeclined unseparated\n")
    assert not read(text).is_fixed
    with pytest.raises(CertificateError, match="line 261: no vector: declined unseparated"):
        read_fixed(text)
    start = EXAMPLE[:EXAMPLE.index(b"z1")]
    for tail in (b"declined weak fine 0 -6\n", b"declined overwidth fine y\n", b"declined unsettled fine 12\n",
                 b"declined spent 1000000\n"):
        cert = read(start + tail)
        assert not cert.is_fixed and cert.tail.verdict == tail.decode().strip() and cert.ratio_reached is None
        with pytest.raises(SurveyError):
            cert.vector_m()
    assert not reads(start + b"declined weak fine 63 1\n")


def test_a_track_is_read(program, examples):
    names = [str(examples / name) for name in ("g2_quarter_base.rnx", "g2_quarter_rover.rnx", "geonet.nav")]
    text = subprocess.run([program, "track", *names], capture_output=True, check=True).stdout
    cert = read(text)
    assert cert.is_track and cert.is_fixed and len(cert.tail.moves) == len(cert.pairs)
    said = subprocess.run([sys.executable, checker.ORIGINAL, "/dev/stdin"], input=text, capture_output=True,
                          check=True).stdout.decode().splitlines()
    places = [line.split()[2:] for line in said if line.startswith("place ")]
    assert [[f"{x:.4f}" for x in cert.vector_m(k)] for k in range(len(cert.pairs))] == places
    with pytest.raises(CertificateError, match="a track"):
        read_fixed(text)


@seeded(200)
def test_any_bytes_are_read_or_refused(dice):
    reads(junk(dice, 300))


@seeded(200)
def test_cut_and_patched_texts(dice):
    at, patch = dice.randint(0, len(SMALL)), junk(dice, 4)
    reads(SMALL[:at] + patch + SMALL[at + len(patch):])
    assert not reads(SMALL[:at]) or at == len(SMALL)


def test_what_the_second_checker_says():
    """The example is certified without a note, within 0.03 mm; forged rows, integers and names of arcs are told."""
    said = decided(read(EXAMPLE))
    assert (said.verdict, said.notes, said.bounds_mm) == ("certified", (), (0.03,))
    assert decided(read(EXAMPLE.replace(b"move -2233", b"move -2333"))).verdict == "not certified tail"
    assert decided(read(EXAMPLE), visits=1).verdict == "not decided: stopped after 1 visits"
    noted = decided(read(EXAMPLE.replace(b"pair 1 7964352300000000", b"pair 1 7964352000000000")))
    assert noted.verdict == "certified" and noted.notes == ("pair 1 isn't later than the pair before it",)


def test_the_reader_in_the_repository_is_the_second_checker():
    assert checker.module.__file__ == str(repository() / "recipes" / "check_certificate.py")
    assert not (repository() / "recipes" / "__pycache__").exists()


def test_what_is_built_has_the_same_bytes(tmp_path):
    """The copy that the build makes, and that the package imports it where it is installed."""
    pytest.importorskip("setuptools")
    survey = repository() / "survey"
    subprocess.run([sys.executable, "setup.py", "-q", "build", "--build-base", tmp_path, "egg_info", "--egg-base", tmp_path], cwd=survey,
                   check=True, capture_output=True)
    copy = tmp_path / "lib" / "baseline_survey" / "check_certificate.py"
    assert copy.read_bytes() == (repository() / "recipes" / "check_certificate.py").read_bytes()
    told = ("from baseline_survey import certificate, checker; "
            "print(checker.module.__file__, certificate.read_fixed(open('/dev/stdin', 'rb').read()).vector_m())")
    ran = subprocess.run([sys.executable, "-B", "-c", told], input=EXAMPLE, cwd=tmp_path / "lib", capture_output=True, check=True)
    assert ran.stdout.decode().strip() == f"{copy} (2022.7753, -468.6315, 2610.2942)"
