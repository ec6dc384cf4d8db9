"""verify: a forged certificate is told from a true one by the files."""
import json
import os
import subprocess

import pytest
from sessions import HOSTILE, stand_in
from test_cli import refused, run

from baseline_survey import verify
from baseline_survey.errors import SurveyError

FILES = ("g2_quarter_base.rnx", "g2_quarter_rover.rnx", "geonet.nav")


@pytest.fixture
def known(examples, tmp_path):
    """The certificate, its files, and a program that gives that certificate for any files."""
    cert = (examples / "g2_quarter.cert").read_bytes()
    (tmp_path / "v.cert").write_bytes(cert)
    return tmp_path, cert, [examples / name for name in FILES], stand_in(tmp_path / "p", cert)


def test_same_bytes(known):
    folder, cert, files, program = known
    ran = run("verify", folder / "v.cert", *files, "--program", program)
    assert (ran.returncode, ran.stdout) == (0, b"the same bytes\n")
    words = json.loads((folder / "p" / "words").read_text())
    assert words == ["fix", "--ratio", "2000", "--budget", "1000000", "--system", "G", "--bands", "12", "--", *map(str, files)]


@pytest.mark.parametrize("old, new, line", [(b"point -39762196499", b"point -39762096499", 6), (b"\nrow 1 ", b"\nrow 1 1", 19),
                                            (b"\nfixed\n", b"\nfixed\nx\n", 262), (b"ratio 2000", b"ratio 1999", 2)])
def test_a_forged_line_is_told(known, old, new, line):
    folder, cert, files, program = known
    (folder / "v.cert").write_bytes(cert.replace(old, new, 1))
    ran = run("verify", folder / "v.cert", *files, "--program", program)
    if line == 262 or line == 19:  # no longer a certificate, or one that differs
        assert ran.returncode in (1, 2)
        return
    assert ran.returncode == 1 and ran.stdout.splitlines()[0] == f"line {line} differs".encode()
    assert ran.stdout.splitlines()[1].startswith(b"certificate: ") and ran.stdout.splitlines()[2].startswith(b"files: ")


def test_a_decline_differs_at_its_line(known):
    folder, cert, files, _ = known
    program = stand_in(folder / "q", b"declined few 2\n", status=1)
    ran = run("verify", folder / "v.cert", *files, "--program", program, "--json")
    told = json.loads(ran.stdout)
    assert ran.returncode == 1 and told["difference"] == {"line": 1, "certificate": "baseline-cert 2", "files": "declined few 2"}


def test_options():
    assert list(verify.pairs_of(["--mask", "300", "--arc=20"])) == [("--mask", "300"), ("--arc", "20")]
    for bad in (["mask"], ["--mask"], ["-m", "3"]):
        with pytest.raises(SurveyError):
            verify.pairs_of(bad)


def test_options_of_the_certificate_count(known):
    folder, _, files, program = known
    ran = run("verify", folder / "v.cert", *files, "--program", program, "--mask", "300", "--ratio", "2000")
    assert ran.returncode == 0 and json.loads((folder / "p" / "words").read_text())[-6:-4] == ["--mask", "300"]
    refused(run("verify", folder / "v.cert", *files, "--program", program, "--ratio", "3000"), "the certificate says 2000")
    refused(run("verify", folder / "v.cert", *files, "--program", program, "--first", "20000"), "--first")


def test_hostile_names(known):
    """Twenty names as certificate, base, rover and navigation file: each is a file and nothing else."""
    folder, cert, files, program = known
    for name in HOSTILE:
        for k, file in enumerate([folder / "v.cert", *files]):
            (folder / f"{k}{name.replace('/', '_')}").write_bytes(file.read_bytes())
        names = [f"{k}{name.replace('/', '_')}" for k in range(4)]
        ran = run("verify", *names, "--program", program, cwd=folder)
        assert (ran.returncode, ran.stdout) == (0, b"the same bytes\n"), (name, ran.stderr)
    os.link(folder / "v.cert", folder / "-v.cert")
    assert run("verify", "--program", program, "--", "-v.cert", *files, cwd=folder).returncode == 0
    assert not (folder / "PWNED").exists()
    words = [json.loads(it) for it in (folder / "p" / "words").read_text().splitlines()]
    assert words[4][-4:] == ["--", "1line\nend".replace("line", "line"), "2line\nend",
                             "3line\nend"] or ["--", *[f"{k}line\nend" for k in (1, 2, 3)]] in [it[-4:] for it in words]


def test_bad_input(known):
    folder, cert, files, program = known
    (folder / "d.cert").write_bytes(b"declined few 2\n")
    (folder / "old.cert").write_bytes(cert.replace(b"baseline-cert 2", b"baseline-cert 1"))
    for words, parts in ((("none.cert", *files), ["none.cert"]), (("d.cert", *files), ["declined few 2"]),
                         (("old.cert", *files), ["migrate"]), (("v.cert", *files[:2]), ["NAV"])):
        refused(run("verify", *words, "--program", program, cwd=folder), *parts)
    refused(run("verify", "v.cert", *files, "--program", "none", cwd=folder), "no program none")
    failing = stand_in(folder / "f", b"", status=4)
    refused(run("verify", "v.cert", *files, "--program", failing, cwd=folder), "fix: verdict fixed")


def test_with_the_program(examples, program, tmp_path):
    files = [examples / name for name in FILES]
    assert run("verify", examples / "g2_quarter.cert", *files, "--program", program).stdout == b"the same bytes\n"
    # what `check` certifies and the files don't bear out
    forged = tmp_path / "forged.cert"
    forged.write_bytes((examples / "g2_quarter.cert").read_bytes().replace(b"point -39762196499", b"point -39762096499"))
    ran = run("verify", forged, *files, "--program", program)
    assert ran.returncode == 1 and ran.stdout.startswith(b"line 6 differs\n")
    assert run("verify", examples / "g2_quarter.cert", *files, "--program", program, "--mask", "300").returncode == 1


def test_a_track(examples, program, tmp_path):
    """The program's own track is the same again; one digit of a row isn't."""
    files = [examples / name for name in FILES]
    text = subprocess.run([program, "track", *files], capture_output=True, check=True).stdout
    (tmp_path / "t").write_bytes(text)
    ran = run("verify", tmp_path / "t", *files, "--program", program)
    assert (ran.returncode, ran.stdout) == (0, b"the same bytes\n")
    at = text.index(b"\nrow 1 ") + 7
    (tmp_path / "t").write_bytes(text[:at] + (b"2" if text[at:at + 1] == b"1" else b"1") + text[at + 1:])
    ran = run("verify", tmp_path / "t", *files, "--program", program)
    assert ran.returncode == 1 and ran.stdout.splitlines()[0] == b"line 19 differs"
