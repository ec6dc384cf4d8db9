"""What isn't what a word needs: one line that names it, status 2, and nothing is written."""
import gzip
import shutil

import pytest
from sessions import stand_in
from test_cli import refused, run

NAMES = ("g2_quarter.cert", "g2_quarter_base.rnx", "g2_quarter_rover.rnx", "geonet.nav")
CERT, BASE, ROVER, NAV = range(4)
# The words that need these files, in their order.
WORDS = {"quality": (CERT,), "adjust": (CERT, BASE, ROVER), "coordinates": (CERT, BASE, ROVER), "report": (CERT, BASE, ROVER, NAV),
         "verify": (CERT,), "places": (CERT,), "correct": (BASE, NAV), "cut": (BASE,), "rebase": (BASE,)}
MORE = {"cut": ("00:05", "00:10"), "rebase": ("-3978242.4348", "3382841.1715", "3649902.7667")}


@pytest.fixture
def folder(examples, tmp_path):
    """The example's files in a folder of their own; a program that makes its certificate."""
    for name in NAMES:
        shutil.copy(examples / name, tmp_path / name)
    stand_in(tmp_path / "p", (examples / NAMES[CERT]).read_bytes())
    return tmp_path


def command(word, folder):
    """A command line of a word on the files of a folder."""
    names = [folder / NAMES[it] for it in WORDS[word]]
    if word == "verify":
        names += [folder / NAMES[it] for it in (BASE, ROVER, NAV)]
    words = [word, *MORE.get(word, ()), *names] if word == "rebase" else [word, *names, *MORE.get(word, ())]
    return words + (["--program", folder / "p" / "stand_in"] if word in ("report", "verify") else [])


def refused_everywhere(folder, which, data, *parts):
    """Each word that reads this file refuses it, names it, and leaves the folder as it was."""
    path = folder / NAMES[which]
    good = path.read_bytes()
    path.write_bytes(data)
    before = {it: it.read_bytes() for it in folder.iterdir() if it.is_file()}
    for word, needs in WORDS.items():
        if which in needs:
            refused(run(*command(word, folder)), *parts, NAMES[which])
    assert {it: it.read_bytes() for it in folder.iterdir() if it.is_file()} == before
    path.write_bytes(good)


HATANAKA = b"1.0                 COMPACT RINEX FORMAT                    CRINEX VERS   / TYPE\n"


@pytest.mark.parametrize("which", [CERT, BASE, ROVER, NAV])
@pytest.mark.parametrize("kind, command_named", [("gz", "gunzip"), ("Z", "uncompress"), ("crx", "CRX2RNX")])
def test_packed_files(folder, which, kind, command_named):
    """A .gz, a .Z, and Hatanaka's .crx or .05d, whatever their names are: the line names the command that unpacks them."""
    good = (folder / NAMES[which]).read_bytes()
    data = {"gz": gzip.compress(good), "Z": b"\x1f\x9d\x90" + good[:500], "crx": HATANAKA + good}[kind]
    refused_everywhere(folder, which, data, "packed", command_named)


@pytest.mark.parametrize("data, part", [
    (b"declined few 30\n", "no certificate: declined few 30"), (b"declined unseparated\n", "declined unseparated"),
    (b"baseline-cert 1\nratio 2000\n", "baseline migrate"),
    (None, "the text ends early"), (b"", "no certificate")])
def test_declines_cut_texts_and_version_1(folder, data, part):
    good = (folder / NAMES[CERT]).read_bytes()
    refused_everywhere(folder, CERT, good[:good.index(b"\nrow 3", 9000) + 1] if data is None else data, part)


def test_another_session(folder):
    """The headers of another day, of another base, and both exchanged."""
    base, rover = ((folder / NAMES[it]).read_bytes() for it in (BASE, ROVER))
    cases = [(BASE, base.replace(b"> 2005 04 02", b"> 2006 04 02"), "another time"),
             (ROVER, rover.replace(b"> 2005 04 02", b"> 2005 04 03"), "another time"),
             (BASE, base.replace(b"-3978242.4348", b"-3978252.4348"), "another base"), (BASE, rover, "another base")]
    for which, data, part in cases:
        good = (folder / NAMES[which]).read_bytes()
        (folder / NAMES[which]).write_bytes(data)
        for word in ("adjust", "coordinates", "report"):
            refused(run(*command(word, folder)), part, NAMES[which])
        (folder / NAMES[which]).write_bytes(good)
    assert not list(folder.glob("*.html"))


def test_no_antenna_in_the_atx(folder):
    (folder / "few.atx").write_bytes(b"     1.4            M".ljust(60) + b"ANTEX VERSION / SYST\n" + b"".ljust(60) + b"END OF HEADER\n")
    for word in ("adjust", "coordinates", "report"):
        refused(run(*command(word, folder), "--atx", folder / "few.atx"), "no antenna TRM29659.00 NONE", "few.atx")
    (folder / "few.atx").write_bytes(gzip.compress(b"x"))
    refused(run(*command("adjust", folder), "--atx", folder / "few.atx"), "few.atx", "packed", "gunzip")


@pytest.mark.parametrize("word", WORDS)
def test_empty_and_missing_files(folder, word):
    for which in WORDS[word]:
        path = folder / NAMES[which]
        good = path.read_bytes()
        path.write_bytes(b"")
        refused(run(*command(word, folder)), NAMES[which])
        path.unlink()
        if not (word == "report" and which == CERT):
            refused(run(*command(word, folder)), NAMES[which], "No such file")
        path.write_bytes(good)
