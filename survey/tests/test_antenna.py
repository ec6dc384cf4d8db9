"""ANTEX: what is read, and its signs."""
import math

import numpy as np
import pytest
from seeded import junk, seeded

from baseline_survey.antenna import AntexError, find_antenna, kind_of, read_antex

FLAT, ROUGH = "TRM29659.00     NONE", "LEIAT504        LEIS"


def line(content, label):
    return f"{content:<60}{label}\n"


def frequency(name, offset, noazi, rows=()):
    text = line(f"   {name}", "START OF FREQUENCY") + line("".join(f"{x:10.2f}" for x in offset), "NORTH / EAST / UP")
    text += "   NOAZI" + "".join(f"{x:8.2f}" for x in noazi) + "\n"
    for azimuth, row in rows:
        text += f"{azimuth:8.1f}" + "".join(f"{x:8.2f}" for x in row) + "\n"
    return text + line(f"   {name}", "END OF FREQUENCY")


def antenna(kind, *frequencies, serial="", dazi=0.0, satellite=""):
    return (line("", "START OF ANTENNA") + line(f"{kind:20}{serial:20}{satellite}", "TYPE / SERIAL NO") + line(f"  {dazi:6.1f}", "DAZI")
            + line("     0.0  90.0  45.0", "ZEN1 / ZEN2 / DZEN") + line(f"     {len(frequencies)}", "# OF FREQUENCIES")
            + "".join(frequencies) + line("", "END OF ANTENNA"))


def antex(*antennas, version="     1.4            M"):
    return (line(version, "ANTEX VERSION / SYST") + line("A", "PCV TYPE / REFANT") + line("", "END OF HEADER") + "".join(antennas)).encode()


ROWS = [(0, (0, 1, 2)), (90, (0, 3, 4)), (180, (0, 5, 6)), (270, (0, 7, 8)), (360, (0, 1, 2))]
TEXT = antex(antenna(FLAT, frequency("G01", (1.0, 2.0, 90.0), (0, 5, 10)), frequency("G02", (0, 0, 80.0), (0, 0, 0))),
             antenna(ROUGH, frequency("G01", (0, 0, 0), (0, 0, 0), ROWS), dazi=90.0),
             antenna(FLAT, frequency("G01", (0, 0, 50.0), (0, 0, 0)), serial="12345"),
             antenna("BLOCK IIA", frequency("G01", (279.0, 0, 2319.5), (0, 0, 0)), serial="G01", satellite="G032      1992-079A"))
LAST_OF_G01 = line("   G01", "END OF FREQUENCY").encode()


def at(antenna, name, elevation, azimuth):
    return 1000 * antenna.correction(name, np.radians([elevation]), np.radians([azimuth]))[0]


def test_receivers_antennas_alone_are_kept():
    assert [(it.kind, it.serial) for it in read_antex(TEXT)] == [(FLAT, ""), (ROUGH, ""), (FLAT, "12345")]


def test_offsets_shorten_and_variations_lengthen():
    """At the zenith an antenna whose centre is 90 mm up is 90 mm nearer to the satellite."""
    flat = read_antex(TEXT)[0]
    assert at(flat, "G01", 90, 0) == pytest.approx(-90) and at(flat, "G02", 90, 0) == pytest.approx(-80)
    assert at(flat, "G01", 0, 0) == pytest.approx(10 - 1) and at(flat, "G01", 0, 90) == pytest.approx(10 - 2)
    assert at(flat, "G01", 0, 180) == pytest.approx(10 + 1)
    assert at(flat, "G01", 45, 0) == pytest.approx(5 - (90 + 1) * math.sqrt(0.5))


def test_variations_by_azimuth():
    rough = read_antex(TEXT)[1]
    for azimuth, value in ((0, 1), (90, 3), (180, 5), (270, 7), (360, 1), (45, 2), (315, 4), (359.9999, 1)):
        assert at(rough, "G01", 45, azimuth) == pytest.approx(value, abs=1e-4)
    assert at(rough, "G01", 22.5, 135) == pytest.approx((4 + 5) / 2)


def test_which_antenna():
    known = read_antex(TEXT)
    assert find_antenna(known, "TRM29659.00").serial == "" and find_antenna(known, "TRM29659.00     NONE", "12345").serial == "12345"
    assert find_antenna(known, "TRM29659.00", "99").serial == ""
    assert kind_of("TRM29659.00") == FLAT and kind_of("LEIAT504        LEIS") == ROUGH
    for name, reason in (("TRM29659.00     SCIT", "radome NONE alone"), ("ASH700936D_M", "no antenna ASH700936D_M NONE"),
                         ("", "names no antenna")):
        with pytest.raises(AntexError, match=reason):
            find_antenna(known, name)
    with pytest.raises(AntexError, match="no frequency E05"):
        at(known[0], "E05", 45, 0)


def test_the_file_of_a_missing_frequency():
    flat = read_antex(TEXT, "some.atx")[0]
    with pytest.raises(AntexError, match="^some.atx: antenna TRM29659.00 NONE has no frequency E05$"):
        at(flat, "E05", 45, 0)


def test_twice_the_same_antenna():
    """The same numbers again are no fault; others are, since nothing says which count."""
    first, other = antenna(FLAT, frequency("G01", (1, 2, 90), (0, 5, 10))), antenna(FLAT, frequency("G01", (1, 2, 91), (0, 5, 10)))
    assert find_antenna(read_antex(antex(first, first)), FLAT).kind == FLAT
    with pytest.raises(AntexError, match="^x.atx: antenna TRM29659.00 NONE stands there 2 times, with other numbers$"):
        find_antenna(read_antex(antex(first, other)), FLAT, "", "x.atx")


@pytest.mark.parametrize("text, reason", [
    (b"", "not ANTEX"), (antex(version="     1.2            M"), "not ANTEX"), (TEXT[:2000], ""),
    (TEXT.replace(b"\n", b"\r"), "line 1: lines end with CR alone"),
    (TEXT[:TEXT.index(b"END OF ANTENNA") - 60], "ends in an antenna"),
    (TEXT.replace(b"     90.00 ", b"     90.0x "), "no number: 90.0x"),
    (TEXT.replace(b"   NOAZI    0.00", b"   NOAZI     nan"), "no number"),
    (TEXT.replace(b"     0.0  90.0  45.0", b"     0.0  90.0  40.0"), "grid"),
    (TEXT.replace(b"     0.0  90.0  45.0", b"     0.0  90.0   0.0"), "grid"),
    (TEXT.replace(b"   270.0    0.00    7.00", b"   280.0    0.00    7.00"), "azimuth"),
    (TEXT.replace(b"\n    90.0    ", b"\n    77.0    "), "no grid of azimuths"),
    (TEXT.replace(b"NORTH / EAST / UP", b"COMMENT          "), "complete"),
    (TEXT.replace(b"END OF ANTENNA", b"COMMENT       ", 2), "starts in an antenna"),
    (TEXT.replace(LAST_OF_G01, LAST_OF_G01 + line("     0.0  90.0   5.0", "ZEN1 / ZEN2 / DZEN").encode(), 1),
     "ZEN1 / ZEN2 / DZEN after a frequency"),
    (TEXT.replace(b"G02", b"G01"), "a second frequency G01"),
    (TEXT.replace(b"     90.00 ", b"   1000.01 "), "over 1000 mm: 1000.01"),
    (TEXT.replace(b"   NOAZI    0.00    5.00", b"   NOAZI    0.00-5000.00"), "over 1000 mm: 5000")])
def test_bad_files(text, reason):
    assert text != TEXT
    with pytest.raises(AntexError, match=reason) as found:
        read_antex(text, "x.atx")
    assert str(found.value).startswith("x.atx: line ")


@seeded(200)
def test_any_bytes_are_read_or_refused(dice):
    data = junk(dice, 300)
    for text in (data, TEXT[:700] + data, TEXT[:1000] + data):
        try:
            read_antex(text)
        except AntexError as why:
            assert "\n" not in str(why)
