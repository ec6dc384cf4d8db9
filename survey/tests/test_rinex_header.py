"""Headers, read as `fix` reads them."""
import gzip

import pytest
from seeded import junk, seeded

from baseline_survey.rinex_header import HeaderError, columns, lines_of, read_header, tenths_in


def head(*lines, version="     3.04           OBSERVATION DATA    G", epochs=("> 2005 04 02 00 00  0.0000000  0  0",)):
    every = [(version, "RINEX VERSION / TYPE"), *lines, ("", "END OF HEADER")]
    return ("".join(f"{content:<60}{label}\n" for content, label in every) + "".join(it + "\n" for it in epochs)).encode("latin-1")


def position(text):
    return read_header(head((text, "APPROX POSITION XYZ"))).position_m


def test_the_example(examples):
    for name in ("g2_quarter_base.rnx", "g2_quarter_base.05o"):
        found = read_header(examples / name)
        assert (found.marker, found.receiver, found.antenna, found.epochs) == ("3040", "TRIMBLE 5700", "TRM29659.00", 30)
        assert found.position_tenths == (-39782424348, 33828411715, 36499027667)
        assert found.delta_m == (0, 0, 0) and found.interval_s == 30
        assert found.first_epoch.isoformat() == "2005-04-02T00:00:00" and found.last_epoch.isoformat() == "2005-04-02T00:14:29.999000"
        assert found.is_rinex2 == name.endswith("o")


@pytest.mark.parametrize("text, value", [
    (" -3978242.4348  3382841.1715  3649902.7667", (-3978242.4348, 3382841.1715, 3649902.7667)),
    ("            -.             5.            .5", None), ("            1.            5.            .5", (1, 5, 0.5)),
    ("           nan            1             1 ", None), ("           inf            1             1 ", None),
    ("         1E6              1             1 ", None), ("         0x10             1             1 ", None),
    ("         1_0              1             1 ", None), ("       1.00001            1             1 ", None),
    ("             1            1", None), ("           1 1            1             1 ", None),
    ("           +-1            1             1 ", None),
    ("99999999999999             1             1 ", (99999999999999, 1, 1)), (" .              1             1 ", None)])
def test_numbers_by_their_form(text, value):
    if value is None:
        with pytest.raises(HeaderError, match="line 2: no number in columns"):
            position(text)
    else:
        assert position(text) == value


def test_three_zeros_are_no_position():
    assert position("        0.0000        0.0000       -0.0000") is None
    assert read_header(head()).position_m is None


def test_the_last_line_counts_and_a_blank_offset_is_0():
    found = read_header(head(("        1.0000        2.0000        3.0000", "APPROX POSITION XYZ"),
                             ("        4.0000        5.0000        6.0000", "APPROX POSITION XYZ"),
                             ("        1.5000                      0.0100", "ANTENNA: DELTA H/E/N")))
    assert found.position_m == (4, 5, 6) and found.delta_m == (1.5, 0, 0.01)


def test_lf_alone_ends_a_line():
    """What other programs take for the end of a line is a byte like any other."""
    for byte in ("\x0b", "\x0c", "\x1c", "\x85", "\r", "\xa0"):
        name = f"A{byte}B"
        found = read_header(head((name, "MARKER NAME"), ("        4.0000        5.0000        6.0000", "APPROX POSITION XYZ")))
        assert found.marker == name and found.position_m == (4, 5, 6)
    assert lines_of(b"a\r\nb\r\r\nc\n\nd") == [b"a", b"b\r", b"c", b"", b"d"]
    assert read_header(head(("X", "MARKER NAME")).replace(b"\n", b"\r\n")).marker == "X"


@pytest.mark.parametrize("data, reason", [
    (b"", "line 1: no RINEX file"), (gzip.compress(head()), "unpack it first .gunzip."),
    (head(version="     4.00           OBSERVATION DATA    G"), "version not"),
    (head(version="     2.00           OBSERVATION DATA    G"), "version not"),
    (head(version="     3.04           NAVIGATION DATA     G"), "not a file of observations"),
    (head()[:100], "no end of header"), (head(epochs=("x",)), "line 3: an epoch"),
    (head(epochs=("> 2005 02 30 00 00  0.0000000  0  0",)), "no such date"),
    (head(epochs=("> 2005 02 03 00 00  0.0000000  0 -1",)), "no number"),
    (head(epochs=("> 2005 02 03 00 00        nan  0  1",)), "no number"),
    (head(epochs=("> 2005 02 03 00 00        1.0     1",)), "bad epoch flag")])
def test_bad_files_name_their_line(data, reason):
    with pytest.raises(HeaderError, match=reason):
        read_header(data)


def test_events_are_skipped():
    found = read_header(head(epochs=("> 2005 04 02 00 00  0.0000000  0  1", "G01", ">                              4  1",
                                     "> an event's line",
                                     "> 2005 04 02 00 01  0.0000000  1  0")))
    assert found.epochs == 2 and found.last_epoch.minute == 1


def test_rinex_2_counts_its_lines():
    lines = [("     7    C1    L1    L2    P2    P1    S1    S2", "# / TYPES OF OBSERV")]
    epochs = [" 05  4  2  0  0  0.0000000  0 13" + "".join(f"G{k:2d}" for k in range(1, 13)), " " * 32 + "G13"] + ["x"] * 26
    epochs += [" 05  4  2  0  0 30.0000000  0  0", " " * 28 + "4  1", "a comment"]
    found = read_header(head(*lines, version="     2.11           OBSERVATION DATA    M (MIXED)", epochs=epochs))
    assert found.epochs == 2 and found.is_rinex2 and found.last_epoch.second == 30


@seeded(200)
def test_any_bytes_are_read_or_refused(dice):
    data = junk(dice, 200)
    for text in (data, head() + data, head()[:80] + data):
        try:
            read_header(text)
        except HeaderError as why:
            assert 1 <= why.line <= text.count(b"\n") + 2


@seeded(300)
def test_numbers_round_trip(dice):
    places, n = dice.randint(0, 4), dice.choice((dice.randint(-10**13, 10**13), dice.randint(-9, 9)))
    value = n // 10**(4 - places) * 10**(4 - places)
    text = f"{'-' if value < 0 else ''}{abs(value) // 10**4}.{abs(value) % 10**4:04d}"[:None if places == 4 else places - 4]
    assert tenths_in(text.encode()) == value


def test_columns_past_the_end_are_blank():
    assert columns(b"abc", 2, 6) == b"bc   " and columns(b"", 1, 3) == b"   "


def test_rinex_2_without_its_types():
    """Such a file has no form: its epochs can't be counted. The line is that of END OF HEADER."""
    with pytest.raises(HeaderError, match="line 2: no list of observation types"):
        read_header(head(version="     2.11           OBSERVATION DATA    G", epochs=(" 05  4  2 00 00  0.0000000  0  0",)))
