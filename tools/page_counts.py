"""The numbers in sentences of pages that count, sum or repeat what stands elsewhere, for tools/check_pages."""
from __future__ import annotations

import ast
import functools
import math
import os
import re
from collections.abc import Callable, Iterator

ROOT = os.path.dirname(os.path.dirname(os.path.realpath(__file__)))
NUMBERS, SKY, TIMES = "crates/number_examples/src", "crates/sky_examples/src", "docs/log/times.md"
RELEASED = "release/baseline-linux-x86_64"
OPTIONS, LIMITS = "crates/command_words/src/options.rt", [f"crates/obs_rows/src/{it}.rt" for it in ("limits", "defaults", "units")]

ROUNDS, REACHES, CHECKER = "crates/round_steps/src/runs.rt", "crates/round_steps/src/limits.rt", "recipes/check_certificate.py"
# Numbers that pages write as words.
WORDS = {word: at for at, word in enumerate("zero one two three four five six seven eight nine ten eleven twelve thirteen fourteen "
                                            "fifteen".split())} | {"tenth": 10, "twenty-six": 26, "sixty": 60}

Numbers = list[int | float]


def text_of(path: str) -> str:
    """The text of a file of the repository."""
    with open(os.path.join(ROOT, path), encoding="utf-8", errors="replace") as file:
        return file.read()


def number(text: str) -> int | float:
    """A number as pages write it: with commas between thousands, with a point, or as a word; any other word equals nothing."""
    if text[0].isdigit():
        return float(text) if "." in text else int(text.replace(",", ""))
    return WORDS.get(text.lower(), math.nan)


def groups_of(path: str, words: str) -> tuple[str, ...]:
    """The groups of the first place in a file that has these words."""
    found = re.search(words, text_of(path), re.M)
    if not found:
        raise LookupError(f"{path} has nothing of the form {words}")
    return found.groups()


def said(path: str, words: str) -> Numbers:
    """The numbers of a sentence, by its words with a group for each."""
    return [number(it) for it in groups_of(path, words)]


def rows_of(path: str, *names: str) -> int:
    """How many rows tables of Rust have, by the sizes in their types."""
    return sum(int(groups_of(path, rf"\b{it}: \[[^;]*; (\d+)\]")[0]) for it in names)


def tables(path: str, mark: str) -> list[list[list[str]]]:
    """The tables between two marks, each as its rows of cells, the head first."""
    part, = groups_of(path, rf"<!-- {mark}.*? -->((?:.|\n)*?)<!-- ")
    found = [[line.strip("|").split("|") for line in table.splitlines()] for table in re.findall(r"(?:^\|.*\n)+", part, re.M)]
    return [[[cell.strip() for cell in row] for row in table if not row[0].strip().startswith("-")] for table in found]


def rows_in(path: str, mark: str) -> list[list[str]]:
    """The rows of the first of these tables, without its head."""
    return tables(path, mark)[0][1:]


def sums(rows: list[list[str]], columns: range) -> Numbers:
    """The sums of some columns."""
    return [sum(int(row[k]) for row in rows) for k in columns]


def rows_after(path: str, words: str) -> Numbers:
    """How many rows the first table after these words has, without its head."""
    table, = groups_of(path, rf"{words}(?:.|\n)*?\n((?:\|.*\n)+)")
    return [len(table.splitlines()) - 2]


def count_of(words: str, *paths: str) -> int:
    """How often files have these words."""
    return sum(len(re.findall(words, text_of(it))) for it in paths)


def logged(row: str) -> int:
    """The first number of a cell after these words of a row in the log of times."""
    return int(groups_of(TIMES, rf"{re.escape(row)}.*?\| (\d+)")[0])


def crates_above(name: str) -> int:
    """How many crates stand on this one, by themselves or by others."""
    stands = {it.split(":")[0]: it.partition(":")[2].split() for it in text_of("crates.txt").splitlines() if not it.startswith("#")}
    found, added = set(), {name}
    while added:
        found |= added
        added = {it for it, below in stands.items() if found.intersection(below)} - found
    return len(found) - 1


def observed() -> Numbers:
    """Of the sessions of docs/USE.md how many there are, fixed rightly, wrongly, and declined."""
    cells = [[int(it) for it in cell.split()] for row in rows_in("docs/USE.md", "observe") for cell in row[1:]]
    right, wrong, declined = (sum(column) for column in zip(*cells))
    return [right + wrong + declined, right, wrong, declined]


def short() -> list[list[str]]:
    """The classes of short sessions, without the line of all."""
    return rows_in("docs/GUIDE.md", "short")[:-1]


def searches() -> Numbers:
    """The least and the most visits of the logged searches, reduced and plain."""
    rows = rows_in(TIMES, "tools/log searches")
    return [end(int(row[k]) for row in rows) for k in (3, 2) for end in (min, max)]


def peaks() -> Numbers:
    """The most MiB of the logged commands but `list`, and of `list`."""
    columns = [(name, cells) for head, *rows in tables(TIMES, "tools/log run") for name, *cells in zip(head, *rows)]
    return [max(int(it) for name, cells in columns if re.fullmatch(form, name) for it in cells) for form in ("`.*` MiB", "Peak MiB")]


@functools.cache
def least_library() -> Numbers:
    """The version of glibc that the released program asks for, by the names of versions in it; none before a release."""
    try:
        with open(os.path.join(ROOT, RELEASED), "rb") as file:
            names = re.findall(rb"GLIBC_(\d+)\.(\d+)", file.read())
    except OSError:
        return []
    return list(max(tuple(map(int, it)) for it in names)) if names else []


def reached() -> Numbers:
    """By how many times the next best integers of the example are as bad, at least, to tenths (docs/FORMATS.md, `values`)."""
    _, _, next_best, best = (int(it) for it in groups_of("examples/g2_quarter.cert", r"^values (.*)$")[0].split())
    return [next_best * 10 // (64 * best) / 10]


def reach() -> Numbers:
    """How many kilometres the page for browsers takes as usual by night and by day."""
    night, day = groups_of("web/page/usual.mjs", r"USUAL_LENGTH = {night: ([\d_]+), day: ([\d_]+)}")
    return [int(it) // 1000 for it in (night, day)]


def logged_gates() -> Numbers:
    """The minutes of the log's rows that README names."""
    return [logged(it) for it in ("both commands: the build", "both commands: `rt ci` then", "the gate with its scripts")]


def valued(text: str) -> int:
    """A whole number of a source in Rust, or that of a limit or default by its name."""
    if text[0].isdigit():
        return int(text.replace("_", ""))
    path = next((it for it in LIMITS if f"const {text}:" in text_of(it)), LIMITS[0])
    return constant(path, text)


def constant(path: str, name: str) -> int:
    """A constant of a source in Rust."""
    return valued(*groups_of(path, rf"(?:const {name}: \w+|^{name}) = (\w+)"))


def constants(path: str, *names: str) -> Numbers:
    """Some constants of a source in Rust."""
    return [constant(path, it) for it in names]


def rounds() -> Numbers:
    """How many rounds are coarse, and how many fine, at most."""
    return constants(ROUNDS, "COARSE_ROUNDS", "FINE_ROUNDS")


def arcs() -> Numbers:
    """How many arcs are free, and how many there are, at most."""
    return [valued("MOST_FREE_ARCS"), valued("MOST_ARCS")]


def settled() -> Numbers:
    """Within how many units the baseline of a coarse and of a fine round is settled, and an integer; a fine one's are 2^-5 iota."""
    return [constant(REACHES, "COARSE_BASELINE"), round(32 / unit_mm()), constant(REACHES, "THREE_QUARTERS")]


def limits(option: str) -> Numbers:
    """The least and the most value of an option of the program, and what it is where it isn't given."""
    values = groups_of(OPTIONS, rf"const {option.upper()}: Limits = Limits {{\s*least: (\w+).*,\s*most: (\w+).*,\s*plain: (\w+)")
    return [valued(it) for it in values]


def statuses(*names: str) -> Numbers:
    """The statuses of these ends of a job."""
    return [int(groups_of("crates/job_answers/src/status.rt", rf"Status::{it} => (\d+)")[0]) for it in names]


def file_limits() -> Numbers:
    """The most MiB of a file, its epochs and its records."""
    return [constant("crates/line_source/src/transfer.rt", "MAX_FILE") >> 20, constant("crates/obs_store/src/series.rt", "MOST"),
            constant("crates/rinex_nav/src/record_lines.rt", "MOST")]


def edge_of_mask() -> Numbers:
    """How many micrometres a place is from another, at most, where each coordinate is within the mask's part of a metre."""
    power, = groups_of("crates/signal_travel/specs/Boxes.antt", r"AreWithin \(two_to_minus (\d+)\) p.x q.x")
    return [math.ceil(3**0.5 * 2.0**-int(power) * 1e6)]


def unit_mm() -> float:
    """The iota in millimetres."""
    light, share = said(CHECKER, r"is the iota, (\d+) / (\d+) m\b")
    return 1000 * light / share


def unit() -> Numbers:
    """The same as pages say it."""
    return [round(unit_mm(), 3)]


def radii() -> Numbers:
    """The most that a phase's box reaches to each side, and that of row 0 of the example, in micrometres."""
    return [round(int(it) * unit_mm() * 1000 / 2**13, digits) for digits, it in
            ((None, groups_of("crates/row_boxes/specs/YBoxes.antt", r"then pos (\d+) else")[0]), (1, row_of_example()[6]))]


def row_of_example() -> list[str]:
    """The first row of the example's certificate, by its words."""
    return groups_of("examples/g2_quarter.cert", r"^(row 0 .*)$")[0].split()


def example_m() -> float:
    """The length of the example's vector in metres, as README prints it."""
    return math.dist(said("docs/FIXED.md", r"baseline (\d+\.\d+) -(\d+\.\d+) (\d+\.\d+)"), (0, 0, 0))


def bound() -> Numbers:
    """The bound of the example's vector, as docs/FIXED.md shows it."""
    return said("docs/FIXED.md", r"^    bound (\d\.\d+)$")


def medians(*lines: str) -> Numbers:
    """The least and the most median of `adjust` on such lines, of a quarter of an hour."""
    head, *rows = tables("docs/GUIDE.md", "vectors")[0]
    cells = {row[0]: [int(it) for it in re.findall(r"(\d+)\*?(?:\(|\s|$)", row[head.index("`adjust`")])] for row in rows}
    return [end(cells[it]) for it in lines for end in (min, max)]


def classes() -> Numbers:
    """In how many classes `adjust` has no star, and in how many it and RTKLIB give vectors."""
    rows = [dict(zip(head, map(str.split, row))) for head, *rows in tables("docs/GUIDE.md", "vectors") for row in rows]
    both = [row["`adjust`"][at] for row in rows for at in range(4)
            if any(row[it][at] != "-" for it in ("RTKLIB", "`est-stec`", "`est-ztd`")) and row["`adjust`"][at] != "-"]
    return [sum("*" not in it for it in both), len(both)]


def parts(mask: int) -> Numbers:
    """How far the logged parts of the real session lie apart east, north and up by this mask, and the greatest standard deviation."""
    row = next(it for it in rows_in("docs/log/runs.md", "tools/log parts") if it[0] == str(mask))
    return [float(it) for it in row[-4:]]


def of_levels() -> Numbers:
    """Below which ratio, above which residual in millimetres and below which number of satellites `quality` says look."""
    ratio, metres, satellites = said("survey/baseline_survey/quality.py", r"ratio: float = (.*)\n.*= (.*)\n.*= (.*)\n")
    return [ratio, 1000 * metres, satellites]


def mask_angles() -> Numbers:
    """The degrees of the mask 300 and of the one without an option."""
    return [round(math.degrees(math.asin(it / 1000)), 1) for it in (300, valued("DEFAULT_MASK"))]


ENDS = (r"\| (\d) \| yes: [^|]*\|\n\| (\d) \| no: [^|]*\|\n\| (\d) \| usage error;[^|]*\|\n\| (\d) \| a file is refused,[^|]*\|\n"
        r"\| (\d), (\d) \| a file couldn't be read; an output couldn't be written \|\n\| (\d) \| out of memory \|")
# A page, its words with a group for each number, and what gives the numbers; none, where they can't be had.
COUNTED: list[tuple[str, str, Callable[[], Numbers]]] = [
    ("README.md", r"took (\d+) minutes, and `rt ci` after it (\d+):.* whole gate took (\d+) minutes", logged_gates),
    ("README.md", r"Of (\d+) sessions (\d+) were fixed, (\d+) wrongly",
     lambda: said("docs/GUIDE.md", r"(\d+) sessions, (\d+) fixed, (\d+) wrongly")),
    *((page, r"glibc (\d+)\.(\d+) or later", least_library) for page in ("README.md", "docs/GUIDE.md")),
    *((page, r"up to (\d+) km by night,? and (?:up to )?(\d+) km by day", reach)
      for page in ("README.md", "docs/FIXED.md", "docs/GUIDE.md", "docs/USE.md")),
    *(("docs/FORMATS.md", rf"\| `--{it}` \| (\d+) to (\d+) \| (\d+) \|", functools.partial(limits, it))
      for it in ("ratio", "budget", "mask", "gap", "jump", "arc", "step", "first", "count")),
    ("docs/FORMATS.md", r"WORDS` \(status (\d)\), `read fault: NAME` \((\d)\), `write fault` \((\d)\) and `no memory` \((\d)\)",
     lambda: statuses("Usage", "ReadFault", "WriteFault", "NoMemory")),
    ("docs/GUIDE.md", ENDS, lambda: statuses("Done", "Declined", "Usage", "Refused", "ReadFault", "WriteFault", "NoMemory")),
    ("docs/GUIDE.md", r"at most (\d+) MiB and ([\d,]+) epochs each, and ([\d,]+) navigation records", file_limits),
    ("docs/GUIDE.md", r"At most (\d+) free arcs, (\d+) in all, ([\d,]+) pairs, and (\d+) satellites in a pair",
     lambda: [valued(f"MOST_{it}") for it in ("FREE_ARCS", "ARCS", "PAIRS", "SATELLITES")]),
    ("docs/GUIDE.md", r"Within (\d+) µm of the mask", edge_of_mask),
    ("docs/GUIDE.md", r"The unit ι is (\d\.\d+) mm", unit),
    ("docs/GUIDE.md", r"the elevation mask, (\d+\.\d)° in place of (\d+\.\d)°", mask_angles),
    ("docs/GUIDE.md", r"RINEX (\d\.\d+) to (\d\.\d+) with GPS or Galileo",
     lambda: said("docs/FORMATS.md", r"The versions (\d\.\d+) to (\d\.\d+) are read")),
    ("docs/DEFINITIONS.md", r"of L1, L2 and L5 are exactly (\d+), (\d+) and (\d+)",
     lambda: said("recipes/check_certificate.py", r"WAVELENGTHS = {1: (\d+), 2: (\d+), 5: (\d+)}")),
    ("docs/FIXED.md", r"the ratio \*reached\* \(here (\d+\.\d)\)", reached),
    ("docs/GUIDE.md", r"at least (\d+\.\d) times as bad", reached),
    ("docs/AUDIT.md", r"(\d+) angles and (\d+) solutions",
     lambda: [rows_of(f"{NUMBERS}/trig_box_tests.rt", "SMALL", "LARGE"), rows_of(f"{NUMBERS}/kepler_box_tests.rt", "SOLUTIONS")]),
    ("docs/AUDIT.md", r"(\d+) pairs of angles, (\d+) places on ellipses, (\d+) places of satellites",
     lambda: [*(rows_of(f"{NUMBERS}/rotation_box_tests.rt", it) for it in ("SUMS", "ELLIPSES")),
              rows_of(f"{NUMBERS}/orbit_place_tests.rt", "CASES")]),
    ("docs/AUDIT.md", r"(\d+) places and clocks .*, (\d+) more with Galileo's constants, (\d+) sightings",
     lambda: [rows_of(f"{SKY}/places.rt", "PLACES"), rows_of(f"{SKY}/galileo_places.rt", "OF_GALILEO"),
              rows_of(f"{SKY}/sightings.rt", "SIGHTINGS")]),
    ("docs/AUDIT.md", r"(\d+) runs of `process`", lambda: [rows_of("crates/session_examples/src/cases.rt", "CASES")]),
    ("docs/FIXED.md", r"Of (\d+) simulated .* (\d+) were fixed rightly at .* and (\d+) wrongly .* (\d+) were .* and (\d+) wrongly",
     lambda: sums(short(), range(1, 6))),
    ("docs/FIXED.md", r"Of the (\d+) up to 10 km none was wrong",
     lambda: sums([it for it in short() if it[0].startswith("2 to 10 km") and it[3] == "0"], range(1, 2))),
    ("docs/GUIDE.md", r"\| all \| (\d+) \| (\d+) \| (\d+) \| (\d+) \| (\d+) \|", lambda: sums(short(), range(1, 6))),
    ("docs/PERFORMANCE.md", r"visits ([\d,]+) to ([\d,]+) nodes .* visits ([\d,]+) to ([\d,]+)\.", searches),
    ("docs/PERFORMANCE.md", r"at most (\d+) MiB, of `list` (\d+)", peaks),
    ("docs/USE.md", r"(\d+) sessions: (\d+) fixed rightly, (\d+) wrongly, (\d+) declined", observed),
    ("docs/WORK.md", r"(\d+) that are asked first",
     lambda: [len(re.findall("^### ", text_of("docs/DECISIONS.md").split("\n## ")[1], re.M))]),
    ("docs/WORK.md", r"(\d+) crates here, (\d+) above obs_rows", lambda: [crates_above("job_answers"), crates_above("obs_rows")]),
    ("README.md", r"vector is (\d+) to (\d+) mm off at 1 km and (\d+) to (\d+) mm at 10 km", lambda: medians("1 km", "10 km")),
    ("README.md", r"## (\w+) doors", lambda: rows_after("README.md", r"^## \w+ doors")),
    *((page, words, bound) for page, words in (
        ("README.md", r"give one: (\d\.\d+) mm in the example"), ("docs/GUIDE.md", r"within (\d\.\d+) mm of the least-squares vector"),
        ("docs/DEFINITIONS.md", r"X is 6, which is (\d\.\d+) mm"))),
    *((page, r"[Tt]wo receivers, (\d\.\d) km apart", lambda: [round(example_m() / 1000, 1)]) for page in ("docs/GUIDE.md", "docs/USE.md")),
    ("examples/README.md", r"30 s, ([\d,]+) m apart", lambda: [round(example_m())]),
    ("docs/ARCHITECTURE.md", r"Up to (\w+) coarse ones .*; up to (\w+) fine ones", rounds),
    ("docs/ARCHITECTURE.md", r"pieces of at most ([\d,]+) bytes", lambda: [constant("crates/line_source/src/pieces.rt", "MAX_PIECE")]),
    ("docs/AUDIT.md", r"of (\w+) records of `examples/geonet.nav`, of (\w+) with",
     lambda: said(f"{SKY}/records.rt", r"(\w+) records of examples/geonet.nav, (\w+) whose numbers")),
    ("docs/AUDIT.md", r"of (\w+) simulated sessions exactly",
     lambda: [count_of(": Expected = ", *(f"crates/row_examples/src/{it}.rt" for it in ("expected", "expected_bands")))]),
    ("docs/AUDIT.md", r"file of (\w+) epochs is read the same byte by byte, in pieces of (\d+)",
     lambda: [said("crates/session_examples/src/piece_tests.rt", it)[0] for it in (r"make\(alloc, 1, (\d+)", r"in \[1, (\d+), ")]),
    ("docs/AUDIT.md", r"([\d,]+) visits plainly and (\d+) in .* a budget of (\d+) and not .* one of ([\d,]+) ",
     lambda: [said("crates/form_examples/src/" + path, words)[0] for path, words in (
         ("search_reduced_case.rt", r"search takes ([\d,]+)"), ("search_reduced_case.rt", r"reduced_count: (\d+)"),
         ("search_reduced_case.rt", r"visits: (\d+)"), ("int_search_tests.rt", r"answers_decorrelated\(&FIVE_EPOCHS, (\d+)"))]),
    ("docs/AUDIT.md", r"a piece of ([\d,]+) bytes and at most ([\d,]+) bytes of a line",
     lambda: [constant("crates/line_source/src/pieces.rt", "MAX_PIECE"), constant("crates/rinex_obs/src/started.rt", "MOST_STARTED")]),
    ("docs/BELIEVED.md", r"## 1\. The (\w+) that matter most", lambda: rows_after("docs/BELIEVED.md", r"^## 1\. ")),
    ("docs/BELIEVED.md", r"health 0 and (\d+) ranges",
     lambda: [groups_of("crates/eph_store/specs/Profile.antt", r"^fields_in_order = (.*)$")[0].count("∷")]),
    ("docs/DECISIONS.md", r"a satellite's (\d+) places .* all (\d+) places .* none of the (\d+) places",
     lambda: 3 * [constant("crates/obs_store/src/kinds.rt", "SLOTS")]),
    ("docs/DEFINITIONS.md", r"after (\w+) rounds +---> unsettled coarse(?:.|\n)*after (\w+) rounds +---> unsettled fine", rounds),
    ("docs/DEFINITIONS.md", r"within (\d+) for a baseline of a coarse .*; (\d+) for .* a fine round, 1 mm; and ([\d,]+) for", settled),
    ("docs/DEFINITIONS.md", r"at most ([\d,]+) arcs, .* most (\w+) begin in each of ([\d,]+) pairs; .* at most (\d+)\.",
     lambda: [valued(f"MOST_{it}") for it in ("KEPT_ARCS", "SATELLITES", "PAIRS", "ARCS")]),
    ("docs/DEFINITIONS.md", r"a y box is at most (\d+) in a fine row and (\d+) in a coarse one",
     lambda: said("crates/row_boxes/specs/YBoxes.antt", r"then pos (\d+) else pos (\d+)")),
    ("docs/FIXED.md", r"at most (\d+) µm to each side, in the example (\d\.\d) µm", radii),
    ("docs/FORMATS.md", r"([\w-]+) types are kept, in this order", lambda: [constant("crates/obs_store/src/kinds.rt", "SLOTS")]),
    ("docs/FORMATS.md", r"the (\w+) coarse round isn't settled(?:.|\n)*the (\w+) of these rounds", lambda: 2 * rounds()[:1]),
    ("docs/FORMATS.md", r"over (\d+) arcs are free or over (\d+) are kept", arcs),
    ("docs/FORMATS.md", r"more than ([\d,]+) bytes\.(?:.|\n)*a line of more than ([\d,]+) bytes is refused at",
     lambda: [constant("crates/line_source/src/transfer.rt", "MAX_FILE"), constant("crates/line_source/src/lines.rt", "MAX_LINE")]),
    ("docs/FORMATS.md", r"A file has at most ([\d,]+) epochs(?:.|\n)*A file has at most ([\d,]+) records", lambda: file_limits()[1:]),
    ("docs/FORMATS.md", r"has the count, 1 to (\d+), (?:.|\n)*the count, 1 to (\d+), in",
     lambda: 2 * constants("crates/obs_fields/src/types.rt", "MOST_TYPES")),
    ("docs/GLOSSARY.md", r"(\d\.\d+) mm, of which (\d+) are the wavelength of L1",
     lambda: [*unit(), *said(CHECKER, r"WAVELENGTHS = {1: (\d+)")]),
    ("docs/GLOSSARY.md", r"reason: status (\d)(?:.|\n)*no job: status (\d)(?:.|\n)*failed: status (\d) or (\d)",
     lambda: statuses("Refused", "Usage", "ReadFault", "WriteFault")),
    ("docs/GLOSSARY.md", r"(\w+) offsets\. ", lambda: rows_after("docs/GLOSSARY.md", r"^\w+ offsets\.")),
    ("docs/GUIDE.md", r"(\w+) checkers decide everything", lambda: rows_after("docs/GUIDE.md", "checkers decide everything")),
    ("docs/GUIDE.md", r"row 0 is (\d+\.\d) mm, known to (\d\.\d) µm",
     lambda: [round(int(row_of_example()[2]) * unit_mm() / 2**13, 1), radii()[1]]),
    ("docs/GUIDE.md", r"over (\d+) arcs are free, here \d+, or there are over (\d+) arcs", arcs),
    ("docs/GUIDE.md", r"In (\d+) of the (\d+) classes", classes),
    ("docs/GUIDE.md", r"is at most (\d\.\d) mm for .* lie (\d\.\d) mm apart east, (\d\.\d) mm north and (\d\.\d) mm up",
     lambda: [parts(200)[3], *parts(200)[:3]]),
    ("docs/GUIDE.md", r"lie (\d+) mm apart in height, and (\d+) mm with 300", lambda: [int(parts(it)[2] + 0.5) for it in (200, 300)]),
    *((page, r"by itself after ([\d,]+) visits", lambda: constants(CHECKER, "MOST_VISITS")) for page in ("docs/GUIDE.md", "recipes/README.md")),
    ("docs/USE.md", r"(\w+) short ones were fixed wrongly", lambda: sums(short(), range(3, 4))),
    ("docs/WORK.md", r"(\w+) lines of `cases/`",
     lambda: [count_of("no common signals", *(f"cases/{it}" for it in os.listdir(f"{ROOT}/cases") if it.endswith(".cases")))]),
    ("crates/README.md", r"the most free ones, (\d+)(?:.|\n)*git grep -nw (\d+) crates", arcs),
    ("crates/WRONG_BODIES.md", r"the whole form of (\w+) sessions",
     lambda: [rows_of("crates/form_examples/src/normal_sum_tests.rt", "SUMMED")]),
    ("recipes/README.md", r"an RY over (\d+) or an R over (\d+)", lambda: said(CHECKER, r"RY is over (\d+)(?:.|\n)*R is over (\d+)")),
    ("survey/README.md", r"reached is below (\d), a phase is over (\d+) mm off, a pair has fewer than (\w+) satellites", of_levels),
    ("survey/README.md", r"has (\d+) hostile names",
     lambda: [len(ast.literal_eval(groups_of("survey/tests/sessions.py", r"^HOSTILE = (\[(?:.|\n)*?\])\n\n")[0]))]),
    ("survey/README.md", r"Python with (\w+) libraries",
     lambda: [len(groups_of("survey/README.md", r"apt-get install ((?:python3-\w+ ?)+)")[0].split())]),
    ("survey/OPERATOR.md", r"30 s has some (\d+) KB, so 100 points make (\d+) MB a day",
     lambda: [it for kb in said("recipes/README.md", r"30 s has some (\d+) KB") for it in (kb, kb * 24 * 100 // 1000)]),
    ("survey/OPERATOR.md", r"the first (\d+) fixes .*`--sigmas` \((\d)\)",
     lambda: said("survey/baseline_survey/alarm.py", r"reference: int = (\d+)\n.*sigmas: float = (\d+\.\d)")),
]


def miscounted() -> Iterator[str]:
    """The sentences whose numbers aren't what they count, and those that are gone."""
    for page, words, count in COUNTED:
        found = re.search(words, text_of(page))
        try:
            wanted = count()
        except (LookupError, ValueError, OSError) as why:
            yield f"{page}: what its numbers count isn't there: {why}"
            continue
        if not found:
            yield f"{page}: no sentence has the words {words}"
        elif wanted and [number(it) for it in found.groups()] != wanted:
            yield f"{page}: it says {', '.join(found.groups())} where {', '.join(map(str, wanted))} are there: {found[0][:60]}"
