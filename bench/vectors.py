"""How far vectors are from the truth: `bench/atmosphere vectors`.

Simulated sessions of 1 to 20 km, 0 to 1,000 m of height, a quarter of an hour and an hour, with 0, 5, 20 and 40 TECU, each seed at another
hour of the day. Hours have `--arc 30`, as the guide advises. Sessions that `fix` mostly declines for their height are corrected first
(`baseline-survey correct` of both files, whose headers hold the true places). Each cell has the medians of the distance to the truth in mm,
one for each number of TECU; where not all were fixed, how many were stands after it.

Of RTKLIB there are the vectors of rnx2rtkp (static, L1 and L2, continuous, the elevation mask of `fix`) with its defaults, the
broadcast ionosphere and Saastamoinen; with `est-stec`, which estimates the ionosphere; and with `est-ztd`, which estimates the
troposphere too.

Sessions of two and of five minutes are made beside them: to those and to the level ones of up to 10 km bench/fit_rule fits the rule by
which `adjust` takes a combination.
"""
import concurrent.futures
import dataclasses
import functools
import itertools
import json
import math
import os
import shutil
import statistics
import subprocess
import sys
import tempfile
from dataclasses import dataclass
from typing import Optional

# each session has a processor of its own
os.environ.setdefault("OPENBLAS_NUM_THREADS", "1")

import marks
from simulated import Bench, apart, vector_of
from simulator import BASE, NAV, ROOT, hour_of

sys.path.insert(0, os.path.join(ROOT, "survey"))

from baseline_survey import orbits, rinex  # noqa: E402
from baseline_survey.adjust import Settings, adjust  # noqa: E402
from baseline_survey.certificate import read_fixed  # noqa: E402
from baseline_survey.combination import BY_RULE, COMBINATIONS, chosen  # noqa: E402
from baseline_survey.integers import real_integers  # noqa: E402

SCRIPT = "bench/atmosphere"
TECU = (0, 5, 20, 40)
STEP = 30
FIX, ADJUST = "`fix`", "`adjust`"
OURS = {f"`{it}`": it for it in COMBINATIONS}
THEIRS = {"RTKLIB": ("brdc", "saas"), "`est-stec`": ("est-stec", "saas"), "`est-ztd`": ("est-stec", "est-ztd")}
CONFIGURATION = """pos1-posmode=static
pos1-frequency=l1+2
pos1-elmask=11.5
pos1-ionoopt={}
pos1-tropopt={}
pos1-sateph=brdc
pos1-navsys=1
pos2-armode=continuous
pos2-arthres=3
out-solformat=xyz
out-timesys=gpst
"""


@dataclass(frozen=True)
class Kind:
    """A kind of sessions: how long in space, height and time, and how it is treated."""
    km: int
    height: int
    epochs: int
    is_corrected: bool = False
    options: str = ""

    @property
    def name(self):
        height = f", {self.height:,} m" if self.height else ""
        return f"{self.km} km{height}{', corrected' if self.is_corrected else ''}"

    @property
    def length_m(self):
        return 1000 * self.km

    @property
    def seconds(self):
        return STEP * (self.epochs - 1)


@dataclass(frozen=True)
class Found:
    """What came of a session: how far the vector of each way is from the truth in mm, where it gave one; of a fixed one whether its
    integers are wrong, whether `adjust` says `look` of them, and by how many millionths the vector of `fix` is too long. `is_alone` says
    that RTKLIB wasn't asked."""
    kind: Kind
    tecu: int
    seed: int
    errors: dict
    is_wrong: bool = False
    is_far: bool = False
    ppm: Optional[float] = None
    is_alone: bool = False

    @property
    def key(self):
        return self.kind, self.tecu, self.seed

    @property
    def is_fixed(self):
        return FIX in self.errors

    def error(self, way):
        """The error of a way, or None. `adjust` takes one of two by its rule."""
        return self.errors.get(f"`{chosen(BY_RULE, self.kind.length_m, self.kind.seconds).combination}`" if way == ADJUST else way)


SHAPES = [*((km, 0, False) for km in (1, 2, 3, 5, 10, 20)), (5, 100, False), (5, 300, True), (5, 1000, True)]
QUARTERS = [Kind(km, height, 30, is_corrected) for km, height, is_corrected in SHAPES]
HOURS = [Kind(km, height, 120, is_corrected, "--arc 30") for km, height, is_corrected in SHAPES]
SHORT = [Kind(km, 0, epochs) for epochs in (5, 10) for km in (1, 2, 3, 5, 10)]


# ---- a session


def theirs(bench, session, models):
    """How far the last vector of rnx2rtkp with these models is from the truth in mm, or None where it isn't fixed."""
    conf = os.path.join(bench.folder, "conf")
    with open(conf, "w", encoding="ascii") as file:
        file.write(CONFIGURATION.format(*models))
    words = ["rnx2rtkp", "-k", conf, "-e", "-r", *map(str, BASE), bench.rover, bench.base, NAV]
    last = subprocess.run(words, capture_output=True, text=True).stdout.splitlines()[-1].split()
    return apart([float(x) - b for x, b in zip(last[2:5], BASE)], session.truth) if last[5] == "1" else None


@functools.lru_cache(maxsize=None)
def navigation():
    return orbits.read_navigation(NAV)


def corrected(bench):
    """Takes the modelled troposphere off both files."""
    for name in (bench.base, bench.rover):
        with open(name, "rb") as file:
            new, _ = rinex.correct(file.read(), navigation())
        with open(name, "wb") as file:
            file.write(new)


def found_by(bench, kind, tecu, seed, is_alone):
    """What comes of a session."""
    session = bench.make(kind.km, kind.height, kind.epochs, STEP, seed, tecu=tecu, hour=hour_of(seed, kind.seconds))
    beside = {} if is_alone or kind in SHORT or not shutil.which("rnx2rtkp") else THEIRS
    errors = {name: error for name, models in beside.items() if (error := theirs(bench, session, models)) is not None}
    if kind.is_corrected:
        corrected(bench)
    ran = bench.run(*kind.options.split())
    if ran.returncode:
        return Found(kind, tecu, seed, errors, is_alone=is_alone)
    cert, air = read_fixed(ran.stdout.encode("ascii")), Settings(troposphere=not kind.is_corrected)
    errors[FIX] = apart(vector_of(ran.stderr), session.truth)
    for name, combination in OURS.items():
        errors[name] = apart(adjust(cert, dataclasses.replace(air, combination=combination)).vector_m, session.truth)
    taken = dataclasses.replace(air, combination=chosen(BY_RULE, kind.length_m, kind.seconds).combination)
    return Found(kind, tecu, seed, errors, is_wrong=not session.has_right_integers(ran.stdout),
                 is_far=any(it.is_far for it in real_integers(cert, taken)),
                 ppm=1e6 * (math.hypot(*cert.vector_m()) / math.hypot(*session.truth) - 1), is_alone=is_alone)


def found_apart(program, folder, is_alone, key):
    """What comes of a session in a folder of its own, for a process of its own."""
    with tempfile.TemporaryDirectory(dir=folder) as own:
        return found_by(Bench(program, own), *key, is_alone)


# ---- all sessions


def read_results(name):
    """What earlier runs found, by a file with a line for each session. A line that a stopped run left unfinished is cut off."""
    with open(name, "a+b") as file:
        file.seek(0)
        whole, _, _ = file.read().rpartition(b"\n")
        file.truncate(len(whole) + 1 if whole else 0)
    values = map(json.loads, whole.splitlines())
    return [Found(**{**it, "kind": Kind(**it["kind"])}) for it in values]


def keys_of(seeds):
    """The sessions that are asked for, the hours last, of which there are half as many."""
    every = [*itertools.product(range(1, seeds + 1), SHORT + QUARTERS, TECU), *itertools.product(range(1, seeds // 2 + 1), HOURS, TECU)]
    return [(kind, tecu, seed) for seed, kind, tecu in every]


def results(bench, options, wanted, is_alone=False):
    """What comes of these sessions; each is noted as soon as it is known, and none is made twice. With `is_alone` RTKLIB isn't asked."""
    name = options.results or os.path.join(bench.folder, "results")
    known = {it.key: it for it in read_results(name)}
    missing = [it for it in wanted if it not in known or known[it].is_alone and not is_alone]
    with open(name, "a", encoding="ascii") as file, concurrent.futures.ProcessPoolExecutor(options.jobs) as pool:
        for found in pool.map(functools.partial(found_apart, bench.program, bench.folder, is_alone), missing):
            print(json.dumps(dataclasses.asdict(found)), file=file, flush=True)
            known[found.key] = found
    return [known[it] for it in wanted]


# ---- the tables


def errors(sessions, way):
    """The errors of a way where there are any."""
    return [it for session in sessions if (it := session.error(way)) is not None]


def medians(sessions, ways):
    """The median of each way that has errors."""
    return {way: statistics.median(had) for way in ways if (had := errors(sessions, way))}


def is_behind(sessions):
    """Whether the default's median is over that of one of RTKLIB's ways, by half a millimetre or more; None where there is nothing to
    compare."""
    found = medians(sessions, (ADJUST, *THEIRS))
    ours = found.pop(ADJUST, None)
    return None if ours is None or not found else ours - min(found.values()) >= 0.5


def cell(sessions, way):
    """The median of a way over sessions that were fixed, and how many were where not all are."""
    had = errors(sessions, way)
    text = f"{statistics.median(had):.0f}" if had else "-"
    mark = "*" if way == ADJUST and is_behind(sessions) else ""
    return text + mark if len(had) == len(sessions) or not had else f"{text}{mark}({len(had)})"


def of_class(found, kind, tecu):
    return [it for it in found if it.kind == kind and it.tecu == tecu]


def table(found, kinds):
    """The lines of a table of kinds of sessions."""
    ways = [FIX, ADJUST, *OURS, *THEIRS]
    yield "| " + " | ".join(["Session", *ways]) + " |"
    yield "|---" * (1 + len(ways)) + "|"
    for kind in kinds:
        of = [of_class(found, kind, tecu) for tecu in TECU]
        yield "| " + " | ".join([kind.name, *(" ".join(cell(it, way) for it in of) for way in ways)]) + " |"


def summary(found):
    """In how many classes the default is as good as RTKLIB's best."""
    told = [is_behind(of_class(found, kind, tecu)) for kind in QUARTERS + HOURS for tecu in TECU]
    told = [it for it in told if it is not None]
    return (f"In {told.count(False)} of the {len(told)} classes in which both give vectors `adjust` is at least as good as RTKLIB's best, "
            "to half a millimetre; the others have a star.")


def scale(found):
    """By how much `fix` makes level lines of 5 and 10 km longer, for each number of TECU."""
    level = [it for it in found if it.is_fixed and it.kind.height == 0 and it.kind.km in (5, 10) and it.kind not in SHORT]
    means = {tecu: statistics.mean(had) for tecu in TECU if (had := [it.ppm for it in level if it.tecu == tecu])}
    told = ", ".join(f"{mean:+.1f} ppm at {tecu}" for tecu, mean in means.items())
    return f"The vector of `fix` is too long by {told} TECU (5 and 10 km, level)."


def counted(found):
    """What the tables don't show."""
    fixed = [it for it in found if it.is_fixed]
    beside = sum(it.kind in SHORT for it in found)
    return (f"{len(found)} sessions, {len(fixed)} fixed, {sum(it.is_wrong for it in fixed)} wrongly; {beside} of them, of two and of five "
            f"minutes, are in no table. `adjust` says `look` of the integers as real numbers in {sum(it.is_far for it in fixed)} of those "
            "that were fixed.")


def span(found, km):
    """From the least to the most of the medians of level quarters of an hour, in mm: one for each number of TECU."""
    kind = next(it for it in QUARTERS if (it.km, it.height) == (km, 0))
    middles = [statistics.median(had) for tecu in TECU if (had := errors(of_class(found, kind, tecu), ADJUST))]
    return f"{min(middles):.0f} to {max(middles):.0f} mm"


def accuracy(found):
    """README's figures."""
    fixed = [it for it in found if it.is_fixed]
    return (f"In a quarter of an hour the vector is {span(found, 1)} off at 1 km and {span(found, 10)} at 10 km (integers of `fix`, vector "
            "of `baseline-survey adjust`; medians of simulated sessions, from night to noon at a solar maximum). "
            f"Of {len(found)} sessions {len(fixed)} were fixed, {sum(it.is_wrong for it in fixed)} wrongly.")


def lines(found, seeds):
    """The lines of the guide."""
    yield from (f"A quarter of an hour, {seeds} of each kind at other hours of the day:", "", *table(found, QUARTERS), "")
    yield from (f"An hour with `--arc 30`, {seeds // 2} of each kind at other hours of the day:", "", *table(found, HOURS), "")
    yield from (summary(found), "", counted(found), "", scale(found))


def publish(bench, options):
    """The guide's tables and README's figures."""
    found = results(bench, options, keys_of(options.seeds))
    marks.publish(options, SCRIPT, "vectors", lines(found, options.seeds))
    marks.publish(options, SCRIPT, "accuracy", [accuracy(found)])
    if not shutil.which("rnx2rtkp"):
        print("\n`rnx2rtkp` isn't installed here.")
