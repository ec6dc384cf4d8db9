"""How long to observe: `bench/atmosphere observe`.

Level lines in each hour of a day, so with 24 skies, at 30 s on L1, L2 and L5. `fix` takes the first epochs of each hour, on two bands
and on three; of the whole hour also with --arc 30. A cell has how many of the 24 are fixed rightly, wrongly, and declined. 5 TECU at
the zenith are a night, 20 a day.
"""
import itertools
from collections import Counter, namedtuple

LENGTHS, TECU, BANDS, HOURS = (2, 5, 10, 20), (5, 20), ("12", "125"), range(24)
# How long, with the options of `fix` that take so many epochs at 30 s.
EPOCHS = 120
DURATIONS = {"2 minutes": "--count 5", "5 minutes": "--count 10", "10 minutes": "--count 20", "15 minutes": "--count 30",
             "30 minutes": "--count 60", "an hour": "", "an hour, `--arc 30`": "--arc 30"}
Asked = namedtuple("Asked", "km tecu bands duration")
Told = namedtuple("Told", "asked hour mm said")


def answers(bench):
    """What `fix` says of each session, and how far its vector is from the truth in mm."""
    for km, tecu, hour in itertools.product(LENGTHS, TECU, HOURS):
        session = bench.make(km, 0, EPOCHS, 30, 1 + hour, tecu=tecu, bands="125", hour=hour)
        for bands, (duration, options) in itertools.product(BANDS, DURATIONS.items()):
            yield Told(Asked(km, tecu, bands, duration), hour, *bench.fix(session, "--bands", bands, *options.split()))


def kind_of(told):
    return told.said if told.said in ("right", "wrong") else "declined"


def table(every):
    """The lines of the page: a row for each length, hour of the day and set of bands."""
    counts = Counter((it.asked, kind_of(it)) for it in every)
    lines = ["| Line, bands | " + " | ".join(DURATIONS) + " |", "|---" * (1 + len(DURATIONS)) + "|"]
    for km, tecu, bands in itertools.product(LENGTHS, TECU, BANDS):
        asked = [Asked(km, tecu, bands, it) for it in DURATIONS]
        cells = " | ".join(" ".join(str(counts[it, kind]) for kind in ("right", "wrong", "declined")) for it in asked)
        lines.append(f"| {km} km, {'night' if tecu < 10 else 'day'}, {bands} | {cells} |")
    return [*lines, "", summary(every)]


def summary(every):
    """How many there are of each kind, and which are wrong."""
    counts = Counter(map(kind_of, every))
    wrong = [f"{it.asked.duration} at {it.asked.km} km on {it.asked.bands}, off by {it.mm:.0f} mm" for it in every if it.said == "wrong"]
    text = f"{len(every)} sessions: {counts['right']} fixed rightly, {counts['wrong']} wrongly, {counts['declined']} declined."
    return text + (f" The wrong ones: {'; '.join(wrong)}." if wrong else "")


def lines(bench):
    """The lines of the page."""
    return table(list(answers(bench)))


# ---- the measured wrong fixes of very short sessions


def short_sentence(at_2000, at_3000, wrong):
    """What page FIXED says of the sessions of `bench/atmosphere short`, by their answers (MM, KIND) at both ratios and a few words on
    each that is wrong at 2000."""
    below, above = (Counter(said for _, said in it) for it in (at_2000, at_3000))
    where = f" ({'; '.join(wrong)})" if wrong else ""
    return (f"Of {len(at_2000)} simulated sessions of 5 or 10 epochs, over 2 to 40 km and up to 300 m of height, {below['right']} were "
            f"fixed rightly at the ratio 2000 and {below['wrong']} wrongly{where}. At 3000, {above['right']} were fixed rightly and "
            f"{above['wrong']} wrongly. The others were declined.")
