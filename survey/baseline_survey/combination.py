"""Which combination of the phases is adjusted, and what it does to ionosphere and noise.

`both` takes each band's phase for itself; `ionosphere-free` the combination without the first order of the ionosphere that has the
least noise (3.0 times that of one phase with L1 and L2); `narrow` the one with the least noise of all, of which a wavelength is the
narrow lane's, with weights as the frequencies (0.7 times; Hofmann-Wellenhof, B. et al., GNSS, 2008, section 5.2).

The rule. What the ionosphere leaves in `both` grows with the length between the receivers, and the noise that `ionosphere-free`
triples falls with the root of the time. So `ionosphere-free` is taken where the length in km times the root of the minutes is over
FREE_FROM. Neither the hour nor the sun is known to it: by night `both` is better at every length. FREE_FROM was fitted by
`bench/fit_rule` to half of the simulated sessions, and tried on the other half (survey/README.md has what it gives).
"""
from __future__ import annotations

import math
from dataclasses import dataclass

import numpy as np

from .certificate import FREQUENCY_MHZ
from .errors import SurveyError

COMBINATIONS = ("both", "ionosphere-free", "narrow")
BY_RULE = "by-rule"
# In km times the root of a minute.
FREE_FROM = 10.0


@dataclass(frozen=True)
class Choice:
    """The combination that is taken, and why."""
    combination: str
    why: str


def reach(length_m: float, seconds: float) -> float:
    """What the rule goes by: the length in km times the root of the minutes."""
    return length_m / 1000 * math.sqrt(seconds / 60)


def chosen(asked: str, length_m: float, seconds: float) -> Choice:
    """The combination that was asked for or, where the rule was, the one by length and time. SurveyError for another word."""
    if asked in COMBINATIONS:
        return Choice(asked, "as asked")
    if asked != BY_RULE:
        raise SurveyError(f"the combination is one of {', '.join((BY_RULE, *COMBINATIONS))}: {asked}")
    is_free = reach(length_m, seconds) > FREE_FROM
    side = "beyond" if is_free else "within"
    until = f"{FREE_FROM / math.sqrt(seconds / 60):.1f} km" if seconds > 0 else "any length"
    return Choice("ionosphere-free" if is_free else "both",
                  f"by the rule: {length_m / 1000:.1f} km in {seconds / 60:.1f} minutes is {side} {until}")


def combinations(bands: tuple[int, ...], combination: str) -> tuple[tuple[str, ...], np.ndarray]:
    """The names of the combined phases, and a row of factors of the bands' phases in metres for each. Each row's sum is 1, so that
    a length stays a length."""
    frequencies = np.array([FREQUENCY_MHZ[band] for band in bands])
    if combination == "both":
        return tuple(f"L{band}" for band in bands), np.eye(len(bands))
    name = {"ionosphere-free": "IF", "narrow": "NL"}[combination] + "".join(map(str, bands))
    if combination == "narrow":
        return (name,), (frequencies / frequencies.sum())[None, :]
    # the least sum of squares with sum k = 1 and sum k / f^2 = 0
    conditions = np.array([np.ones(len(bands)), (frequencies[0] / frequencies)**2])
    return (name,), (np.linalg.pinv(conditions) @ np.array([1.0, 0.0]))[None, :]
