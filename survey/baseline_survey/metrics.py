"""A series as metrics for Prometheus: its text form, version 0.0.4 (prometheus.io, "Exposition formats").

Each file has one series, told by its label `series`; the textfile collector of node_exporter reads a folder of them. Names
and units follow Prometheus: metres and seconds, times of Unix. What isn't known has no line.
"""
from __future__ import annotations

import math
from datetime import datetime, timezone
from typing import Iterable, Optional, Sequence

from .alarm import AXES, KINDS, Alarm, Series
from .places import utc
from .text import visible

Sample = tuple[dict[str, str], Optional[float]]


def metrics(done: Series, alarms: Sequence[Alarm], name: str) -> bytes:
    """The text of a series of this name, with these of its alarms."""
    fixes = [row for row in done.rows if row.enu_m is not None]
    last, row = len(done.rows) - 1, done.rows[-1] if done.rows else None
    families: list[tuple[str, str, Iterable[Sample]]] = [
        ("sessions", "Sessions in the log.", [({}, len(done.rows))]),
        ("fixed_sessions", "Sessions with a vector.", [({}, done.fixed)]),
        ("last_session_timestamp_seconds", "When the last session began.", [({}, _unix(row.time if row else None))]),
        ("last_fix_timestamp_seconds", "When the last session with a vector began.", [({}, _unix(fixes[-1].time if fixes else None))]),
        ("last_session_fixed", "Whether the last session has a vector.", [({}, float(bool(row and row.enu_m)))]),
        ("last_session_satellites", "Satellites of the last session.", [({}, row.satellites if row else None)]),
        ("last_session_pairs", "Pairs of epochs of the last session.", [({}, row.pairs if row else None)]),
        ("last_session_ratio", "Ratio that the last session's integers reached.", [({}, row.ratio_reached if row else None)]),
        ("deviation_meters", "The last session less the reference.", _by_axis(done.deviations_mm, last)),
        ("standard_deviation_meters", "Scaled standard deviation of the last session.", _by_axis(done.sd_mm, last)),
        ("jump_limit_meters", "The deviation from which the last session is an alarm.", _by_axis(done.limits_mm, last)),
        ("alarms", "Alarms since the last acknowledgement.", [({"kind": kind}, sum(it.kind == kind for it in alarms)) for kind in KINDS]),
    ]
    lines = []
    for family, text, samples in families:
        lines += [f"# HELP baseline_series_{family} {text}", f"# TYPE baseline_series_{family} gauge"]
        lines += [_sample(family, {"series": name, **labels}, value) for labels, value in samples if value is not None]
    return ("\n".join(lines) + "\n").encode("utf-8")


def _by_axis(values_mm, row: int) -> list[Sample]:
    return [({"axis": axis}, _metres(values_mm[row, c])) for c, axis in enumerate(AXES)] if row >= 0 else []


def _metres(value_mm: float) -> Optional[float]:
    return None if math.isnan(value_mm) else float(value_mm) / 1000


def _unix(gps: Optional[datetime]) -> Optional[float]:
    """Seconds since 1970 UTC of a GPS time."""
    return None if gps is None else utc(gps).replace(tzinfo=timezone.utc).timestamp()


def _sample(family: str, labels: dict[str, str], value: float) -> str:
    told = ",".join(f'{key}="{_label(text)}"' for key, text in labels.items())
    return f"baseline_series_{family}{{{told}}} {value:.15g}"


def _label(text: str) -> str:
    """A label's value: what doesn't print as an escape, then backslash and quote as the form asks."""
    return visible(text).replace("\\", "\\\\").replace('"', '\\"')
