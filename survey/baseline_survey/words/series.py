"""One baseline over many sessions: a row for each by the clock, a picture, and an alarm against each vector's own precision.

    baseline-survey series SESSIONS --picture series.png --metrics series.prom

SESSIONS is a folder with a certificate of `fix` (NAME.cert) for each session, or a list of lines CERT or TIME CERT. A decline
is a row without a vector; where it has no pairs, its time is that of its name (20050402_0015.cert) or of the list.

The rows stand in a log (--log, by default SESSIONS/series.tsv or SESSIONS.tsv), which is replaced whole. A new call adds what
is new and does what a kill left undone; nothing is doubled. A vector is taken only from a certificate that `baseline check`
certifies, or with --unchecked from any.

Status 1 on an alarm. Of a movement: `jump`, one fix is further from the reference (the median of the first fixes) than
--sigmas of its own scaled standard deviation; `creep`, the weighted mean of the last --window fixes is. Of the station:
`base`, the header of the base has another position than in the session before; `short`, a session has fewer than three
quarters of the usual pairs; `dead`, --silent sessions have passed without a fix. With --since TIME only later alarms count.
"""
from __future__ import annotations

import argparse
import functools
import hashlib
import math
import os
from datetime import datetime
from typing import Any, Iterator, Optional, Sequence

from .. import alarm, metrics, program, series
from ..adjust import Settings
from ..cli import Outcome
from ..text import nearest_second, number, numbers, table, visible
from .options import add_settings, count, positive, settings_of

SHOWN = 12  # rows in the text


def configure(parser: argparse.ArgumentParser) -> None:
    parser.add_argument("sessions", metavar="SESSIONS")
    parser.add_argument("--name", metavar="NAME", help="what the series is called; by default the name of SESSIONS")
    parser.add_argument("--log", metavar="FILE", help="the table of the rows")
    parser.add_argument("--picture", metavar="FILE", help="draw the series: .png, .svg or .pdf")
    parser.add_argument("--metrics", metavar="FILE", help="write the state in the text form of Prometheus")
    parser.add_argument("--all", action="store_true", help=f"print every row, not the last {SHOWN}")
    parser.add_argument("--unchecked", action="store_true", help="don't run `baseline check`")
    parser.add_argument("--program", metavar="FILE",
                        help="the built program, else the variable BASELINE, the repository's or that in PATH")
    limits = parser.add_argument_group("alarm")
    limits.add_argument("--reference", type=reference, default=24, metavar="N",
                        help=f"the first N fixes, {alarm.LEAST_FIXES} or more, are the reference; default 24")
    limits.add_argument("--sigmas", type=sigmas, default=4.0, metavar="K",
                        help="the limit in scaled standard deviations, of many fixes; 1 to 8, default 4")
    limits.add_argument("--window", type=count, default=12, metavar="N", help="fixes whose mean shows a creep; default 12")
    limits.add_argument("--floor", type=positive, default=0.0, metavar="MM", help="no jump and no creep below this deviation")
    limits.add_argument("--silent", type=count, default=3, metavar="N", help="sessions without a fix that are an alarm; default 3")
    limits.add_argument("--until", type=time, metavar="TIME", help="a session of this time should be there: 2005-04-02T00:00")
    limits.add_argument("--since", type=time, metavar="TIME", help="earlier alarms don't count: 2005-04-02T00:00")
    add_settings(parser, by_rule=False)


def time(word: str) -> datetime:
    """A time of an option: GPS time, without a zone."""
    try:
        return series.gps_time(word)
    except ValueError:
        raise argparse.ArgumentTypeError(f"{word}: a time as 2005-04-02T00:00 (GPS time) is expected") from None


def reference(word: str) -> int:
    """How many fixes are the reference; with fewer than the least there would never be one, and so never an alarm of a movement."""
    fixes = count(word)
    if fixes < alarm.LEAST_FIXES:
        raise argparse.ArgumentTypeError(f"{word}: a reference has {alarm.LEAST_FIXES} fixes or more")
    return fixes


def sigmas(word: str) -> float:
    value = positive(word)
    if not 1 <= value <= 8:
        raise argparse.ArgumentTypeError(f"{word}: a number from 1 to 8 is expected")
    return value


def run(options: argparse.Namespace) -> Outcome:
    source = options.sessions
    name = options.name or os.path.basename(os.path.abspath(source))
    log = options.log or (os.path.join(source, "series.tsv") if os.path.isdir(source) else source + ".tsv")
    check = None if options.unchecked else functools.partial(program.check, program.find(options.program))
    rows, fresh = series.update(source, log, functools.partial(_settings, options), _key(options), check)
    limits = alarm.Limits(options.reference, options.sigmas, options.window, options.floor, options.silent)
    counting, again = series.once(rows)
    done = alarm.judge(counting, limits, options.until)
    counted = [it for it in done.alarms if not options.since or not it.time or nearest_second(it.time) >= options.since]
    made = []
    if options.picture:
        from .. import pictures
        made.append(pictures.drawn_series(options.picture, done, name))
    if options.metrics:
        made.append((options.metrics, metrics.metrics(done, counted, name)))
    text = [*_head(done, name, fresh), *_again(again), *_alarms(done, counted), *_reference(done), *_rows(done, counted, options.all)]
    return Outcome("\n".join(text), {"name": name, "new": fresh, "again": [[row.name, first.name] for row, first in again],
                                      **_facts(done, counted)}, 1 if counted else 0, files=made)


def _settings(options: argparse.Namespace, height_m: float) -> Settings:
    return settings_of(options, height_m, None, None)


def _key(options: argparse.Namespace) -> str:
    """What of the options decides the rows, for the log: the combination in words, all settings as a checksum."""
    settings = repr(_settings(options, 0.0)).encode()
    return f"{options.combination} {hashlib.sha256(settings).hexdigest()[:12]} {'unchecked' if options.unchecked else 'checked'}"


# ---- as text


def _when(moment: Optional[datetime]) -> str:
    return f"{nearest_second(moment):%Y-%m-%d %H:%M}" if moment else "no time"


def _head(done: alarm.Series, name: str, fresh: int) -> Iterator[str]:
    rows = done.rows
    span = f", from {_when(rows[0].time)} to {_when(rows[-1].time)} GPS time" if rows else ""
    yield f"series {visible(name)}: {len(rows)} sessions, {done.fixed} fixed, {fresh} new{span}"
    states: dict[str, int] = {}
    for row in rows:
        state = row.state.split(":")[0]
        states[state] = states.get(state, 0) + 1
    yield from (f"{visible(state)}: {k}" for state, k in sorted(states.items()) if state != "fixed")


def _again(again: Sequence[tuple[series.Row, series.Row]]) -> Iterator[str]:
    """A line of the certificates that don't count, with the first of them."""
    if again:
        row, first = again[0]
        yield f"again: {len(again)}, of sessions that count already: {visible(row.name)} is that of {visible(first.name)}" + (
            ", .." if len(again) > 1 else "")


def _alarms(done: alarm.Series, counted: Sequence[alarm.Alarm]) -> Iterator[str]:
    """A line for each kind and coordinate, with the first and the last alarm."""
    groups: dict[tuple[str, str], list[alarm.Alarm]] = {}
    for it in counted:
        groups.setdefault((it.kind, it.axis), []).append(it)
    for (kind, axis), some in groups.items():
        more = f"; {len(some)} in all, the last {_when(some[-1].time)}: {some[-1].text}" if len(some) > 1 else ""
        yield f"alarm {kind}{' ' + axis if axis else ''} since {_when(some[0].time)}: {some[0].text}{more}"


def _reference(done: alarm.Series) -> Iterator[str]:
    if done.reference is None:
        yield f"no reference: {alarm.LEAST_FIXES} fixes are needed"
        return
    yield f"reference_m {numbers(done.reference.enu_m, 4)} (east north up)"
    sd, limit = done.typical(done.sd_mm), done.typical(done.limits_mm)
    if sd and limit:
        yield f"a typical fix has the standard deviations {numbers(sd, 1)} mm, and is an alarm from {numbers(limit, 1)} mm on"


def _rows(done: alarm.Series, counted: Sequence[alarm.Alarm], whole: bool) -> list[str]:
    """The last rows as a table, or all of them."""
    kinds: dict[Optional[int], list[str]] = {}
    for it in counted:
        kinds.setdefault(it.row, []).append(it.kind)
    lines = []
    for k in range(0 if whole else max(0, len(done.rows) - SHOWN), len(done.rows)):
        row = done.rows[k]
        off = ["" if math.isnan(x) else number(float(x), 1) for x in (*done.deviations_mm[k], *done.sd_mm[k])]
        ratio = "" if row.ratio_reached is None else number(row.ratio_reached, 1)
        state = " ".join([visible(row.state), *(["ALARM", *dict.fromkeys(kinds[k])] if k in kinds else [])])
        lines.append([_when(row.time), *off, str(row.satellites or ""), str(row.pairs or ""), ratio, state])
    head = ["time", "east", "north", "up", "sd_e", "sd_n", "sd_u", "sats", "pairs", "ratio", "state"]
    return ["", *table(head, lines)] if lines else []


# ---- as values


def _facts(done: alarm.Series, counted: Sequence[alarm.Alarm]) -> dict[str, Any]:
    def plain(values: Any) -> Optional[list[float]]:
        return None if any(math.isnan(x) for x in values) else [float(x) for x in values]
    rows = [{"time": row.time.isoformat() if row.time else None, "name": row.name, "state": row.state,
             "enu_m": list(row.enu_m) if row.enu_m else None, "deviation_mm": plain(done.deviations_mm[k]),
             "sd_mm": plain(done.sd_mm[k]), "limit_mm": plain(done.limits_mm[k]), "satellites": row.satellites, "pairs": row.pairs,
             "ratio_reached": row.ratio_reached, "base_m": list(row.base_m) if row.base_m else None, "sha256": row.sha256}
            for k, row in enumerate(done.rows)]
    reference = done.reference
    return {"fixed": done.fixed, "reference_m": reference.enu_m.tolist() if reference else None,
            "scales": reference.scales.tolist() if reference else None, "rows": rows,
            "alarms": [{"row": it.row, "kind": it.kind, "time": it.time.isoformat() if it.time else None, "text": it.text,
                        "axis": it.axis or None, "deviation_mm": it.deviation_mm, "limit_mm": it.limit_mm} for it in counted]}
