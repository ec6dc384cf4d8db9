"""Pictures of an observation and of a series, by matplotlib. Texts in them are names of others: they are escaped, and never read as
mathematics. Angles in radians, lengths in metres, as everywhere; axes are labelled in degrees and mm."""
from __future__ import annotations

import io
import math
import os
import re
from datetime import datetime
from typing import Any, Callable, Optional, Sequence

import matplotlib
import numpy as np

matplotlib.use("Agg")
from matplotlib import dates  # noqa: E402
from matplotlib.figure import Figure  # noqa: E402

from . import alarm  # noqa: E402
from .adjust import Blocks, Residuals  # noqa: E402
from .certificate import time_of  # noqa: E402
from .errors import SurveyError  # noqa: E402
from .text import visible  # noqa: E402

# Okabe and Ito's colours, which colour-blind readers can tell apart.
BLUE, ORANGE, GREEN, RED, GREY = "#0072b2", "#e69f00", "#009e73", "#d55e00", "#777777"
SIGNAL_COLOURS = (BLUE, ORANGE, GREEN)
STYLE: dict[str, Any] = {
    "text.parse_math": False, "svg.fonttype": "none", "font.family": "sans-serif", "font.size": 8, "axes.spines.top": False,
    "axes.spines.right": False, "axes.grid": True, "grid.color": "#dddddd", "grid.linewidth": 0.6, "axes.edgecolor": GREY,
    "axes.titlesize": 8, "axes.titlelocation": "left", "legend.frameon": False, "axes.axisbelow": True, "axes.unicode_minus": True,
}
FORMS = (".png", ".svg", ".pdf")


def as_svg(draw: Callable[[], Figure], name: str) -> str:
    """A picture as an SVG element for an HTML page: without an XML head, metadata or references outside. Its ids are `name`
    with a number, in their order, so that several can stand in one page and the same picture is the same text."""
    with matplotlib.rc_context({**STYLE, "svg.hashsalt": name}):
        file = io.StringIO()
        draw().savefig(file, format="svg", bbox_inches="tight", pad_inches=0.05, metadata={"Date": None, "Creator": None})
    text = file.getvalue()
    text = text[text.index("<svg"):]
    text = re.sub(r"<metadata>.*?</metadata>", "", text, flags=re.S)
    ids = {old: f"{name}-{k}" for k, old in enumerate(dict.fromkeys(re.findall(r'\bid="([^"]*)"', text)))}
    return re.sub(r'(\bid="|xlink:href="#|url\(#)([^")]*)', lambda it: it[1] + ids.get(it[2], it[2]), text)


def drawn(path: str, draw: Callable[[], Figure]) -> tuple[str, bytes]:
    """A picture's name and its bytes, as PNG, SVG or PDF by the ending of its name."""
    form = os.path.splitext(path)[1].lower()
    if form not in FORMS:
        raise SurveyError(f"{path}: a picture's name ends in {', '.join(FORMS)}")
    with matplotlib.rc_context({**STYLE, "svg.hashsalt": "baseline-survey"}):
        file = io.BytesIO()
        draw().savefig(file, format=form[1:], dpi=150, bbox_inches="tight", metadata={"CreationDate": None} if form == ".pdf" else None)
    return path, file.getvalue()


def _times(tags: np.ndarray) -> list[datetime]:
    return [time_of(int(tag)) for tag in tags]


def _clock(axes: matplotlib.axes.Axes, ticks: int = 4) -> None:
    locator = dates.AutoDateLocator(minticks=2, maxticks=ticks)
    axes.xaxis.set_major_locator(locator)
    axes.xaxis.set_major_formatter(dates.DateFormatter("%H:%M"))


def residuals_by_satellite(residuals: Residuals) -> Figure:
    """A small panel for each satellite: its residuals over the time, all with one scale."""
    satellites = sorted(set(residuals.satellite.tolist()))
    signals = sorted(set(residuals.signal.tolist()))
    columns = 3
    rows = -(-len(satellites) // columns)
    times = dates.date2num(_times(residuals.tag))
    reach = max(10.0, 1000 * float(np.abs(residuals.residual_m).max()) * 1.1)
    with_legend = len(signals) > 1
    figure = Figure(figsize=(7.2, 0.3 + 1.0 * rows + 0.15 * with_legend))
    grid = figure.subplots(rows, columns, sharex=True, sharey=True, squeeze=False)
    for k, axes in enumerate(grid.flat):
        if k >= len(satellites):
            axes.set_visible(False)
            continue
        own = residuals.satellite == satellites[k]
        for signal, colour in zip(signals, SIGNAL_COLOURS):
            some = own & (residuals.signal == signal)
            axes.plot(times[some], 1000 * residuals.residual_m[some], ".-", ms=2.5, lw=0.6, color=colour, label=signal)
        low, high = (math.degrees(float(it)) for it in (residuals.elevation[own].min(), residuals.elevation[own].max()))
        axes.set_title(f"{satellites[k]}  {low:.0f}° to {high:.0f}°")
        axes.axhline(0, color=GREY, lw=0.6)
        if k + columns >= len(satellites):
            axes.tick_params(labelbottom=True)
            _clock(axes)
        if k % columns == 0:
            axes.set_ylabel("mm")
    grid.flat[0].set_ylim(-reach, reach)
    figure.tight_layout(rect=(0, 0, 1, 1 - 0.15 / figure.get_figheight() * with_legend), h_pad=0.6)
    if with_legend:
        figure.legend(*grid.flat[0].get_legend_handles_labels(), loc="upper right", ncol=len(signals), borderaxespad=0)
    return figure


def sky(residuals: Residuals) -> Figure:
    """Where the satellites stood, seen from the base: north up, east right, the zenith in the middle."""
    figure = Figure(figsize=(3.3, 3.3))
    axes = figure.add_subplot(projection="polar")
    axes.set_theta_zero_location("N")
    axes.set_theta_direction(-1)
    for satellite in sorted(set(residuals.satellite.tolist())):
        own = residuals.satellite == satellite
        order = np.argsort(residuals.tag[own], kind="stable")
        azimuth, away = residuals.azimuth[own][order], 90 - np.degrees(residuals.elevation[own][order])
        axes.plot(azimuth, away, "-", color=BLUE, lw=1.6, solid_capstyle="round")
        axes.plot(azimuth[-1:], away[-1:], "o", color=BLUE, ms=4)
        axes.annotate(satellite, (float(azimuth[-1]), float(away[-1])), xytext=(4, 3), textcoords="offset points", fontsize=7)
    axes.set_ylim(0, 90)
    axes.set_yticks([30, 60, 90], labels=["60°", "30°", ""], color=GREY)
    axes.set_xticks(np.radians([0, 90, 180, 270]), labels=["N", "E", "S", "W"])
    return figure


def parts(blocks: Blocks, sd_enu_m: Sequence[float]) -> Figure:
    """The vectors of the observation's parts less the whole one, east, north and up."""
    figure = Figure(figsize=(3.7, 3.3))
    panels = figure.subplots(3, 1, sharex=True)
    times = dates.date2num(list(blocks.middles))
    for axes, name, values, sd in zip(panels, alarm.AXES, 1000 * blocks.differences_enu_m.T, 1000 * np.asarray(sd_enu_m)):
        axes.axhspan(-2 * sd, 2 * sd, color=BLUE, alpha=0.12, lw=0)
        axes.plot(times, values, "o-", ms=3, lw=0.8, color=BLUE)
        axes.axhline(0, color=GREY, lw=0.6)
        axes.set_ylabel(f"{name}, mm")
        reach = max(2.0, 1.15 * float(np.abs(values).max()), 2.3 * float(sd))
        axes.set_ylim(-reach, reach)
    _clock(panels[-1], 5)
    figure.align_ylabels(panels)
    figure.tight_layout(h_pad=0.4)
    return figure


def series_picture(done: alarm.Series, title: str) -> Figure:
    """East, north and up of a series against the reference with the alarm lines; declines are ticks below, alarms red."""
    figure = Figure(figsize=(10, 6))
    panels = figure.subplots(3, 1, sharex=True)
    with_time = [k for k, row in enumerate(done.rows) if row.time is not None]
    times = np.full(len(done.rows), math.nan)
    for k in with_time:
        times[k] = dates.date2num(done.rows[k].time)
    gaps = [k for k in with_time if done.rows[k].enu_m is None]
    fixed = [k for k in with_time if done.rows[k].enu_m is not None and done.reference is not None]
    typical = done.typical(done.limits_mm)
    for c, (axes, name) in enumerate(zip(panels, alarm.AXES)):
        values, sd = done.deviations_mm[:, c], done.sd_mm[:, c]
        axes.errorbar(times[fixed], values[fixed], yerr=sd[fixed], fmt="o", ms=2.5, lw=0.6, color=BLUE, ecolor="#9ec9e2", zorder=2)
        alarmed = sorted({it.row for it in done.alarms if it.axis == name and it.row is not None})
        if alarmed:
            axes.plot(times[alarmed], values[alarmed], "o", ms=5, mfc="none", mec=RED, zorder=3)
        if typical is not None:
            for sign in (-1, 1):
                axes.axhline(sign * typical[c], color=RED, lw=0.8, ls="--")
            axes.axhline(0, color=GREY, lw=0.6)
        axes.plot(times[gaps], np.zeros(len(gaps)), "|", color=ORANGE, ms=9, mew=1.6, transform=axes.get_xaxis_transform(), clip_on=False)
        axes.set_ylabel(f"{name}, mm")
    if with_time:
        locator = dates.AutoDateLocator()
        panels[-1].xaxis.set_major_locator(locator)
        panels[-1].xaxis.set_major_formatter(dates.ConciseDateFormatter(locator))
    panels[0].set_title(visible(title))
    panels[-1].set_xlabel("less the reference, with one standard deviation; dashed: alarm of a typical session; red: alarm; "
                          "orange: no fix", color=GREY)
    figure.align_ylabels(panels)
    figure.subplots_adjust(hspace=0.12)
    return figure


def drawn_series(path: str, done: alarm.Series, title: str) -> tuple[str, bytes]:
    """The same of a series."""
    return drawn(path, lambda: series_picture(done, title))
