"""Options that several words share, and how their values are read."""
from __future__ import annotations

import argparse
import math
from typing import Optional

from ..adjust import Settings
from ..antenna import Antenna, find_antenna, read_antex
from ..atmosphere import STANDARD, ZERO_CELSIUS_K, Weather
from ..combination import BY_RULE, COMBINATIONS
from ..errors import SurveyError
from ..rinex import is_corrected
from ..rinex_header import Header


def finite(word: str) -> float:
    """A number of an option: digits, a point, an exponent; no nan, no inf."""
    try:
        value = float(word) if "_" not in word else math.nan
    except ValueError:
        value = math.nan
    if not math.isfinite(value):
        raise argparse.ArgumentTypeError(f"no number: {word}")
    return value


def positive(word: str) -> float:
    """A number above 0."""
    value = finite(word)
    if value <= 0:
        raise argparse.ArgumentTypeError(f"not above 0: {word}")
    return value


def count(word: str) -> int:
    """A whole number of 1 to 9 digits, above 0."""
    if not (word.isascii() and word.isdigit() and len(word) < 10 and int(word)):
        raise argparse.ArgumentTypeError(f"no number above 0: {word}")
    return int(word)


def add_settings(parser: argparse.ArgumentParser, by_rule: bool = True) -> None:
    """The options of the adjustment. A word that compares the vectors of one line has one combination for all, and so none by the
    rule unless it is asked for."""
    group = parser.add_argument_group("adjustment")
    default = BY_RULE if by_rule else COMBINATIONS[0]
    group.add_argument("--combination", choices=(BY_RULE, *COMBINATIONS), default=default,
                       help="which phases: each for itself (both), the one without the ionosphere's first order, the narrow lane's, or "
                            f"both or ionosphere-free by a rule of length and time; default {default}")
    group.add_argument("--sigma", nargs=2, type=finite, default=(3.0, 3.0), metavar=("A", "B"),
                       help="a phase has the variance A^2 + B^2/sin^2(elevation), in mm; default 3 3")
    group.add_argument("--no-robust", action="store_true", help="let outliers count in full: plain weighted least squares")
    group.add_argument("--zenith", action="store_true", help="estimate the difference of the zenith delays; for an hour and more")
    group.add_argument("--zenith-sd", type=positive, default=10.0, metavar="MM",
                       help="the standard deviation of this difference from 0 beforehand; default 10")
    group.add_argument("--zenith-per-km", type=finite, default=40.0, metavar="MM",
                       help="the standard deviation beforehand of the difference of the zenith delays for each km of height, which is "
                            "estimated from 25 m of height on; default 40, 0 for none")
    group.add_argument("--no-troposphere", action="store_true", help="take no troposphere off")
    group.add_argument("--pressure", type=finite, metavar="HPA", help="pressure at the base; default by the standard atmosphere")
    group.add_argument("--temperature", type=finite, metavar="C", help="temperature at the base, in degrees Celsius")
    group.add_argument("--humidity", type=finite, metavar="PERCENT", help="relative humidity at the base")
    group.add_argument("--atx", metavar="FILE", help="phase centres of both antennas, ANTEX 1.4; needs BASE and ROVER")


def settings_of(options: argparse.Namespace, base_height_m: float, base: Optional[Header], rover: Optional[Header]) -> Settings:
    """The settings that these options ask for. Off files that `correct` made no troposphere is taken again."""
    corrected = {header.name: is_corrected(header.comments) for header in (base, rover) if header is not None}
    if len(set(corrected.values())) == 2:
        raise SurveyError("one of both files was made by `correct`, the other wasn't: "
                          + ", ".join(name for name, it in corrected.items() if it))
    at_base = at_rover = None
    if options.atx is not None:
        if base is None or rover is None:
            raise SurveyError("--atx needs BASE and ROVER, whose headers name the antennas")
        known = read_antex(options.atx)
        at_base, at_rover = _found(known, base, options.atx), _found(known, rover, options.atx)
    return Settings(
        sigma_a_m=options.sigma[0] / 1000, sigma_b_m=options.sigma[1] / 1000, combination=options.combination,
        zenith=options.zenith, zenith_sd_m=options.zenith_sd / 1000, zenith_per_m=options.zenith_per_km / 1e6,
        troposphere=not options.no_troposphere and not any(corrected.values()), robust=not options.no_robust,
        weather=weather_of(options, base_height_m), base_antenna=at_base, rover_antenna=at_rover)


def _found(known: tuple[Antenna, ...], header: Header, name: str) -> Antenna:
    try:
        return find_antenna(known, header.antenna, header.antenna_number, name)
    except SurveyError as why:
        raise SurveyError(f"{why}, for {header.name}") from None


def weather_of(options: argparse.Namespace, height_m: float) -> Weather:
    """The standard atmosphere, or the air at the base where one of its numbers is given."""
    given = (options.pressure, options.temperature, options.humidity)
    if all(it is None for it in given):
        return STANDARD
    if options.no_troposphere:
        raise SurveyError("--no-troposphere and a weather exclude each other")
    here = STANDARD.at(height_m)
    pressure, temperature, humidity = given
    return Weather(here.pressure_hpa if pressure is None else pressure,
                   here.temperature_k if temperature is None else temperature + ZERO_CELSIUS_K,
                   here.humidity if humidity is None else humidity / 100, height_m)


def both_or_none(options: argparse.Namespace) -> bool:
    """Whether BASE and ROVER are given; SurveyError where one is."""
    if (options.base is None) != (options.rover is None):
        raise SurveyError("ROVER is missing after BASE")
    return options.base is not None
