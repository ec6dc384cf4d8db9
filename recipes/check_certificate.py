#!/usr/bin/env python3
"""check_certificate.py [--strict] [--visits N] [--] CERT: decides a certificate of `fix` or `track` again, from its rows alone.

A second source beside `baseline check` and `check-track`: written from docs/FORMATS.md (how a certificate is spelled) and
docs/DEFINITIONS.md (what its rows decide), without the program's code. It needs Python 3.8 or later and nothing else. All
its numbers are whole, and nothing is rounded but where the definitions round.

It prints what `check` prints, with its statuses: `certified`, `not certified` and the cause (1), `refused:` with line and
column (3); a usage error is 2, a file that can't be read 4, an output that can't be written 5, no memory 6. Of a certified
text it also prints the vector, or the places of a track, in metres; and `bound D`: in each of X, Y and Z the least-squares
vector of any observations in the boxes lies within D mm of that vector, before it is rounded (DEFINITIONS, "The vector's bound").

A text may name a budget of 100000000. After N visits of both searches together (5000000) standard error has `not decided:
stopped after N visits`, and the status is 7. It has a line `note: ..`, too, for each way in which the text isn't as `fix`
and `track` write it. A note isn't a verdict: rows that were made up well have none. With --strict a certified text with a
note ends with 1, and its vector isn't printed.

As a module it works on texts in memory, and prints nothing:

    cert = read(data)                       # a Certificate; Refused where the bytes are none
    decision = decide(cert, visits=1000)    # NotCertified(cause), or NotDecided after so many visits
    certify(cert)                           # the same, and NotCertified("tail") where the text's tail is another
    notes(cert)                             # a list of texts
    vectors(cert)                           # of a fixed text: one, or one for each pair of a track, in 0.1 mm
    bounds(cert, decision.fronts)           # of a certified text: one for each vector, in 0.01 mm, or None

The unit of length is the iota, 299792458 / 2174079600000 m (about 0.138 mm). Observations are in 2^-13 iota, directions in
2^-24, a move in 2^-5 iota, a place in 0.1 mm, a tag in 100 ns since 1980-01-06 (GPS time).
"""
import itertools
import math
import operator
import os
import re
import sys
import time
from array import array
from contextlib import suppress
from dataclasses import dataclass
from functools import lru_cache
from typing import List, NamedTuple, Optional, Tuple

MOST_VISITS = 5_000_000
MOST_BYTES = 67_108_864
WAVELENGTHS = {1: 1380, 2: 1771, 5: 1848}  # of the bands, in iota
SHARE = 360360  # a multiple of 1 to 15, the numbers of rows that a pair may have
# What a row observes, in its order: the band, and the weight of a phase or of a code.
PHASE, CODE = 10000, 1
SIGNALS = [(1, PHASE), (2, PHASE), (1, CODE), (2, CODE), (5, PHASE), (5, CODE)]
LETTERS = {"12": ["CWXSL", "WXLSC"], "15": ["CWXSL", "QXI"], "125": ["CWXSL", "WXLSC", "QXI"]}


def ceil_div(z, m):
    return -(-z // m)


def nearest_div(z, m):
    """The nearest whole number to z/m, of two the greater."""
    return (2 * z + m) // (2 * m)


def dot(xs, ys):
    """The sum of products, up to the end of the shorter list."""
    return sum(map(operator.mul, xs, ys))


def is_large(limit, *lists):
    """Whether a number has this size or more."""
    return any(numbers and (max(numbers) >= limit or min(numbers) <= -limit) for numbers in lists)


class Refused(Exception):
    """The text is no certificate: why, and line and column from 1, or 0 for a text that is too large."""

    def __init__(self, reason, line=0, column=0):
        super().__init__(f"line {line} column {column}: {reason}" if line else reason)
        self.reason, self.line, self.column = reason, line, column


class NotCertified(Exception):
    """Why the rows, or the tail, don't say a fix."""


class NotDecided(Exception):
    """The script's own limit of visits."""


def progress(text):
    """Says on a terminal, every two seconds, how far a long decision is."""
    if time.monotonic() >= progress.due:
        progress.due = time.monotonic() + 2
        complain(text)


progress.due = math.inf
Integers, Triple = Tuple[int, ...], Tuple[int, int, int]

# A satellite without a cycle slip from pair `first` to pair `last`; the whole cycles that were taken off its phases, by band.
Arc = NamedTuple("Arc", [("satellite", int), ("first", int), ("last", int), ("is_datum", bool), ("shifts", Integers)])
# One satellite in one pair: rover less base less what is computed at the point, one number for each signal; its direction,
# from the satellite to the receivers; and the radii of both boxes.
Row = NamedTuple("Row", [
    ("arc", int), ("observed", Integers), ("radius", int), ("direction", Triple), ("direction_radius", Triple)])
# Two epochs of one time; `at` is the rover's point of this pair in a track.
Pair = NamedTuple("Pair", [("number", int), ("tag", int), ("group", int), ("rows", List[Row]), ("at", Optional[Triple])])
# What decides: the upper sum is at most 2^exponent times `top`, `best` and `second` are the form's values at z1 and z2.
Values = NamedTuple("Values", [("exponent", int), ("best", int), ("second", int), ("top", int)])
# The end of a text: its last line, and before it, but in most declines, two vectors, moves (of a track one a pair) and values.
Tail = NamedTuple("Tail", [
    ("verdict", str), ("z1", Integers), ("z2", Integers), ("moves", Tuple[Triple, ...]), ("values", Optional[Values])])


@dataclass
class Certificate:
    """What a text says. `ratio` is in thousandths, `codes` has a letter for each band, a track has no `point`. `signals` are the
    band and the weight of each number that a row observes; `places` tells by arc and band where an integer stands in a vector;
    `groups` are the pairs with one baseline: all of a session, each alone in a track."""
    is_track: bool
    ratio: int
    budget: int
    system: str
    base: Triple
    point: Optional[Triple]
    bands: Integers
    codes: Tuple[str, ...]
    arcs: List[Arc]
    pairs: List[Pair]
    tail: Tail

    def __post_init__(self):
        self.signals = [it for it in SIGNALS if it[0] in self.bands]
        free = [at for at, arc in enumerate(self.arcs) if not arc.is_datum]
        self.places = {key: at for at, key in enumerate(itertools.product(free, self.bands))}
        self.groups = [[pair] for pair in self.pairs] if self.is_track else [self.pairs]


# ---- the text: FORMATS, "Certificates" and "Certificates of tracks"


def is_number(word):
    digits = word[1:] if word[:1] == "-" else word
    return word == "0" or (digits.isascii() and digits.isdigit() and digits[0] != "0")


def fits(word, part):
    """Whether a word is spelled as a part of a line: a word, one of a list of words, or a number of a range."""
    return word == part if isinstance(part, str) else is_number(word) if isinstance(part, range) else word in part


@lru_cache(maxsize=None)
def line_of_numbers(word, count):
    return re.compile(rb"%b((?: (?:0|-?[1-9][0-9]*)){%d})" % (word.encode(), count))


class Lines:
    """Takes the lines of a text in turn. A shape is a list of the parts of a line: a word, a list of words of which one
    stands there, or the range of a number."""

    def __init__(self, data):
        self.data, self.at, self.number = data, 0, 0

    def refuse(self, column=1, reason="bad line"):
        raise Refused(reason, self.number, column)

    def line(self):
        """The next line. It is cut out when its turn comes: a text of 64 MiB is held once."""
        self.number += 1
        start, end = self.at, self.data.find(b"\n", self.at, self.at + 4097)
        if end < 0:
            self.refuse(reason="line too long" if len(self.data) - start > 4096 else "bad line")
        self.at = end + 1
        return self.data[start:end]

    def words(self):
        return self.line().decode("latin-1").split(" ")

    def take(self, *shapes, words=None):
        """The numbers and the chosen words of the next line, or of one that was taken, which has one of these shapes."""
        words = words or self.words()
        shape = next((it for it in shapes if len(it) == len(words) and all(map(fits, words, it))), None) or self.refuse()
        for at, (word, part) in enumerate(zip(words, shape)):
            if isinstance(part, range) and int(word) not in part:
                self.refuse(len(" ".join(words[:at])) + 2, "number out of range")
        chosen = [(word, part) for word, part in zip(words, shape) if not isinstance(part, str)]
        return tuple(int(word) if isinstance(part, range) else word for word, part in chosen)

    def numbers(self, word, *ranges):
        """The numbers of the next line, which has this word and a number of each range: quickly, since nearly all are rows."""
        found = line_of_numbers(word, len(ranges)).fullmatch(self.line()) or self.refuse()
        numbers = tuple(map(int, found[1].split()))
        if not all(map(operator.contains, ranges, numbers)):
            wrong = [x in part for x, part in zip(numbers, ranges)].index(False)
            self.refuse(len(b" ".join(found[0].split(b" ")[:wrong + 1])) + 2, "number out of range")
        return numbers


def below(bound):
    return range(1 - bound, bound)


PLACE, MOVE, RADIUS = [below(70_000_000_001)] * 3, [below(2**46)] * 3, range(2**20 + 1)
WIDE_PLACES = ["y", "factor", "entry", "float", "point", "search", "sum"]


def read(data: bytes) -> Certificate:
    """What a text says; Refused where it is no certificate."""
    if len(data) > MOST_BYTES:
        raise Refused("file too large")
    lines, is_track = Lines(data), data.startswith(b"baseline-track")
    lines.take(["baseline-track", "1"] if is_track else ["baseline-cert", "2"])
    (ratio,), (budget,) = lines.numbers("ratio", range(1000, 100_001)), lines.numbers("budget", range(1, 100_000_001))
    (system,) = lines.take(["system", ["G", "E"]])
    base, point = lines.numbers("base", *PLACE), None if is_track else lines.numbers("point", *PLACE)
    name, *codes = lines.take(*(["signals", [bands], *map(list, letters)] for bands, letters in LETTERS.items()))
    arcs = read_arcs(lines, len(name))
    pairs = read_pairs(lines, arcs, is_track, 2 * len(name))
    integers = len(name) * sum(not arc.is_datum for arc in arcs)
    tail = read_tail(lines, [pair.number for pair in pairs] if is_track else None, budget, integers)
    if lines.at < len(data):
        lines.take()
    return Certificate(is_track, ratio, budget, system, base, point, tuple(map(int, name)), tuple(codes), arcs, pairs, tail)


def read_arcs(lines, bands):
    arcs, free = [], 0
    for left in range(*lines.numbers("arcs", range(2, 201)), 0, -1):
        words = lines.words()
        kinds = ["datum"] if free == 20 else ["free"] if left == 1 and not free else ["datum", "free"]
        first = int(words[2]) if len(words) > 2 and is_number(words[2]) else 0
        shape = ["arc", range(1, 37), range(3600), range(first, 3600), kinds, *[below(2**40)] * bands]
        satellite, first, last, kind, *shifts = lines.take(shape, words=words)
        free += kind == "free"
        arcs.append(Arc(satellite, first, last, kind == "datum", tuple(shifts)))
    return arcs


def read_pairs(lines, arcs, is_track, signals):
    pairs, least = [], 0
    numbers = [*[below(2**34 + 1)] * signals, RADIUS, *[below(2**24 + 1)] * 3, *[RADIUS] * 3]
    for _ in range(*lines.numbers("pairs", range(1, 3601))):
        number, tag, group, count = lines.numbers("pair", range(least, 3600), range(2**63), below(2**55), range(1, 16))
        at, rows = lines.numbers("at", *PLACE) if is_track else None, []
        holding = [at for at, arc in enumerate(arcs) if arc.first <= number <= arc.last]
        for _ in range(count):
            row = lines.numbers("row", holding, *numbers)
            rows.append(Row(row[0], row[1:-7], row[-7], row[-6:-3], row[-3:]))
            holding = holding[holding.index(row[0]) + 1:]
        pairs.append(Pair(number, tag, group, rows, at))
        least = number + 1
        progress(f"read: {len(pairs)} pairs")
    return pairs


def read_tail(lines, numbers, budget, integers):
    """The end of a text. `numbers` has those of a track's pairs."""
    words, stage = lines.words(), ["fine"] if numbers is None else []
    if words[0] != "z1":
        unsettled = [["unsettled", "fine", below(2**46)]] if numbers is None else []
        spent = ["spent", range(budget, budget + 1)]
        causes = [["weak", *stage, range(63), below(2**52)], ["overwidth", *stage, WIDE_PLACES], spent, *unsettled]
        lines.take(*(["declined", *cause] for cause in causes), words=words)
        return Tail(" ".join(words), (), (), (), None)
    entries = [below(2**30)] * integers
    z1, z2 = lines.take(["z1", *entries], words=words), lines.numbers("z2", *entries)
    moves = [lines.numbers("move", *MOVE)] if numbers is None else [lines.numbers("move", [it], *MOVE)[1:] for it in numbers]
    values = Values(*lines.numbers("values", range(128), *[below(2**126)] * 3))
    return Tail(" ".join(lines.take([["fixed"]], [["declined"], ["unseparated"]])), z1, z2, tuple(moves), values)


# ---- what `fix` and `track` write: DEFINITIONS 8 and 9, FORMATS, "Certificates"


def misnamed(cert):
    """Arcs that are called datum, or free, against the rule: by first pair and satellite, a datum begins after all before it end."""
    reach = -1
    for at, arc in sorted(enumerate(cert.arcs), key=lambda it: (it[1].first, it[1].satellite)):
        if (arc.first > reach) != arc.is_datum:
            wrong, right = ("datum", "free") if arc.is_datum else ("free", "a datum")
            yield f"arc {at} is called {wrong}; by its pairs it is {right}, and integers of a datum are compared with nothing"
        reach = max(reach, arc.last)


def is_direction(row):
    """Whether the boxes, one unit wider, hold a vector of length one."""
    boxes = list(zip(map(abs, row.direction), row.direction_radius))
    return sum(max(u - r - 1, 0)**2 for u, r in boxes) <= 2**48 <= sum((u + r + 1)**2 for u, r in boxes)


def notes(cert: Certificate) -> List[str]:
    """In which ways a text isn't as `fix` and `track` write it: of each kind the first place, and how many more."""
    arcs, pairs, system, signals = cert.arcs, cert.pairs, cert.system, " ".join(["".join(map(str, cert.bands)), *cert.codes])
    rows = [(f"pair {pair.number} arc {row.arc}: ", row) for pair in pairs for row in pair.rows]
    kinds = [
        list(misnamed(cert)),
        [f"arc {at} is out of order" for at, (a, b) in enumerate(zip(arcs, arcs[1:]), 1) if (a.first, a.satellite) >= (b.first, b.satellite)],
        [f"pair {it.number} has a satellite twice" for it in pairs if len({arcs[row.arc].satellite for row in it.rows}) < len(it.rows)],
        [f"pair {one.number} isn't later than the pair before it" for one, last in zip(pairs[1:], pairs) if one.tag <= last.tag],
        [f"pair {it.number} is later than 2099, the last year that is read" for it in pairs if it.tag >= 43825 * 864 * 10**9],
        [place + "the direction's length isn't one" for place, row in rows if not is_direction(row)],
        [place + "RY is over 470" for place, row in rows if row.radius > 470],
        [place + "R is over 32" for place, row in rows if max(row.direction_radius) > 32],
        [f"arc {at} has satellite {it.satellite}, which GPS hasn't" for at, it in enumerate(arcs) if system == "G" and it.satellite > 32],
        [f"the signals {signals} aren't those of Galileo"] if system == "E" and not re.match("15 [CX] ", signals) else []]
    return [kind[0] + (f" (and {len(kind) - 1} more)" if kind[1:] else "") for kind in kinds if kind]


# ---- the form: DEFINITIONS, "The normal matrix and the integer form". A symmetric matrix is kept as its upper half: row i
# begins with its own entry, that in column i.


def normal_matrix(cert, pairs):
    """The matrix of the rows, and for each column of the baseline and the constant the sum of squares of radii."""
    size, weights = 4 + len(cert.places), sum(weight for _, weight in cert.signals)
    matrix, radii = [[0] * (size - i) for i in range(size)], [0] * 4
    for pair in pairs:
        progress(f"sum: pair {pair.number}")
        n = len(pair.rows)
        for q, (band, weight) in enumerate(cert.signals):
            columns = [(i, [-row.direction[i] for row in pair.rows]) for i in range(3)]
            for at, row in enumerate(pair.rows if weight == PHASE else ()):
                if (row.arc, band) in cert.places:
                    columns.append((3 + cert.places[row.arc, band], [-WAVELENGTHS[band] * 2**13 * (k == at) for k in range(n)]))
            columns.append((size - 1, [row.observed[q] for row in pair.rows]))
            summed = [(i, numbers, sum(numbers)) for i, numbers in columns]
            for (i, xs, x), (j, ys, y) in itertools.combinations_with_replacement(summed, 2):
                matrix[i][j - i] += SHARE // n * weight * (n * dot(xs, ys) - x * y)
        for i, column in enumerate(zip(*((*row.direction_radius, row.radius) for row in pair.rows))):
            radii[i] += SHARE * weights * dot(column, column)
    return matrix, radii


def steps(form, count, name):
    """`count` steps of the elimination, the first of the column `name`: what is kept of each pivot, the factors of each step
    with the later columns, and the form that is left."""
    kept, factors = [], []
    for column in range(name, name + count):
        pivot, *others = form[0]
        if pivot < 2**20:
            raise NotCertified(f"weak {column} {pivot}")
        kept.append(pivot - ceil_div(pivot, 2**20))
        factors.append([nearest_div(r * 2**30, pivot) for r in others])
        if is_large(2**52, factors[-1]):
            raise NotCertified("overwidth factor")
        loss = len(others) + ceil_div(len(others) * pivot, 2**42)
        form = [step_row(row, others[i:], pivot, loss) for i, row in enumerate(form[1:])]
        if is_large(2**52, *form):
            raise NotCertified("overwidth entry")
    return kept, factors, form


def step_row(row, others, pivot, loss):
    """A row of the form after a step. `others` has the pivot's entries from the row's own column on."""
    r, twice, own = others[0], 2 * pivot, row[0] - ceil_div(others[0]**2, pivot) - loss
    row = [x - (2 * r * other + pivot) // twice if other else x for x, other in zip(row, others)] if r else row
    return [own, *row[1:]]


# What pairs with one baseline leave: a form of the integers and the constant. 2^exponent times it is at most 64 times their
# sum of squares, whatever their data and their baseline are. `factors` are those of the baseline's columns, whose `rows` of
# the normal matrix are kept for the vector's bound, with the sums of squares of the radii.
Front = NamedTuple("Front", [
    ("exponent", int), ("factors", List[list]), ("form", List[array]), ("rows", List[list]), ("radii", list)])


def front_of(cert, pairs) -> Front:
    matrix, radii = normal_matrix(cert, pairs)
    size = len(matrix)
    h = max(0, (63 * max(row[0] for row in matrix)).bit_length() - 50)
    form = [[nearest_div(63 * entry, 2**h) for entry in row] for row in matrix]
    for i, radius in zip(range(size), (*radii[:3], *[0] * (size - 4), radii[3])):
        form[i][0] = (63 * matrix[i][0] - 16128 * radius) // 2**h - size
    if is_large(2**52, *form):
        raise NotCertified("overwidth entry")
    _, factors, left = steps(form, 3, 0)
    return Front(h, factors, [array("q", row) for row in left], matrix[:3], radii)


def sum_of_fronts(fronts):
    """The forms of a track's pairs over one power of 2: entries to the nearest, own ones down and n less."""
    h = (2 * len(fronts) - 1).bit_length() + max(front.exponent for front in fronts)
    n = len(fronts[0].form)
    form = [[0] * (n - i) for i in range(n)]
    for front in fronts:
        unit = 2**(h - front.exponent)
        for row, part in zip(form, front.form):
            others = [a + (2 * b + unit) // (2 * unit) if b else a for a, b in zip(row, part)]
            row[:] = [row[0] + part[0] // unit - n, *others[1:]]
    return h, form


# ---- the two least vectors: DEFINITIONS, "The search and the reduction". Integers are numbered from 0.

# What is kept of each pivot; the factors of each integer with those before it; the rows of the map, and of its inverse.
State = NamedTuple("State", [("kept", list), ("factors", List[list]), ("map", List[list]), ("back", List[list])])


def reduced_row(factors, j):
    """The multiples that integer j + 1 takes of j, .., 0 in its factors, and what is left; None where a value gets too large."""
    left, multiples = list(factors[j + 1]), [0] * (j + 1)
    for i in range(j, -1, -1):
        multiples[i] = nearest_div(left[i], 2**30)
        left[:i + 1] = [x - multiples[i] * y for x, y in zip(left, (*factors[i], 2**30))]
        if is_large(2**62, left):
            return None
    return multiples, left


def turned(state, j):
    """The state after the turn at j; None where it isn't possible."""
    a, b, factor = state.kept[j], state.kept[j + 1], state.factors[j + 1][j]
    r = factor - 2**30 * nearest_div(factor, 2**30)
    reduced = reduced_row(state.factors, j) if 4 * (a * r**2 + 2**60 * b) < 3 * 2**60 * a else None
    if reduced is None:
        return None
    multiples, left = reduced
    first = b + a * r**2 // 2**60
    between = nearest_div(a * r, first)
    seconds = [row[j] - nearest_div(r * row[j + 1], 2**30) for row in state.factors[j + 2:]]
    firsts = [row[j + 1] + nearest_div(between * v, 2**30) for row, v in zip(state.factors[j + 2:], seconds)]
    column = [row[j + 1] - dot(multiples, row) for row in state.map]
    raised = [[x + k * y for x, y in zip(row, state.back[j + 1])] for k, row in zip(multiples, state.back)]
    if is_large(2**52, left[:j], [between], firsts, seconds) or is_large(2**30, column, *raised):
        return None
    later = [[*row[:j], x, y, *row[j + 2:]] for row, x, y in zip(state.factors[j + 2:], firsts, seconds)]
    return State(
        [*state.kept[:j], first, a * b // first, *state.kept[j + 2:]],
        [*state.factors[:j], left[:j], [*state.factors[j], between], *later],
        [[*row[:j], x, row[j], *row[j + 2:]] for row, x in zip(state.map, column)],
        [*raised[:j], state.back[j + 1], raised[j], *state.back[j + 2:]])


def identity(n):
    return [[int(i == j) for j in range(n)] for i in range(n)]


def reduced_map(kept, factors):
    """The rows of the map: the turn at the lowest place where one is possible, at most 4,000 times."""
    n = len(kept)
    state = State(kept, [[factors[m][i - m - 1] for m in range(i)] for i in range(n)], identity(n), identity(n))
    for turn in range(4000):
        after = next(filter(None, (turned(state, j) for j in range(n - 1))), None)
        if after is None:
            break
        state = after
        progress(f"reduction: {turn} turns")
    return state.map


def mapped(form, rows):
    """The form in the coordinates of a map with these rows."""
    size = len(form)
    whole = [[form[min(i, j)][abs(i - j)] for j in range(size)] for i in range(size)]
    columns = list(zip(*([*row, 0] for row in rows), [0] * len(rows) + [1]))
    halves = [[dot(row, column) for row in whole] for column in columns]
    new = [[dot(column, half) for half in halves[i:]] for i, column in enumerate(columns)]
    if is_large(2**52, *new):
        raise NotCertified("overwidth entry")
    return new


def nearest_first(rest):
    """All whole numbers by their distance from the centre -rest/2^30, of two as near the greater first."""
    x = nearest_div(-rest, 2**30)
    side = 1 if 2**30 * x + rest <= 0 else -1
    yield x
    for k in itertools.count(1):
        yield x + k * side
        yield x - k * side


class Search:
    """The two least vectors of a form by value and then by their images under a map. It visits the suffixes in their order,
    but those whose lower sum is over 2^60 times the second least value of the full vectors before them: these are left out,
    and with one, as lower sums never fall, all that end with it and all farther ones with the same later entries."""

    def __init__(self, form, rows, budget, visits):
        self.form, self.rows = form, rows
        self.kept, self.factors, ((self.least,),) = steps(form, len(rows), 3)
        self.left, self.visits = budget, visits
        self.best, self.bound = [], math.inf  # the least vectors so far, and 2^60 times the second value

    def points(self):
        """The rounded point and its neighbour."""
        point, rest = (), 0
        for factors in reversed(self.factors):
            rest = dot(factors, (*point, 1))
            point = nearest_div(-rest, 2**30), *point
        _, second = itertools.islice(nearest_first(rest), 2)
        return point, (second, *point[1:])

    def value(self, z):
        z = *z, 1
        return sum(x * (2 * dot(row, z[i:]) - row[0] * x) for i, (x, row) in enumerate(zip(z, self.form)))

    def image(self, z):
        image = [dot(row, z) for row in self.rows]
        if is_large(2**30, z, image):
            raise NotCertified("overwidth search")
        return image

    def two_least(self):
        """The two as (VALUE, IMAGE); NotCertified where the search is too wide or over its budget."""
        for point in self.points():
            self.image(point)  # which has no large entries, nor has the point
            if self.value(point) >= 2**62:
                raise NotCertified("overwidth search")
        self.visit_before((1,), 2**60 * self.least, self.form[-1][0])
        return self.best

    def visit_before(self, later, low, value):
        """Visits the suffixes of one entry and `later`, each with all that end with it. `later` has a 1 for the constant at its
        end, this lower sum, and the form this value with zeros before it."""
        j = len(self.rows) - len(later)
        rest, part = dot(self.factors[j], later), 2 * dot(self.form[j][1:], later)
        kept, own = self.kept[j], self.form[j][0]
        for x in nearest_first(rest):
            lower = low + kept * (2**30 * x + rest)**2
            if lower > self.bound:
                return
            self.visit(x)
            at_suffix = value + x * (own * x + part)
            if j:
                self.visit_before((x, *later), lower, at_suffix)
            elif 2**60 * at_suffix <= self.bound:
                self.best = sorted([*self.best, (at_suffix, self.image((x, *later[:-1])))])[:2]
                self.bound = 2**60 * self.best[1][0] if len(self.best) == 2 else math.inf

    def visit(self, entry):
        """Counts a visit of a suffix with this first entry."""
        if self.left == 0:
            raise NotCertified("spent")
        number = next(self.visits, None)
        if number is None:
            raise NotDecided
        if number % 1024 == 0:
            progress(f"search: {number} visits")
        self.left -= 1
        if abs(entry) >= 2**30:
            raise NotCertified("overwidth search")


def two_least(form, budget, visits):
    """The two least vectors, in the coordinates of the reduction and, where that search has no answer, in the form's own."""
    n = len(form) - 1
    rows = reduced_map(*steps(form, n, 3)[:2])
    try:
        return Search(mapped(form, rows), rows, budget, visits).two_least()
    except NotCertified:
        return Search(form, identity(n), budget, visits).two_least()


# ---- the decision: DEFINITIONS, "The upper sum and the decision", "Tracks"


# The numbers of a tail that says fixed, as they follow from the rows, and the fronts that `bounds` needs.
Decision = NamedTuple("Decision", [
    ("z1", Integers), ("z2", Integers), ("moves", Tuple[Triple, ...]), ("values", Values), ("fronts", List[Front])])


def baseline_at(factors, z):
    """The baseline at z, in 2^-5 iota, by the factors of its three columns."""
    point = [2**16 * x for x in (*z, 1)]
    for row in reversed(factors):
        point = [-nearest_div(dot(row, point), 2**30), *point]
    if is_large(2**46, point[:3]):
        raise NotCertified("overwidth float")
    return tuple(point[:3])


def upper_sum(cert, rows, z, move):
    """The most that the sum of squares of a pair's rows may be at z and a move, for all data in their boxes."""
    total, sizes = 0, list(map(abs, move))
    turned_by = [(dot(row.direction, move), row.radius + ceil_div(dot(row.direction_radius, sizes), 2**16) + 1) for row in rows]
    for q, (band, weight) in enumerate(cert.signals):
        reach = []
        for row, (taken, radius) in zip(rows, turned_by):
            cycles = z[cert.places[row.arc, band]] if weight == PHASE and (row.arc, band) in cert.places else 0
            reach.append(((row.observed[q] * 2**16 - taken) // 2**16 - WAVELENGTHS[band] * 2**13 * cycles, radius))
        if any(abs(centre) + radius >= 2**33 for centre, radius in reach):
            raise NotCertified("overwidth sum")
        gaps = sum((abs(s - t) + a + b)**2 for i, (s, a) in enumerate(reach) for t, b in reach[i + 1:])
        total += SHARE // len(rows) * weight * gaps
    return total


def decide(cert: Certificate, visits: int = MOST_VISITS) -> Decision:
    """The numbers of the tail that the rows have. NotCertified with the cause where they aren't fixed, NotDecided where that
    takes more visits, of both searches together."""
    fronts = [front_of(cert, pairs) for pairs in cert.groups]
    h, form = sum_of_fronts(fronts) if cert.is_track else (fronts[0].exponent, fronts[0].form)
    (p1, z1), (p2, z2) = two_least(form, cert.budget, iter(range(visits)))
    moves = tuple(baseline_at(front.factors, z1) for front in fronts)
    top = ceil_div(sum(upper_sum(cert, pair.rows, z1, move) for pairs, move in zip(cert.groups, moves) for pair in pairs), 2**h)
    if 1000 * p2 <= 64 * cert.ratio * top:
        raise NotCertified("unseparated")
    return Decision(tuple(z1), tuple(z2), moves, Values(h, p1, p2, top), fronts)


def certify(cert: Certificate, visits: int = MOST_VISITS) -> Decision:
    """The same, and NotCertified("tail") where the text's tail has other numbers or isn't fixed."""
    decision = decide(cert, visits)
    if cert.tail != Tail("fixed", *decision[:4]):
        raise NotCertified("tail")
    return decision


def vectors(cert: Certificate) -> List[Triple]:
    """The vector, or that of each pair of a track, in 0.1 mm, from the lines base, point or at, and move."""
    points = [pair.at for pair in cert.pairs] if cert.is_track else [cert.point]
    return [tuple(p - b + nearest_div(m * 299_792_458, 6_957_054_720) for p, b, m in zip(point, cert.base, move))
            for point, move in zip(points, cert.tail.moves)]


# ---- the vector's bound: DEFINITIONS, "The vector's bound"


def curvature(front):
    """A whole number mu with mu·x² at most the kept form's value, for each coordinate x of a vector; below 1 where there is
    none. The kept form is of the baseline's columns, with the own entries a, b, c and the others f, g, h."""
    unit, ((c00, c01, c02, *_), (c11, c12, *_), (c22, *_)) = 2**(front.exponent + 10), front.rows
    a, b, c = ((59 * own - (2**32 + 16128) * radius) // unit - 3 for own, radius in zip((c00, c11, c22), front.radii))
    f, g, h = (nearest_div(59 * other, unit) for other in (c01, c02, c12))
    minors = a * b - f**2, a * c - g**2, b * c - h**2
    if min(a, b, *minors) < 1:
        return 0
    return (a * minors[2] - f * (f * c - h * g) + g * (f * h - b * g)) // max(minors)


def bound_of(front, z, move, upper):
    """In 0.01 mm: for all data in the boxes each baseline whose sum of squares with z is at most that of the move is at most so
    far from it, in each coordinate; from the least x from 1 to 2^30, in 2^-5 iota, with mu·x² at least steepness·x + slack.
    None where there is none. The upper sum is that at z and the move."""
    mu, columns = curvature(front), [*move, *(2**16 * x for x in z), 2**16]
    if mu < 1:
        return None
    rows = [[*(front.rows[i][j - i] for i in range(j)), *front.rows[j]] for j in range(3)]
    steepness = ceil_div(sum(abs(dot(row, columns)) for row in rows), 2**(front.exponent + 3))
    squares = dot(front.radii, (*(m**2 for m in move), 2**32))
    slack = 16 * ceil_div(upper, 2**front.exponent) + ceil_div(4 * squares, 2**front.exponent)
    x = max(1, (steepness + math.isqrt(steepness**2 + 4 * mu * slack)) // (2 * mu))
    while mu * x**2 < steepness * x + slack:
        x += 1
    return ceil_div(x * 299_792_458, 695_705_472) if x <= 2**30 else None


def bounds(cert: Certificate, fronts: List[Front]) -> List[Optional[int]]:
    """Of a certified text, for each vector: how far from it, in 0.01 mm and in each coordinate, the least-squares vector of
    any observations in the boxes may lie; None where there is no such number. Of a track each pair has its own."""
    z = cert.tail.z1
    return [bound_of(front, z, move, sum(upper_sum(cert, pair.rows, z, move) for pair in pairs))
            for pairs, front, move in zip(cert.groups, fronts, cert.tail.moves)]


# ---- the command


def vector_lines(cert, fronts):
    numbers = [f" {pair.number}" for pair in cert.pairs] if cert.is_track else [""]
    for number, vector in zip(numbers, vectors(cert)):
        metres = (f"{'-' * (x < 0)}{abs(x) // 10000}.{abs(x) % 10000:04d}" for x in vector)
        yield " ".join([("place" if cert.is_track else "baseline") + number, *metres])
    found = zip(numbers, bounds(cert, fronts))
    yield from (f"bound{number} {x // 100}.{x % 100:02d}" for number, x in found if x is not None)


def shown(name):
    """A file's name with its control characters, and what isn't UTF-8, as \\xNN."""
    characters = os.fsencode(name).decode("utf-8", "surrogateescape")
    spelled = ("".join(f"\\x{byte:02x}" for byte in it.encode("utf-8", "surrogateescape")) for it in characters)
    return "".join(it if it.isprintable() else code for it, code in zip(characters, spelled))


def put(stream, *lines):
    """Writes lines at once: what Python would keep for its end could fail there, with a status of its own."""
    data = "".join(line + "\n" for line in lines).encode("utf-8")
    while data:
        data = data[os.write(stream, data):]


def complain(*lines):
    """Lines on standard error; where it can't be written, the status alone says it."""
    with suppress(OSError):
        put(2, *lines)


def answer(data, is_strict, visits):
    """Writes the notes of a text, what is decided and its vector; the status."""
    cert = read(data)
    found = notes(cert)
    complain(*(f"note: {line}" for line in found))
    try:
        fronts = certify(cert, visits).fronts
    except NotCertified as why:
        put(1, f"not certified {why}")
        return 1
    is_withheld = is_strict and bool(found)
    put(1, "certified", *(() if is_withheld else vector_lines(cert, fronts)))
    return int(is_withheld)


def check(name, is_strict, visits):
    try:
        with open(name, "rb") as file:
            data = file.read(MOST_BYTES + 1)
    except (OSError, ValueError):
        complain(f"read fault: {shown(name)}")
        return 4
    try:
        return answer(data, is_strict, visits)
    except Refused as why:
        complain(f"refused: {shown(name)}{'' if why.line else ':'} {why}")
        return 3
    except NotDecided:
        complain(f"not decided: stopped after {visits} visits")
        return 7


def options_of(words):
    """The words as (NAME, whether strict, most visits); None for a usage error."""
    given, words = {}, list(words)
    while words and words[0] in ("--strict", "--visits") and words[0] not in given:
        option = words.pop(0)
        given[option] = words.pop(0) if option == "--visits" and words else ""
    is_file = words.pop(0) == "--" if words and re.match("-.", words[0], re.DOTALL) else True
    visits = given.get("--visits", str(MOST_VISITS))
    is_right = is_file and len(words) == 1 and re.fullmatch("[1-9][0-9]{0,17}", visits)
    return (words[0], "--strict" in given, int(visits)) if is_right else None


def main(words):
    asked = options_of(words)
    if os.isatty(2):
        progress.due = time.monotonic() + 2
    try:
        if not asked:
            complain("usage: check_certificate.py [--strict] [--visits N] [--] CERT")
            return 2
        return check(*asked)
    except MemoryError:
        complain("no memory")
        return 6
    except OSError:
        complain("write fault")
        return 5
    except KeyboardInterrupt:
        return 130


if __name__ == "__main__":
    sys.exit(main(sys.argv[1:]))
