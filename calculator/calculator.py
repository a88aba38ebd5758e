#!/usr/bin/env python3
"""Earthquake forces by storey after IS 1893 (Part 1): 2002, worked a second time.

    python3 calculator/calculator.py < deck             what the program must print for a deck
    python3 calculator/calculator.py --sheets < cases   lists of calls on one sheet, see docs/CALCULATOR.md

Written from the pages of docs/ alone. It shares no code and no tables with the program. All arithmetic
is exact: whole numbers and fractions, never floating point.

Units: weights, shears and forces are tenths of a kilonewton, heights and lengths decimetres,
periods milliseconds, ordinates thousandths, importance and reduction factor tenths.
"""
import struct
import sys
from fractions import Fraction
from functools import lru_cache
from itertools import accumulate
from math import isqrt
from typing import NamedTuple

RECORD = 96                      # bytes of a record
LONGEST = 4000                   # the longest period that a spectrum knows
RULES = {1: ("srss",), 2: ("absolute",), 3: ("grouping", "srss"), 4: ("grouping", "absolute")}


class Refusal(Exception):
    """A call or record that is refused: a number, and a place that points to the cause."""

    def __init__(self, number, place):
        super().__init__(number, place)
        self.number, self.place = number, place

    @property
    def layer(self):
        if self.number <= 5 or self.number >= 24:
            return "record"
        return "sheet" if self.number <= 17 else "method"


# Rounding

def nearest(number, divisor):
    """The whole number nearest to number / divisor, a half going away from zero."""
    whole, rest = divmod(abs(number), divisor)
    if 2 * rest >= divisor:
        whole += 1
    return -whole if number < 0 else whole


def nearest_root(q):
    """The whole number nearest to the root of q: the whole part of (root of 4q, plus 1) / 2."""
    return (isqrt(4 * q) + 1) // 2


# The site

class Site(NamedTuple):
    zone: int
    soil: int
    importance: int
    system: int
    formula: int
    plan: int
    base: int


ZONE_FACTOR = {2: Fraction("0.10"), 3: Fraction("0.16"), 4: Fraction("0.24"), 5: Fraction("0.36")}

REDUCTION = dict(enumerate(map(Fraction, (
    "3", "5",                    # concrete frames: ordinary, special
    "4", "5",                    # steel braces: concentric, eccentric
    "1.5", "2.5", "3",           # masonry: plain, with bands, with bands and vertical bars
    "3", "4",                    # shear walls: ordinary, ductile
    "3", "4", "4.5", "5",        # dual, wall and frame: ordinary both, special frame, ductile wall, both
)), start=1))


def judge_site(site):
    """The seven values in their order; the first that is not allowed is the place."""
    good = (
        site.zone in ZONE_FACTOR,
        site.soil in (1, 2, 3),
        site.importance in (10, 15),
        site.system in REDUCTION,
        site.formula in (1, 2, 3),
        site.plan in (0, 1),
        20 <= site.base <= 5000 if site.formula == 3 else site.base == 0,
    )
    if not all(good):
        raise Refusal(5, good.index(False) + 1)


# Spectra

def judge_curve(steps):
    """A site curve is 1 to 32 steps (upper period, thousandths)."""
    if not 1 <= len(steps) <= 32:
        raise Refusal(18, 0)
    before = 0
    for number, (upper, thousandths) in enumerate(steps, start=1):
        if not 1 <= thousandths <= 8000 or upper <= before:
            raise Refusal(18, number)
        before = upper
    if before != LONGEST:
        raise Refusal(18, len(steps))


def spectrum(soil, curve, t):
    """Sa at period t: by the code curve of the soil if curve is None, else by the steps of a site curve."""
    if curve is not None:
        return next(Fraction(thousandths, 1000) for upper, thousandths in curve if upper >= t)
    if t <= 100:
        return 1 + Fraction(15 * t, 1000)
    plateau_end, falling = {1: (400, 1000), 2: (550, 1360), 3: (670, 1670)}[soil]
    return Fraction(5, 2) if t <= plateau_end else Fraction(falling, t)


# Period, acceleration, code base shear

@lru_cache(maxsize=1 << 16)
def period(formula, base, height):
    """Ta, the standard's period x in milliseconds to the nearest, a half going up.

    That is the least t with 2t + 1 above 2x. 2t + 1 is whole, so only the whole part of 2x matters,
    and for that only the whole part of its square or fourth power."""
    h, d = Fraction(height, 10), Fraction(base, 10)             # metres
    if formula == 3:
        doubled = isqrt(int(2 ** 2 * 90 ** 2 * h ** 2 / d))          # x = 90 h / root of d
    else:
        factor = 75 if formula == 1 else 85                     # x = factor * h^(3/4)
        doubled = isqrt(isqrt(int(2 ** 4 * factor ** 4 * h ** 3)))
    return (doubled + 1) // 2


@lru_cache(maxsize=1 << 16)
def acceleration(site, curve, t):
    """A at period t. Up to 100 ms it is at least half the zone factor."""
    half_zone = ZONE_FACTOR[site.zone] / 2
    a = half_zone * Fraction(site.importance, 10) / REDUCTION[site.system] * spectrum(site.soil, curve, t)
    return max(a, half_zone) if t <= 100 else a


# Combination rules. A rule is a tuple of words, the outermost first: any number of "grouping", then
# "srss" or "absolute". What it combines is a list of (period, value), periods falling.

def squared_size(rule, responses):
    """Q, the square of the combined size."""
    if rule[0] == "srss":
        return sum(value * value for _, value in responses)
    if rule[0] == "absolute":
        return sum(abs(value) for _, value in responses) ** 2
    groups, last = [], None      # a group has its longest period, which is its first, and the sum of sizes
    for p, value in responses:
        if last is not None and 10 * last <= 11 * p:
            groups[-1] = (groups[-1][0], groups[-1][1] + abs(value))
        else:
            groups.append((p, abs(value)))
        last = p                 # closeness is between neighbours
    return squared_size(rule[1:], groups)


# The sheet

def from_the_top(terms):
    """For each place, the sum of the terms from there to the end."""
    return list(accumulate(reversed(terms)))[::-1]


class Sheet:
    """Floors and modes, and the shears and forces of the last run where they still stand."""

    def __init__(self):
        self.heights, self.weights = [], []
        self.modes = []          # (period, ordinates)
        self.stage = "draft"
        self.storeys = []        # (combined shear, design shear, force), storey 1 first

    def draft(self):
        self.stage, self.storeys = "draft", []

    def floor(self, height, weight):
        number = len(self.heights) + 1
        if not 20 <= height <= 2000 or (self.heights and height <= self.heights[-1]):
            raise Refusal(6, number)
        if not 100 <= weight <= 100_000:
            raise Refusal(7, number)
        if sum(self.weights) + weight > 500_000:
            raise Refusal(8, number)
        if number > 40:
            raise Refusal(9, 41)
        if self.modes:
            raise Refusal(11, len(self.modes))
        self.heights.append(height)
        self.weights.append(weight)
        self.draft()

    def reweigh(self, floor, weight):
        there = 1 <= floor <= len(self.weights)
        if not 100 <= weight <= 100_000:
            raise Refusal(7, floor)
        if there and sum(self.weights) - self.weights[floor - 1] + weight > 500_000:
            raise Refusal(8, floor)
        if not there:
            raise Refusal(10, floor)
        self.weights[floor - 1] = weight
        self.draft()

    def mode(self, t, count, ordinates):
        number = len(self.modes) + 1
        if not self.heights or count != len(self.heights):
            raise Refusal(12, count)
        if not 1 <= t <= LONGEST or (self.modes and t >= self.modes[-1][0]):
            raise Refusal(13, number)
        for place, ordinate in enumerate(ordinates, start=1):
            if abs(ordinate) > 4000:
                raise Refusal(14, place)
        if not any(ordinates):
            raise Refusal(15, number)
        if number > 9:
            raise Refusal(16, 10)
        self.modes.append((t, tuple(ordinates)))
        self.draft()

    def strike(self, mode):
        if not 1 <= mode <= len(self.modes):
            raise Refusal(17, mode)
        del self.modes[mode - 1]
        self.draft()

    def code_base_shear(self, site, curve):
        if not self.heights:
            raise Refusal(19, 0)
        ta = period(site.formula, site.base, self.heights[-1])
        if ta > LONGEST:
            raise Refusal(20, ta)
        a = acceleration(site, curve, ta)
        return nearest(a.numerator * sum(self.weights), a.denominator)

    def stand(self, stage, combined, design):
        above = design[1:] + [0]
        self.stage = stage
        self.storeys = [(c, v, v - next_up) for c, v, next_up in zip(combined, design, above)]

    def run_static(self, site, curve):
        base = self.code_base_shear(site, curve)
        roof = self.heights[-1]
        far = site.zone in (2, 3)                    # the weaker zones allow the static method further up
        if roof > ((900 if far else 400) if site.plan == 0 else (400 if far else 120)):
            raise Refusal(21, roof)
        moments = from_the_top([w * h * h for w, h in zip(self.weights, self.heights)])
        shears = [nearest(base * s, moments[0]) for s in moments]
        self.stand("static", shears, shears)

    def run_modal(self, site, curve, rule):
        code = self.code_base_shear(site, curve)
        modal_weights = []                           # for each mode, by storey
        for _, ordinates in self.modes:
            loads = from_the_top([w * o for w, o in zip(self.weights, ordinates)])
            mass = sum(w * o * o for w, o in zip(self.weights, ordinates))
            modal_weights.append([nearest(loads[0] * load, mass) for load in loads])
        reached = sum(by_storey[0] for by_storey in modal_weights)
        if Fraction(reached, sum(self.weights)) < Fraction(9, 10):
            raise Refusal(22, reached)
        periods = [t for t, _ in self.modes]
        shears = []                                  # for each mode, by storey
        for t, by_storey in zip(periods, modal_weights):
            a = acceleration(site, curve, t)
            shears.append([nearest(a.numerator * weight, a.denominator) for weight in by_storey])
        combined = [nearest_root(squared_size(rule, list(zip(periods, values)))) for values in zip(*shears)]
        base = combined[0]
        if base == 0 and code != 0:
            raise Refusal(23, 0)
        design = combined if base >= code else [nearest(c * code, base) for c in combined]
        self.stand("modal", combined, design)


# The deck

FIRST_UNUSED = {"S": 9, "F": 7, "W": 6, "M": 4, "K": 2, "E": 1, "C": 2}


class Desk:
    """Takes records one by one."""

    def __init__(self):
        self.site, self.sheet = None, Sheet()

    def take(self, record):
        if len(record) < RECORD:
            raise Refusal(1, len(record))
        letter = chr(record[0])
        if letter not in FIRST_UNUSED:
            raise Refusal(2, 0)
        unused = FIRST_UNUSED[letter] + (2 * record[3] if letter == "M" else 0)
        rest = record[unused:RECORD]
        if any(rest):
            raise Refusal(3, RECORD - len(rest.lstrip(b"\0")))
        if (self.site is None) != (letter == "S"):
            raise Refusal(4, 0)
        getattr(self, "take_" + letter)(record)

    def take_S(self, record):
        site = Site(*struct.unpack_from(">6BH", record, 1))
        judge_site(site)
        self.site = site

    def take_F(self, record):
        self.sheet.floor(*struct.unpack_from(">HI", record, 1))

    def take_W(self, record):
        self.sheet.reweigh(*struct.unpack_from(">BI", record, 1))

    def take_M(self, record):
        t, count = struct.unpack_from(">HB", record, 1)
        self.sheet.mode(t, count, struct.unpack_from(f">{min(count, 46)}h", record, 4))

    def take_K(self, record):
        self.sheet.strike(record[1])

    def take_E(self, record):
        self.sheet.run_static(self.site, None)

    def take_C(self, record):
        if record[1] not in RULES:
            raise Refusal(24, 1)
        self.sheet.run_modal(self.site, None, RULES[record[1]])


def work(deck):
    """The refusals of a whole deck as (record, number, place), and the desk at its end."""
    desk, refusals = Desk(), []
    for r, start in enumerate(range(0, len(deck), RECORD), start=1):
        try:
            desk.take(deck[start:start + RECORD])
        except Refusal as refusal:
            refusals.append((r, refusal.number, refusal.place))
    return refusals, desk


def text(refusals, sheet):
    """What the program must write."""
    lines = ["refused %d %d %d" % refusal for refusal in refusals]
    if sheet.stage == "draft":
        lines.append("none")
    else:
        lines.append("base %d" % sheet.storeys[0][1])
        for i in range(len(sheet.storeys), 0, -1):
            lines.append("%d %d %d" % (i, *sheet.storeys[i - 1][1:]))
    return "\n".join(lines + [""]).encode()


if __name__ == "__main__":
    if sys.argv[1:] == ["--sheets"]:
        sys.dont_write_bytecode = True
        import cases             # lists of calls, in their own text format
        cases.main()
    else:
        refused, last = work(sys.stdin.buffer.read())
        sys.stdout.buffer.write(text(refused, last.sheet))
