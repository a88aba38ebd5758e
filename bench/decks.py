"""Makes the decks of the bench. Everything is seeded: the same decks each time.

A record is 96 bytes; docs/DECK.md says what stands in each. The larger decks
are made so that it is known beforehand which of their records are refused;
`bench/run` holds the outputs to that.
"""

import random
import struct
from math import pi, sin

RECORD = 96
FLOORS = 40
MODES = 9

# Falling periods. Three pairs of neighbours are close (10p <= 11q), so the
# grouping rules have groups to make; the last three lie where the
# acceleration has its floor.
PERIODS = [1200, 400, 370, 171, 160, 109, 92, 88, 70]


def record(letter, fields=b""):
    return (letter + fields).ljust(RECORD, b"\0")


def site(zone=3, soil=2, importance=10, system=2, formula=1, plan=0, base=0):
    return record(b"S", struct.pack(">6BH", zone, soil, importance, system, formula, plan, base))


def floor(height, weight):
    return record(b"F", struct.pack(">HI", height, weight))


def reweigh(number, weight):
    return record(b"W", struct.pack(">BI", number, weight))


def mode(period, ordinates):
    count = len(ordinates)
    return record(b"M", struct.pack(f">HB{count}h", period, count, *ordinates))


def strike(number):
    return record(b"K", bytes([number]))


def static():
    return record(b"E")


def modal(rule):
    return record(b"C", bytes([rule]))


def shape(floors, k):
    """The k-th shape of an even cantilever in shear, in thousandths."""
    return [round(1000 * sin((2 * k + 1) * pi * i / (2 * floors + 1)))
            for i in range(1, floors + 1)]


def tower():
    """Forty floors up to 880 decimetres, with nine modes.

    Zone III and a regular plan: the static method takes a roof up to 900. The
    nine modes have some 98 hundredths of the weight between them, so modal
    runs pass the test of nine tenths whatever `some_weight` says.
    """
    yield site()
    for number in range(1, FLOORS + 1):
        yield floor(22 * number, 10_000)
    for k, period in enumerate(PERIODS):
        yield mode(period, shape(FLOORS, k))


def some_weight(chance):
    # At most 40 x 12,000 = 480,000 in all, so no reweigh is refused.
    return chance.randint(8_000, 12_000)


def runs(count):
    """Every second record is a run, after a reweigh that changes its result.

    Of five runs four are modal, one by each rule, and one is static. No
    record is refused. Ends in a run.
    """
    chance = random.Random(1893)
    records = list(tower())
    kinds = [modal(1), modal(2), static(), modal(3), modal(4)]
    turn = 0
    while len(records) + 2 <= count - 1:
        records.append(reweigh(chance.randint(1, FLOORS), some_weight(chance)))
        records.append(kinds[turn % len(kinds)])
        turn += 1
    while len(records) < count:
        records.append(kinds[0])
        turn += 1
    return records, {"runs": turn, "refused": 0}


def edits(count):
    """Reweighs, and modes struck and entered again; next to no runs.

    One record in twenty is refused, one in a thousand is a run.
    """
    chance = random.Random(2002)
    records = list(tower())
    last = mode(PERIODS[-1], shape(FLOORS, MODES - 1))
    bad = bad_records()
    turns = refused = 0
    while len(records) < count - 1:
        number = len(records)
        if number % 1000 == 0:
            records.append(modal(1 + number // 1000 % 4))
            turns += 1
        elif number % 20 == 0:
            records.append(chance.choice(bad))
            refused += 1
        elif number % 20 == 10:
            records.append(strike(MODES))
            records.append(last)
        else:
            records.append(reweigh(chance.randint(1, FLOORS), some_weight(chance)))
    while len(records) < count:
        records.append(static())
        turns += 1
    return records[:count], {"runs": turns, "refused": refused}


def refusals(count):
    """Nine records in ten are refused; one run at the end."""
    chance = random.Random(2016)
    records = list(tower())
    bad = bad_records()
    refused = 0
    while len(records) < count - 1:
        if len(records) % 10 == 0:
            records.append(reweigh(chance.randint(1, FLOORS), some_weight(chance)))
        else:
            records.append(chance.choice(bad))
            refused += 1
    records.append(modal(1))
    return records, {"runs": 1, "refused": refused}


def bad_records():
    """Records that the finished tower refuses, whatever its weights."""
    late = bytearray(static())
    late[95] = 1
    tenth = mode(PERIODS[-1] - 1, shape(FLOORS, 0))
    wide = shape(FLOORS, 0)
    wide[FLOORS - 1] = 4001
    return [
        record(b"X"),                           # 2
        bytes(late),                            # 3, the last byte
        site(),                                 # 4
        floor(880, 10_000),                     # 6
        floor(900, 99),                         # 7
        reweigh(41, 10_000),                    # 10
        mode(60, shape(39, 0)),                 # 12
        mode(70, shape(FLOORS, 0)),             # 13
        mode(60, wide),                         # 14, the last ordinate
        tenth,                                  # 16
        strike(10),                             # 17
        modal(5),                               # 24
    ]


def small(chance):
    """A deck of 10 to 30 records: a low building, a few modes and runs.

    Whatever chance brings: runs may be refused for their height or for their
    modes, and one record in fifteen past the floors is spoilt.
    """
    formula = chance.randint(1, 3)
    records = [site(zone=chance.randint(2, 5), soil=chance.randint(1, 3),
                    importance=chance.choice([10, 15]), system=chance.randint(1, 13),
                    formula=formula, plan=chance.randint(0, 1),
                    base=chance.randint(50, 400) if formula == 3 else 0)]
    floors = chance.randint(2, 12)
    height = 0
    for _ in range(floors):
        height += chance.randint(28, 40)
        records.append(floor(height, chance.randint(2_000, 30_000)))
    period = chance.randint(400, 1500)
    for k in range(min(chance.randint(3, 5), floors)):
        records.append(mode(period, shape(floors, k)))
        period = period * chance.randint(30, 95) // 100
    while len(records) < 8 or chance.random() < 0.7 and len(records) < 28:
        records.append(chance.choice([
            reweigh(chance.randint(1, floors), chance.randint(2_000, 30_000)),
            modal(chance.randint(1, 4)),
            static(),
        ]))
    records.append(reweigh(chance.randint(1, floors), chance.randint(2_000, 30_000)))
    records.append(modal(chance.randint(1, 4)) if chance.random() < 0.7 else static())
    for at in range(1 + floors, len(records)):
        if chance.random() < 1 / 15:
            spoilt = bytearray(records[at])
            spoilt[chance.randrange(RECORD)] = chance.randrange(256)
            records[at] = bytes(spoilt)
    return records


def smalls(count):
    chance = random.Random(1962)
    return [small(chance) for _ in range(count)]
