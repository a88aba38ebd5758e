"""Random decks, good and damaged, from a seeded generator. Whole numbers only, as in the calculator."""
import struct
from random import Random

from calculator import RECORD, Desk, Refusal, nearest

# Values beside which something changes: ends of ranges, branches of the code curve, limits of height.
PERIOD_MARKS = (1, 2, 99, 100, 101, 102, 399, 400, 401, 549, 550, 551, 669, 670, 671, 1000, 1100, 1101, 3636, 3637,
                3999, 4000)
ROOF_MARKS = (20, 21, 119, 120, 121, 399, 400, 401, 899, 900, 901, 1698, 1699, 1700, 1999, 2000)


# Records

def record(letter, form="", *values):
    return (letter + struct.pack(">" + form, *values)).ljust(RECORD, b"\0")


def site(values):
    return record(b"S", "6BH", *values)


def floor(height, weight):
    return record(b"F", "HI", height, weight)


def reweigh(number, weight):
    return record(b"W", "BI", number, weight)


def mode(period, ordinates, count=None):
    count = len(ordinates) if count is None else count
    return record(b"M", f"HB{len(ordinates)}h", period, count, *ordinates)


def strike(number):
    return record(b"K", "B", number)


def static():
    return record(b"E")


def modal(rule):
    return record(b"C", "B", rule)


# Mode shapes. The modes of a run must together carry nine tenths of the weight, which random shapes
# rarely do. Shapes that are orthogonal over the weights and together make up the shape of all ones
# carry all of it.

def sine(numerator, denominator):
    """A million times the sine of pi x numerator / denominator, by its series in whole numbers."""
    one = 10 ** 12
    turn = numerator % (2 * denominator)
    if turn > denominator:
        return -sine(turn - denominator, denominator)
    x = 3141592653590 * turn // denominator
    total, term, k = 0, x, 1
    while term:
        total += term
        term = -(term * x // one * x // one) // ((k + 1) * (k + 2))
        k += 2
        if k > 40:
            break
    return total // 10 ** 6


def to_ordinates(rng, shape):
    """The shape brought to whole ordinates of a random size and sign."""
    size = rng.choice((4000, 4000, 1000, 250, 10, rng.randint(1, 4000))) * rng.choice((1, 1, -1))
    largest = max(map(abs, shape)) or 1
    return [nearest(v * size, largest) for v in shape]


def orthogonal(rng, weights, count):
    """Random shapes, each freed of the ones before it; the last is what they leave of all ones."""
    shapes = []
    for k in range(count):
        if k == count - 1:
            shape = [10 ** 6] * len(weights)
        elif rng.randrange(2):
            shape = [sine((2 * k + 1) * i, 2 * len(weights) + 1) for i in range(1, len(weights) + 1)]
        else:
            shape = [rng.randint(-10 ** 6, 10 ** 6) for _ in weights]
        for other in shapes:
            over = sum(w * v * o for w, v, o in zip(weights, shape, other))
            under = sum(w * o * o for w, o in zip(weights, other)) or 1
            shape = [v - nearest(over * o, under) for v, o in zip(shape, other)]
        shapes.append(shape)
    rng.shuffle(shapes)
    return shapes


def parts(rng, weights, count):
    """Each floor moves in one of the modes alone. Now and then a floor moves in none; if one weighs a
    tenth of all or nearly, it is that one, so that what the modes carry is nine tenths or nearly."""
    owner = [rng.randrange(count) for _ in weights]
    tenths = [i for i, w in enumerate(weights) if abs(10 * w - sum(weights)) <= 10]
    if tenths and rng.randrange(3):
        owner[rng.choice(tenths)] = None
    elif rng.randrange(3) == 0:
        owner[rng.randrange(len(owner))] = None
    return [[1 if owner[i] == k else 0 for i in range(len(weights))] for k in range(count)]


def shapes_for(rng, weights, count):
    kind = rng.randrange(8)
    if kind < 3:
        shapes = orthogonal(rng, weights, count)
    elif kind == 3:                                  # those of equal floors
        n = len(weights)
        shapes = [[sine((2 * k + 1) * i, 2 * n + 1) for i in range(1, n + 1)] for k in range(count)]
    elif kind == 4:                                  # nearly all ones: carries more than the weight in sum
        spread = rng.choice((0, 100, 400))
        shapes = [[1000 + rng.randint(-spread, spread) for _ in weights] for _ in range(count)]
    elif kind < 7:
        shapes = parts(rng, weights, count)
    else:
        shapes = [[rng.randint(-4000, 4000) for _ in weights] for _ in range(count)]
    return [to_ordinates(rng, shape) for shape in shapes]


def falling_periods(rng, count):
    kind = rng.randrange(4)
    if kind == 0:
        return sorted(rng.sample(range(1, 4001), count), reverse=True)
    if kind == 1:
        return sorted(rng.sample(PERIOD_MARKS, count), reverse=True)
    periods = [rng.choice((4000, 3999, 2000, 1100, 440, 121, rng.randint(10, 4000)))]
    while len(periods) < count and periods[-1] > 1:
        p = periods[-1]
        least_close = -(-10 * p // 11)               # the shortest period that is still close to p
        periods.append(max(1, rng.choice((least_close, least_close, least_close - 1, p - 1, p // 2, p // 3))))
        if periods[-1] == p:
            periods[-1] = p - 1
    return periods


# Whole decks

class Maker:
    """Makes one deck. A desk beside it tells what the next record will meet; it judges nothing."""

    def __init__(self, rng):
        self.rng, self.desk, self.records = rng, Desk(), []

    def put(self, new):
        self.records.append(new)
        try:
            self.desk.take(new)
        except Refusal:
            pass

    def near(self, low, high):
        """A number of the range, often one of its ends."""
        return self.rng.choice((low, high, self.rng.randint(low, high), self.rng.randint(low, high)))

    def odd(self, low, high, most):
        """A number that may lie outside the range, most being all that its field can hold."""
        if self.rng.randrange(3):
            return self.near(low, high)
        return self.rng.choice((max(low - 1, 0), min(high + 1, most), 0, most, self.rng.randint(0, most)))

    def site_values(self):
        rng = self.rng
        formula = rng.randint(1, 3)
        base = self.near(20, 5000) if formula == 3 else 0
        return [rng.randint(2, 5), rng.randint(1, 3), rng.choice((10, 15)), rng.randint(1, 13), formula,
                rng.randrange(2), base]

    def bad_site(self):
        values = self.site_values()
        if self.rng.randrange(4) == 0:               # several values at once
            values = [self.odd(1, 15, 255) for _ in range(6)] + [self.odd(20, 5000, 65535)]
        else:
            place = self.rng.randrange(7)
            bad = ((0, 1, 6, 255), (0, 4, 255), (0, 9, 11, 14, 16), (0, 14, 255), (0, 4, 255), (2, 255),
                   (19, 5001, 65535, 0) if values[4] == 3 else (1, 20, 225, 65535))
            values[place] = self.rng.choice(bad[place])
        return site(values)

    def heights(self, count, tall):
        rng = self.rng
        roof = rng.choice((rng.choice(ROOF_MARKS), rng.randint(20, 400), rng.randint(20, 2000)))
        if tall:
            roof = rng.choice((900, rng.randint(700, 900), rng.randint(1000, 2000)))
        roof = max(roof, 19 + count)
        return sorted(rng.sample(range(20, roof), count - 1)) + [roof]

    def weights(self, count):
        rng = self.rng
        most = min(100_000, 500_000 // count)
        kind = rng.randrange(7)
        if kind == 0:
            return [self.near(100, most)] * count
        if kind == 1:                                # light: base shears of nought or nearly so
            return [rng.randint(100, 200) for _ in range(count)]
        if kind == 2 and count >= 5:                 # the total at its limit, or one beside it
            weights = [most] * count
            weights[-1] += 500_000 - sum(weights) + rng.choice((-1, 0, 0, 1))
            return weights
        if kind == 3 and count >= 2:                 # one floor that weighs a tenth of all, or nearly
            tenth = rng.randint(100, most)
            weights = [9 * tenth // (count - 1)] * (count - 1)
            weights[0] += 9 * tenth - sum(weights)
            weights.insert(rng.randrange(count), max(100, tenth + rng.choice((-1, 0, 0, 1))))
            return [max(100, min(w, 100_000)) for w in weights]
        return [self.near(100, most) if kind == 4 else rng.randint(100, most) for _ in range(count)]

    def shape(self):
        return shapes_for(self.rng, self.desk.sheet.weights or [100], 1)[0]

    def wild(self):
        """A record of any letter, each field good or bad by itself, so that grounds for refusal meet."""
        rng, sheet = self.rng, self.desk.sheet
        n, m, top = len(sheet.weights), len(sheet.modes), sheet.heights[-1] if sheet.heights else 0
        letter = rng.choice("SFFWWMMMKEC")
        if letter == "S":
            new = self.bad_site()
        elif letter == "F":
            new = floor(self.odd(max(20, top), 2000, 65535), self.odd(100, 100_000, 2 ** 32 - 1))
        elif letter == "W":
            new = reweigh(self.odd(1, max(n, 1), 255), self.odd(100, 100_000, 2 ** 32 - 1))
        elif letter == "M":
            ordinates = [self.odd(0, 4000, 32767) * rng.choice((1, -1)) for _ in range(min(self.odd(n, n, 46), 46))]
            count = rng.choice((None, None, None, 0, 40, 41, 46, 47, 255))
            if rng.randrange(6) == 0:
                ordinates = [0] * len(ordinates)
            last = sheet.modes[-1][0] if m else 4001
            new = mode(self.odd(1, max(1, last - 1), 65535), ordinates, count)
        elif letter == "K":
            new = strike(self.odd(1, max(m, 1), 255))
        else:
            new = static() if letter == "E" else modal(self.odd(1, 4, 255))
        if rng.randrange(8) == 0:
            new = self.spoil_unused(new)
        return new

    def spoil_unused(self, new):
        at = self.rng.choice((1, 2, 6, 7, 9, 95, self.rng.randrange(1, RECORD)))
        return new[:at] + bytes([self.rng.randint(1, 255)]) + new[at + 1:]

    def refused(self):
        """A record aimed at one of the refusals, as far as the sheet at hand allows it."""
        rng, sheet = self.rng, self.desk.sheet
        n, m, top = len(sheet.weights), len(sheet.modes), sheet.heights[-1] if sheet.heights else 0
        higher, weight = min(max(20, top + 1), 2000), self.near(100, 1000)
        number = rng.choice((2, 3, 4, 5, 6, 7, 8, 10, 11, 12, 13, 14, 15, 16, 17, 24))
        if number == 2:
            return bytes([rng.choice((0, 32, 65, 102, 115, 255, rng.randrange(256)))]) + static()[1:]
        if number == 3:
            return self.spoil_unused(rng.choice((static(), modal(1), strike(1), reweigh(1, weight), floor(higher, weight),
                                                 site(self.site_values()), mode(1, self.shape()))))
        if number in (4, 5):
            return site(self.site_values()) if number == 4 else self.bad_site()
        if number == 6:
            return floor(rng.choice((0, 19, top, max(top - 1, 0), 2001, 65535)), weight)
        if number == 7:
            bad = rng.choice((0, 99, 100_001, 2 ** 32 - 1))
            return floor(higher, bad) if rng.randrange(2) else reweigh(rng.randint(0, n + 1), bad)
        if number == 8:                              # the total comes to one above its limit, where it can
            if n and rng.randrange(2):
                i = rng.randrange(n)
                return reweigh(i + 1, max(100, min(100_000, 500_001 - sum(sheet.weights) + sheet.weights[i])))
            return floor(higher, max(100, min(100_000, 500_001 - sum(sheet.weights))))
        if number == 10:
            return reweigh(rng.choice((0, n + 1, 41, 255)), weight)
        if number == 11:
            return floor(higher, 100)
        if number == 12:
            return mode(1, (self.shape() * 2)[:rng.choice((n + 1, max(n - 1, 0), 0, 46))][:46], rng.choice((None, 47, 255)))
        if number == 13:
            last = sheet.modes[-1][0] if m else 4001
            return mode(rng.choice((0, last, min(last + 1, 4001), 4001, 65535)), self.shape())
        shorter = max(1, sheet.modes[-1][0] - rng.randint(1, 3) if m else self.near(3000, 4000))
        if number == 14:
            shape = self.shape()
            shape[rng.randrange(len(shape))] = rng.choice((4001, -4001, 32767, -32768))
            return mode(shorter, shape)
        if number in (15, 16):
            return mode(shorter, self.shape() if number == 16 else [0] * max(n, 1))
        if number == 17:
            return strike(rng.choice((0, m + 1, 10, 255)))
        return modal(rng.choice((0, 5, 255)))

    def mischief(self, one_in):
        while self.rng.randrange(one_in) == 0:
            self.put(self.wild() if self.rng.randrange(3) == 0 else self.refused())

    def edit(self):
        rng, sheet = self.rng, self.desk.sheet
        n, m, top = len(sheet.weights), len(sheet.modes), sheet.heights[-1] if sheet.heights else 0
        kind = rng.randrange(8) if m else rng.choice((0, 5, 7))
        if kind < 3 and n:
            i = rng.randrange(n)
            room = 500_000 - sum(sheet.weights) + sheet.weights[i]
            self.put(reweigh(i + 1, rng.choice((sheet.weights[i], self.near(100, min(room, 100_000))))))
        elif kind < 5 and m:
            self.put(strike(rng.randint(1, m)))
        elif kind < 6 and n:
            last = sheet.modes[-1][0] if m else 4001
            self.put(mode(self.near(1, max(1, last - 1)), self.shape()))
        else:
            self.put(floor(self.near(min(max(20, top + 1), 2000), 2000), self.near(100, 2000)))

    def run(self):
        self.put(static() if self.rng.randrange(5) < 2 else modal(self.rng.randint(1, 4)))

    def make(self, small=False):
        rng = self.rng
        while rng.randrange(6) == 0:
            self.put(rng.choice((self.bad_site, self.refused, self.wild))())
        values = self.site_values()
        count = rng.choice((1, 2, 2, 3, 4, rng.randint(1, 8)) if small else
                           (1, 2, 3, 4, rng.randint(1, 10), rng.randint(1, 10), rng.randint(11, 39), 40, rng.randint(41, 43)))
        weights = self.weights(count)
        faint = rng.randrange(15) == 0
        if faint:                                        # base shears of nought, or nearly so
            values[:4], count = [2, 1, 10, rng.choice((2, 4, 13))], rng.choice((1, 1, 2))
            weights = [rng.randint(100, 200) for _ in range(count)]
        if rng.randrange(30):
            self.put(site(values))
        if rng.randrange(8) == 0:                        # without floors
            self.put(self.wild() if rng.randrange(3) == 0 else rng.choice((static(), modal(rng.randint(0, 5)))))
        for height, weight in zip(self.heights(count, tall=faint and rng.randrange(2) == 0), weights):
            self.mischief(40)
            self.put(floor(height, weight))
        weights = self.desk.sheet.weights
        modes = rng.choice((0, 1, 1, 2, 2, 3, rng.randint(1, 9), rng.randint(9, 11)))
        if small:
            modes = min(modes, rng.choice((2, 3, 10)))
        if modes and weights:
            periods = falling_periods(rng, modes)
            if faint:
                periods = sorted(rng.sample(range(2000, 4001), modes), reverse=True)
            for t, shape in zip(periods, shapes_for(rng, weights, modes)):
                self.mischief(30)
                self.put(mode(t, shape if any(shape) else self.shape()))
        for _ in range(rng.randint(0, 5)):
            rng.choice((self.run, self.run, self.edit, lambda: self.mischief(2)))()
        if rng.randrange(4):
            self.run()
        if rng.randrange(8) == 0:
            self.edit()
        self.mischief(6)
        deck = b"".join(self.records)
        if rng.randrange(10) == 0:
            deck = deck[:-rng.randint(1, RECORD - 1)] if deck and rng.randrange(3) else deck + self.wild()[:rng.randint(1, 95)]
        return deck


def random_deck(name, small=False):
    """The deck of this name, the same every time."""
    return Maker(Random(name)).make(small)


# Damage

def at(rng, deck):
    """A place in the deck; more often than not one of the first bytes of a record, which say the most."""
    place = rng.randrange(len(deck))
    return min(place - place % RECORD + rng.randrange(10), len(deck) - 1) if rng.randrange(5) < 3 else place


def cut_records(deck):
    return [deck[i:i + RECORD] for i in range(0, len(deck), RECORD)]


def flip_bits(rng, deck):
    deck = bytearray(deck)
    for _ in range(rng.choice((1, 1, 2, 3, 8))):
        deck[at(rng, deck)] ^= 1 << rng.randrange(8)
    return bytes(deck)


def change_bytes(rng, deck):
    deck = bytearray(deck)
    for _ in range(rng.choice((1, 1, 2, 3, 8))):
        deck[at(rng, deck)] = rng.choice((0, 1, 127, 128, 255, rng.randrange(256)))
    return bytes(deck)


def cut_off(rng, deck):
    return deck[:rng.randrange(len(deck))]


def insert_bytes(rng, deck):
    place = rng.randint(0, len(deck))
    return deck[:place] + rng.randbytes(rng.choice((1, 1, 2, 3, 48, RECORD, rng.randint(1, 200)))) + deck[place:]


def delete_bytes(rng, deck):
    place = at(rng, deck)
    return deck[:place] + deck[place + rng.choice((1, 1, 2, 3, 48, RECORD, rng.randint(1, 200))):]


def noise(rng, deck):
    return rng.randbytes(rng.choice((1, 95, 96, 97, 192, rng.randint(0, 600))))


def lettered_noise(rng, deck):
    """After the deck, records of random fields with good letters, unused bytes mostly 0."""
    new = []
    for _ in range(rng.randint(1, 6)):
        letter = rng.choice(b"SFWMKEC")
        used = {"S": 8, "F": 6, "W": 5, "M": 3 + 2 * rng.randint(0, 46), "K": 1, "E": 0, "C": 1}[chr(letter)]
        fields = bytearray(rng.randbytes(min(used, RECORD - 1)))
        if letter == ord("M"):
            fields[2] = (used - 3) // 2
        new.append((bytes([letter]) + fields).ljust(RECORD, b"\0" if rng.randrange(6) else b"\1"))
    return deck + b"".join(new) if rng.randrange(2) else b"".join(new) + deck


def huge_numbers(rng, deck):
    """Counts, weights, heights and periods of a record as large as their bytes can hold, or nearly."""
    deck = bytearray(deck)
    start = rng.randrange(len(deck)) // RECORD * RECORD
    first = start + rng.randint(1, 7)
    for i in range(first, min(first + rng.choice((1, 2, 4)), len(deck))):
        deck[i] = rng.choice((255, 255, 254, 128))
    return bytes(deck)


def swap_records(rng, deck):
    records = cut_records(deck)
    i, j = rng.randrange(len(records)), rng.randrange(len(records))
    records[i], records[j] = records[j], records[i]
    return b"".join(records)


def double_record(rng, deck):
    records = cut_records(deck)
    i = rng.randrange(len(records))
    records[i:i] = [records[i]] * rng.choice((1, 1, 2, 50))
    return b"".join(records)


def drop_record(rng, deck):
    records = cut_records(deck)
    del records[rng.randrange(len(records))]
    return b"".join(records)


DAMAGES = (flip_bits, flip_bits, flip_bits, change_bytes, change_bytes, cut_off, insert_bytes, delete_bytes, noise,
           lettered_noise, huge_numbers, swap_records, double_record, drop_record)


def damaged_deck(name, deck):
    """The deck damaged in one to three ways, the same every time for a name. Now and then a long one."""
    rng = Random(name)
    for _ in range(rng.choice((1, 1, 2, 3))):
        if deck:
            deck = rng.choice(DAMAGES)(rng, deck)
    if deck and rng.randrange(1000) == 0:
        deck *= rng.randint(1, rng.choice((10_000, 100_000, 1_000_000))) // len(deck) + 1
    return deck
