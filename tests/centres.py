"""Windows of 31 samples whose three centres have an exact re and im: on both sides of the edge of phase (CR 5), and
where truncation in the angle's steps tells."""

import itertools
from collections import Counter
from fractions import Fraction
from typing import NamedTuple

from inputs import HIGH, LOW
from reference import cos, sin

LENGTH = 31
PHASES = range(3)
LAGS = (0, 5, 10)
# the places of the centre before, of the centre and of the centre after
CENTRES = (14, 15, 16)
BEFORE, AT, AFTER = range(3)
RE, IM = range(2)
# the sizes of a part on both sides of the edge
BELOW, LIMIT = 22118399, 22118400

# ---------------------------------------------------------------------------
# Samples for given centres. A count has at a centre its weight times the table entry of its index and phase.
#
# A place from 1 to 14 and the place 15 after it share an entry and are seen by all three centres. Counts of (n, n) in
# them are seen 15n times by each; counts of ((15 - place)·n, -place·n) not by the centre, 15n times by the one before
# and -15n times by the one after. Place 0 is seen by the centre before alone, place 30 by the centre after alone.

# residues of the first index at which the entries of place 0 make every re and im modulo 15
RESIDUES = (0, 2, 3, 5, 7, 8, 10, 12, 13)
COPRIME_TO_15 = (1, 2, 4, 7, 8, 11, 13, 14)
# the entries of which re and im are made
RE_ENTRIES, IM_ENTRIES = (3, 2, 1), (5, 4, 2)
SPREAD = 60
MOVED = 20000


def entries(first, place):
    """The re and im of a count of a and of b, in a place of a window from this index on, with weight 1."""
    return [(cos(n), -sin(n)) for n in (first + place, first + place - 5)]


def small_multiples(total, one, second, third):
    """Three numbers, none of them large, by which to multiply one, second and third so that they add to the total."""
    inverse = pow(one, -1, second)
    found = []
    for w in range(-SPREAD, SPREAD + 1):
        u = ((total - w * third) * inverse + second // 2) % second - second // 2
        found.append((u, (total - u * one - w * third) // second, w))
    return min(found, key=lambda three: max(map(abs, three)))


def in_entries(re, im):
    """How many counts of each entry of the tables make this re and im."""
    # One count of 2 makes re odd, one of 5 im. Equal counts of n and -n make re alone, opposite ones im alone.
    counts = Counter({2: re % 2, 5: im % 2})
    re -= sum(count * cos(n) for n, count in counts.items())
    im += sum(count * sin(n) for n, count in counts.items())
    for n, count in zip(RE_ENTRIES, small_multiples(re // 2, *map(cos, RE_ENTRIES))):
        counts[n] += count
        counts[-n] += count
    for n, count in zip(IM_ENTRIES, small_multiples(-im // 2, *map(sin, IM_ENTRIES))):
        counts[n] += count
        counts[-n] -= count
    return counts


def modulo_15(target, one, other):
    """How many counts of two entries make the target modulo 15."""
    return next((u, v) for u, v in itertools.product(range(-7, 8), repeat=2)
                if all((u * x + v * y - part) % 15 == 0 for x, y, part in zip(one, other, target)))


def rounded(whole, divisor):
    """The whole number nearest to a quotient."""
    return (2 * whole + divisor) // (2 * divisor)


def nearest(target, one, other):
    """How many counts of two entries come near to the target."""
    area = one[RE] * other[IM] - other[RE] * one[IM]
    return (rounded(target[RE] * other[IM] - other[RE] * target[IM], area),
            rounded(one[RE] * target[IM] - target[RE] * one[IM], area))


class Making:
    """Samples in the making, and what each centre still lacks."""

    def __init__(self, first, centres):
        self.first = first
        self.samples = [[0, 0, 0] for _ in range(LENGTH)]
        self.lacking = [list(centre) for centre in centres]

    def add(self, place, phase, count):
        """Adds so many counts to a sample."""
        self.samples[place][phase] += count
        n = self.first + place - LAGS[phase]
        for centre, lacking in zip(CENTRES, self.lacking):
            weight = max(0, 15 - abs(place - centre))
            lacking[RE] -= weight * count * cos(n)
            lacking[IM] += weight * count * sin(n)

    def add_pair(self, place, counts):
        """Adds counts of a and of b."""
        for phase, count in enumerate(counts):
            self.add(place, phase, count)

    def any_place(self, rng, n):
        """A place from 1 to 14 and a phase that have the entry n."""
        places = [((n + LAGS[phase] - self.first) % 15, phase) for phase in PHASES]
        return rng.choice([(place, phase) for place, phase in places if place > 0])

    def whole(self):
        """Whether no centre lacks anything and every sample is one."""
        return (not any(itertools.chain(*self.lacking))
                and all(LOW <= value <= HIGH for value in itertools.chain(*self.samples)))


def with_centres(rng, first, centres):
    """31 samples from an index of RESIDUES on, whose centres are these; None where there are none or they are large."""
    making = Making(first, centres)
    before, at, after = making.lacking
    # what the centre lacks, made a multiple of 15 and then nothing
    place = rng.choice([place for place in COPRIME_TO_15 if (first + place) % 15 in RESIDUES])
    making.add_pair(place, modulo_15(at, *[(place * re, place * im) for re, im in entries(first, place)]))
    for n, count in in_entries(at[RE] // 15, at[IM] // 15).items():
        place, phase = making.any_place(rng, n)
        making.add(place, phase, count)
        making.add(place + 15, phase, count)
    # the same for the centre before
    making.add_pair(0, modulo_15(before, *entries(first, 0)))
    for n, count in in_entries(before[RE] // 15, before[IM] // 15).items():
        place, phase = making.any_place(rng, n)
        making.add(place, phase, (15 - place) * count)
        making.add(place + 15, phase, -place * count)
    # what the centre after lacks is made of the entries of place 30, or there are no such samples
    making.add_pair(30, nearest(after, *entries(first, 30)))
    return [tuple(sample) for sample in making.samples] if making.whole() else None


def brought_together(first, centres, re_of, im_of):
    """The centres with the re of one end and the im of one end moved, by less than MOVED, so that there are samples."""
    # whatever the samples are, before - 2·at + after is made of the entries of places 0, 15 and 30
    before, at, after = centres
    difference = [before[part] - 2 * at[part] + after[part] for part in (RE, IM)]
    one, other = entries(first, 0)
    u, v = nearest(difference, one, other)
    moved = [list(centre) for centre in centres]
    moved[re_of][RE] -= difference[RE] - u * one[RE] - v * other[RE]
    moved[im_of][IM] -= difference[IM] - u * one[IM] - v * other[IM]
    return [tuple(centre) for centre in moved]


# ---------------------------------------------------------------------------
# Both sides of the edge of phase

# re and im of a centre, and its angle: document 01's angle cases as CR 5 restates them, and the edge's own
ANGLES = (
    ((22118400, 22118400), 536870912), ((-22118400, 22118400), 1610612736), ((-22118400, -22118400), 2684354560),
    ((22118400, -22118400), 3758096384), ((0, 22118400), 1073741824), ((0, 0), None),
    ((22118399, 22118399), None), ((22118400, 0), 0), ((0, -22118400), 3221225472),
    ((22118399, -22118400), 3758096441),
)


class Case(NamedTuple):
    """The residue of the first index, 31 samples, the re and im of their three centres, and the no-phase mark."""
    residue: int
    samples: list
    centres: list
    mark: int


def well_above(rng):
    """A centre of which one part is two to four times the limit, and the other anything up to that."""
    parts = [rng.choice((-1, 1)) * rng.randint(2 * LIMIT, 4 * LIMIT), rng.randint(-4 * LIMIT, 4 * LIMIT)]
    rng.shuffle(parts)
    return tuple(parts)


def at_the_edge(part, size, other):
    """A centre of which one part is as given and the other is below the limit."""
    return (size, other) if part == RE else (other, size)


def any_case(rng, residues, fixed, mark, free=None, base=(0, 0)):
    """A case with these centres, well above the limit where one is None, and then all moved by the base. An end that is
    None, or the ends whose re and whose im are free, are moved further so that there are samples."""
    end = AFTER if fixed[AFTER] is None else BEFORE
    while True:
        residue = rng.choice(residues)
        centres = [(re + base[RE], im + base[IM]) for re, im in [centre or well_above(rng) for centre in fixed]]
        centres = brought_together(residue, centres, *(free or (end, end)))
        samples = with_centres(rng, residue, centres)
        if samples:
            return Case(residue, samples, centres, mark)


def with_one(rng, residues, place, centre, mark, base=(0, 0)):
    """A case with this centre, the others well above the limit."""
    fixed = [centre if each == place else None for each in (BEFORE, AT, AFTER)]
    return any_case(rng, residues, fixed, mark, base=base)


def after_angle_0(rng, re, im, mark):
    """A case whose centre after is given and whose centre before has the angle 0: d1 is the given one's angle."""
    # at residue 0 the entries of place 0 are (16384, 0) and (-8192, 14189)
    odd = im % 2
    at = rng.randint(3 * LIMIT, 4 * LIMIT), (im - 14189 * odd) // 2
    before = 2 * at[RE] - re + 8192 * odd, 0
    centres = [before, at, (re, im)]
    return Case(0, with_centres(rng, 0, centres), centres, mark)


def one_at_the_edge(rng, residues):
    """One centre at either side of the edge, each part and sign of each, the others well above it."""
    for place, part, size, sign in itertools.product((BEFORE, AT, AFTER), (RE, IM), (BELOW, LIMIT), (1, -1)):
        for other in (0, rng.randint(-BELOW, BELOW), BELOW, -BELOW):
            yield with_one(rng, residues, place, at_the_edge(part, sign * size, other), int(size == BELOW))


def several_at_the_edge(rng, residues):
    """Two or three of the centres at either side of the edge, in every combination."""
    for sizes in itertools.product((BELOW, LIMIT, None), repeat=3):
        if sizes.count(None) > 1:
            continue
        for part, signs in itertools.product((RE, IM), itertools.product((1, -1), repeat=3)):
            # the ends have different parts at the edge, so that both a re and an im are free
            parts = (part, rng.choice((RE, IM)), IM if part == RE else RE)
            free = (AFTER, BEFORE) if part == RE else (BEFORE, AFTER)
            fixed = [at_the_edge(each, sign * size, rng.randint(MOVED - BELOW, BELOW - MOVED)) if size else None
                     for each, sign, size in zip(parts, signs, sizes)]
            yield any_case(rng, residues, fixed, int(BELOW in sizes), free)


def beyond_32_bits(rng, residues):
    """One centre whose low 32 bits are below the limit in both parts, though it has a phase."""
    for place, re, im in itertools.product((BEFORE, AT, AFTER), (-2, -1, 0, 1, 2), (-1, 0, 1)):
        if (re, im) != (0, 0):
            low = rng.randint(-BELOW, BELOW), rng.randint(-BELOW, BELOW)
            yield with_one(rng, residues, place, low, 0, (2**32 * re, 2**32 * im))


# ---------------------------------------------------------------------------
# Truncation instead of floor

def floored(number, i):
    """Divided by 2^i, towards minus infinity."""
    return number // 2**i


def truncated(number, i):
    """Divided by 2^i, towards zero."""
    return number // 2**i if number >= 0 else -(-number // 2**i)


def signs_of_steps(re, im, divided):
    """The sign of im at each of the 24 steps, from the first quadrant on."""
    x, y = 65536 * re, 65536 * im
    signs = []
    for i in range(24):
        sign = (y > 0) - (y < 0)
        x, y = x + sign * divided(y, i), y - sign * divided(x, i)
        signs.append(sign)
    return signs


def leading_to_zero(signs):
    """im over re for which steps of these signs, without rounding, end with im = 0."""
    of_x, of_y = (1, 0), (0, 1)
    for i, sign in enumerate(signs):
        of_x, of_y = ([2**i * x + sign * y for x, y in zip(of_x, of_y)],
                      [2**i * y - sign * x for x, y in zip(of_x, of_y)])
    return Fraction(-of_y[RE], of_y[IM])


def told_from_floor(rng):
    """A centre above the limit whose angle truncation changes: its steps come so close to im = 0 that it tells."""
    while True:
        re = rng.randint(LIMIT, 3 * LIMIT)
        signs = signs_of_steps(re, rng.randint(0, re), floored)
        close = leading_to_zero(signs[:rng.randint(14, 23)]).limit_denominator(4 * LIMIT)
        re, im = close.denominator, close.numerator
        if re >= LIMIT and im >= 0 and signs_of_steps(re, im, floored) != signs_of_steps(re, im, truncated):
            for _ in range(rng.randrange(4)):
                re, im = -im, re
            return re, im


def truncation_told(rng, residues, count):
    """Cases with such a centre before, at and after in turn, the others well above the limit."""
    for n in range(count):
        yield with_one(rng, residues, n % 3, told_from_floor(rng), 0)
