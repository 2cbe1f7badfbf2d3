"""Windows of 31 three-phase samples, and the figures that the model gives for each.

make SCRIPT EXPECTED  writes the windows as whole runs for the replay program, and their lines
compare PROGRAM       runs the replay program on them
"""

import functools
import itertools
import random
from typing import NamedTuple

from centres import (
    LAGS, LENGTH, LIMIT, PHASES, RESIDUES, beyond_32_bits, one_at_the_edge, several_at_the_edge, truncation_told)
from commands import compared_on, dispatch
from inputs import HIGH, LOW, clipped, dead_noise, noise_sample, rail_sample, steady_wave
from lines import figures_line
from maker import run_record
from reference import cos, measure, sin

SEED = 3711801
CENTRE = 15
LAST_INDEX = 4294967295


class Window(NamedTuple):
    """A nominal, the index of the first sample, and 31 samples a, b, c."""
    nominal: int
    first: int
    samples: list


# ---------------------------------------------------------------------------
# Nominals and indices

def any_nominal(rng):
    """50 or 60."""
    return rng.choice((50, 60))


def any_index(rng):
    """An index from 0 to 4294967295, often near either end."""
    near = rng.randrange(31)
    return rng.choice((near, LAST_INDEX - near, rng.randint(0, LAST_INDEX), rng.randint(0, 900)))


def index_of_residue(rng, residue):
    """An index of this residue mod 15, from 0 to 4294967295."""
    most = (LAST_INDEX - residue) // 15
    return residue + 15 * rng.choice((0, 1, 59, rng.randint(0, most), most))


def anywhere(rng, samples):
    """The samples at any nominal and index."""
    return Window(any_nominal(rng), any_index(rng), samples)


def at_residue(rng, residue, samples):
    """The samples at any nominal and an index of this residue."""
    return Window(any_nominal(rng), index_of_residue(rng, residue), samples)


# ---------------------------------------------------------------------------
# Samples

def constant(levels):
    """31 times the same sample."""
    return [tuple(levels)] * LENGTH


def changed(samples, changes):
    """The samples with each (place, phase) moved by its change."""
    moved = [list(sample) for sample in samples]
    for (place, phase), change in changes.items():
        moved[place][phase] = clipped(moved[place][phase] + change)
    return [tuple(sample) for sample in moved]


def from_table(table, first, factor):
    """A positive sequence wave that is a table itself, times a factor."""
    return [tuple(clipped(factor * table(first + place - lag)) for lag in LAGS)
            for place in range(LENGTH)]


def with_signs(table, first, upper, lower):
    """One level where a positive sequence wave that is a table is above 0, another elsewhere."""
    return [tuple(upper if value > 0 else lower for value in sample) for sample in from_table(table, first, 1)]


def without_phase(rng):
    """Equal noise on the three phases beside a constant of each: no centre has a phase."""
    amplitude = rng.choice((0, 1, 100, 10000))
    offset = [rng.randint(-10000, 10000) for _ in PHASES]
    noise_levels = [rng.randint(-amplitude, amplitude) for _ in range(LENGTH)]
    return [tuple(level + own for own in offset) for level in noise_levels]


def least_count(weight, n):
    """The least count that has a phase with this weight and table entry."""
    return -(-LIMIT // (weight * max(abs(cos(n)), abs(sin(n)))))


# ---------------------------------------------------------------------------
# The windows

def zeros(rng):
    """Zeros, at each residue of the index and at the last index."""
    for residue in range(15):
        yield at_residue(rng, residue, constant((0, 0, 0)))
    for nominal in (50, 60):
        yield Window(nominal, LAST_INDEX, constant((0, 0, 0)))


def noise(rng):
    """Noise of several amplitudes: up to 3 counts without a phase, at 10 hardly ever with one, from 20 on it varies."""
    for amplitude in (1, 2, 3, 10, 20, 30, 40, 60, 100, 1000, 10000, 32767):
        for _ in range(100 if amplitude <= 10 else 300):
            yield anywhere(rng, [noise_sample(rng, amplitude) for _ in range(LENGTH)])


def constant_rails(rng):
    """Every combination of the rails and zero on the three phases, throughout the window."""
    for levels in itertools.product((LOW, 0, HIGH), repeat=3):
        for residue in range(15):
            yield at_residue(rng, residue, constant(levels))


def alternating_rails(rng):
    """Rails that change over every few samples, each phase starting from either rail."""
    for period in range(1, 16):
        for starts in itertools.product((0, 1), repeat=3):
            for _ in range(3):
                yield anywhere(rng, [tuple((LOW, HIGH)[(start + place // period) % 2] for start in starts)
                                     for place in range(LENGTH)])


def random_rails(rng):
    """Each sample at either rail."""
    for _ in range(500):
        yield anywhere(rng, [rail_sample(rng) for _ in range(LENGTH)])


def matched_rails(rng):
    """Rails that have the signs of a turned table: unturned, re or im is as large as it can be."""
    for table in (cos, sin):
        for upper, lower in ((HIGH, LOW), (LOW, HIGH)):
            for residue in range(15):
                for turn in range(15):
                    yield at_residue(rng, residue, with_signs(table, residue + turn, upper, lower))


def small_matches(rng):
    """Counts that have the signs of a turned table: 3 have no phase wherever they are, 4 have one where unturned."""
    for table, size, residue in itertools.product((cos, sin), (2, 3, 4), range(15)):
        for turn in (0, rng.randrange(15)):
            yield at_residue(rng, residue, with_signs(table, residue + turn, size, -size))


def impulses(rng):
    """A single impulse in each phase at each place, at each residue of the index."""
    for place, phase, residue in itertools.product(range(LENGTH), PHASES, range(15)):
        value = rng.choice((1, -2, 700, -1900, HIGH, LOW))
        yield at_residue(rng, residue, changed(constant((0, 0, 0)), {(place, phase): value}))


def impulses_at_the_edge(rng):
    """A single impulse, the least with which all three centres have a phase, and a count less."""
    for place, residue, less in itertools.product(range(2, 29), range(15), (0, 1)):
        phase = rng.randrange(3)
        least = least_count(14 - abs(place - CENTRE), residue + place - LAGS[phase])
        impulse = {(place, phase): rng.choice((-1, 1)) * (least - less)}
        yield at_residue(rng, residue, changed(constant((0, 0, 0)), impulse))


def sines(rng):
    """Positive sequence from 40 to 70 Hz, of several amplitudes and phases, also about four counts and clipped."""
    for frequency in range(40, 71):
        for amplitude in (3, 4, 5, 6, 50, 2000, 20000, 32767, 60000):
            for _ in range(10):
                nominal = any_nominal(rng)
                exact = frequency + rng.choice((0, rng.uniform(-0.5, 0.5)))
                samples = steady_wave(nominal, exact, amplitude, LENGTH, rng.random())
                yield Window(nominal, any_index(rng), samples)


def other_sequences(rng):
    """Negative sequence and zero sequence from 40 to 70 Hz."""
    for order in (-1, 0):
        for frequency in range(40, 71, 2):
            for amplitude in (200, 2000, 32767):
                for _ in range(6):
                    nominal = any_nominal(rng)
                    samples = steady_wave(nominal, frequency, amplitude, LENGTH, rng.random(), order)
                    yield Window(nominal, any_index(rng), samples)


def axes(rng):
    """The tables themselves, so that re or im is exactly 0, and then a count beside the axis."""
    for table in (cos, sin):
        for factor in (1, -1, 2, -2):
            for residue in range(15):
                samples = from_table(table, residue, factor)
                yield at_residue(rng, residue, samples)
                beside = {(rng.randrange(LENGTH), rng.randrange(3)): rng.choice((1, -1))}
                yield at_residue(rng, residue, changed(samples, beside))


def some_without_phase(rng):
    """One, two or all three of the centres have no phase, or lie half a turn or nothing apart."""
    # Places 0, 15 and 30 share a table entry. Their weights are 1, 14, 0 at the centre before,
    # 0, 15, 0 at the centre and 0, 14, 1 at the centre after.
    for before, at, after in itertools.product((-2, -1, 0, 1, 2), repeat=3):
        for residue in range(15):
            phase = rng.randrange(3)
            # 15 times the least has a phase; of one less, 15 times has none and 30 times has one
            least = least_count(15, residue + CENTRE - LAGS[phase])
            scale = rng.choice((least, least - 1, 150))
            yield at_residue(rng, residue, changed(without_phase(rng), {
                (0, phase): scale * (15 * before - 14 * at),
                (15, phase): scale * at,
                (30, phase): scale * (15 * after - 14 * at)}))


def changed_at_the_ends(rng):
    """A change of one or two samples at the ends, which one or two of the centres do not see."""
    for _ in range(600):
        places = rng.sample((0, 1, 29, 30), rng.choice((1, 2, 2)))
        changes = {(place, rng.randrange(3)): rng.choice((1, -1350, 1900, -2800, 12000)) for place in places}
        yield anywhere(rng, changed(without_phase(rng), changes))


def dying(rng):
    """A wave that goes over into the noise of a dead feeder at each place, and noise that goes over into a wave."""
    for place in range(LENGTH + 1):
        for amplitude in (20, 150, 2000, 20000):
            nominal = any_nominal(rng)
            wave = steady_wave(nominal, rng.uniform(45, 65), amplitude, LENGTH, rng.random())
            dead = dead_noise(rng, LENGTH)
            yield Window(nominal, any_index(rng), wave[:place] + dead[place:])
            yield Window(nominal, any_index(rng), dead[:place] + wave[place:])


def at_edges(rng):
    """Centres at either side of the edge of phase, exactly: one, each part and sign of each, and several together; and
    centres that would be below it by their low 32 bits."""
    for cases in (one_at_the_edge, one_at_the_edge, several_at_the_edge, beyond_32_bits):
        for case in cases(rng, RESIDUES):
            yield at_residue(rng, case.residue, case.samples)


def told_from_floor(rng):
    """Centres above the limit, of which truncation instead of floor gives other figures."""
    for case in truncation_told(rng, RESIDUES, 90):
        yield at_residue(rng, case.residue, case.samples)


MAKERS = (zeros, noise, constant_rails, alternating_rails, random_rails, matched_rails, small_matches, impulses,
          impulses_at_the_edge, sines, other_sequences, axes, some_without_phase, changed_at_the_ends, dying, at_edges,
          told_from_floor)


@functools.cache
def windows():
    """All the windows, each maker's from its own fixed seed."""
    return [window for maker in MAKERS for window in maker(random.Random("%d %s" % (SEED, maker.__name__)))]


# ---------------------------------------------------------------------------
# Whole runs

def whole_run(window):
    """The record of a window, after as many zeros as give its samples their entries in the tables."""
    before = window.first % 15
    samples = [(0, 0, 0)] * before + window.samples
    return run_record(window.nominal, before + CENTRE, list(zip(*samples)))


def expected_line(window):
    """The line of a window at its own index: the centre is the sixteenth sample."""
    def sample_at(n):
        return window.samples[n - window.first]
    return figures_line(measure(sample_at, window.first + CENTRE, window.nominal))


def script_and_lines():
    """The records of all windows, and their lines."""
    made = windows()
    return b"".join(whole_run(window) for window in made), [expected_line(window) for window in made]


def make(script_path, expected_path):
    """Writes the script and its lines."""
    script, lines = script_and_lines()
    with open(script_path, "wb") as file:
        file.write(script)
    with open(expected_path, "w") as file:
        file.writelines(line + "\n" for line in lines)


def compare(program):
    """Runs the program on the script; 0 if every line agrees, else 1."""
    script, lines = script_and_lines()
    return compared_on(program, script, lines, "windows")


if __name__ == "__main__":
    dispatch(__doc__, make, compare)
