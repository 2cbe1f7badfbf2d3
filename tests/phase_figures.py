"""The figures of CR 5: the edge of phase in angles, whole runs, feeds and listings. A figure is what the model answers,
and what it must."""

import itertools
import math
import random

from centres import (
    AFTER, ANGLES, AT, BEFORE, BELOW, IM, LIMIT, RE, RESIDUES, after_angle_0, beyond_32_bits, one_at_the_edge,
    several_at_the_edge, truncation_told, with_centres)
from files import body, edge_cases, example_files, header, stored_files
from inputs import dead_noise
from reference import (
    BANK_BYTES, NO_PHASE_BELOW, SERVED, Figures, angle, bits, cos, listing, no_phase, open_feed, peak_counts,
    positive_sequence, push, sin, whole_run)
from scenes import impulse_runs

QUARTER, EIGHTH = 2**30, 2**29
MOST = 362387865600
# the last step turns by 81, and each of the 24 is rounded by at most a half
STEPS_ERROR = 81 + 1 + 12
# d1 and d2 across half a turn, with the frequency deviation and ROCOF
HALF_TURN = -2147483648
ACROSS = {50: (-187.5, -281250.0), 60: (-225.0, -405000.0)}


def turned(re, im, quarters):
    """re and im turned by so many quarters."""
    for _ in range(quarters):
        re, im = -im, re
    return re, im


def figures_without_phase(re, im):
    """The figures of a centre where one of the three has no phase."""
    return Figures(re, im, 0, 0, 1, re / 5529600, im / 5529600, 0.0, 0.0)


def run_of(samples, nominal=60, centre=15):
    """The whole-run measurement of samples a, b, c."""
    return whole_run(*zip(*samples), centre, nominal)


def fed(samples, nominal):
    """The reports that come with samples pushed from the opening on, a report every cycle; None where none is due."""
    bank = bytearray(BANK_BYTES)
    open_feed(bank, 9, nominal, nominal, 1000)
    return [push(bank, 9, *sample).report for sample in samples]


# ---------------------------------------------------------------------------
# The angle

def angles():
    """P: document 01's angle cases with both parts multiplied by 22118400, and both sides of the edge."""
    for (re, im), figure in ANGLES:
        yield no_phase(re, im), figure is None
        yield angle(re, im), figure or 0


def edges_of_the_angle():
    """No phase when both |re| and |im| are below 22118400, and the angle is then 0; a phase when either is not."""
    yield NO_PHASE_BELOW, 22118400
    yield bits(peak_counts(22118400)), bits(4.0)
    below = (0, 1, -1, 11059200, 15639966, -15639966, 22118399, -22118399)
    for re, im in itertools.product(below, repeat=2):
        yield no_phase(re, im), True
        yield angle(re, im), 0
    for size, sign in itertools.product((22118400, 22118401, 44236800, MOST), (1, -1)):
        for other in below + (22118400, -22118400, MOST, -MOST):
            yield no_phase(sign * size, other), False
            yield no_phase(other, sign * size), False


def angles_at_the_edge():
    """On the axes and the diagonals the angle is exact; a count beside a diagonal the steps end 57 beside it."""
    for size, quarters in itertools.product((22118400, 22118401, 33333333), range(4)):
        yield angle(*turned(size, 0, quarters)), quarters * QUARTER
        yield angle(*turned(size, size, quarters)), quarters * QUARTER + EIGHTH
    for quarters in range(4):
        yield angle(*turned(22118400, 22118399, quarters)), quarters * QUARTER + EIGHTH + 57
        yield angle(*turned(22118399, 22118400, quarters)), quarters * QUARTER + EIGHTH - 57


def angles_by_floor():
    """Steps that come so close to im = 0 that truncation instead of floor would end 81 or 82 away."""
    for re, im, figure in ((-6674262, 22743157, 1268864439), (-35226619, 42194688, 1549255921),
                           (-33556435, -25665996, 2593813676), (-42169395, -20431396, 2455892661),
                           (21794716, -47461069, 3515492431), (86972951, 18099564, 140252000),
                           (49388093, -67520477, 3652914265), (-24617004, 87952715, 1260290778)):
        yield angle(re, im), figure


def exact_angle(centre):
    """The arctangent in 2^32nds of a turn."""
    return math.atan2(centre[IM], centre[RE]) * 2**31 / math.pi


def is_close(whole, exact, steps):
    """Whether an angle, or a sum of so many, is the arctangents' modulo 2^32, but for the errors of the steps."""
    away = whole - round(exact)
    return min(away % 2**32, -away % 2**32) <= steps * STEPS_ERROR + 1


def points(rng):
    """Any re and im with a phase, many of them close to the edge."""
    for size in [22118400, 22118401, 30000000, 10**9, MOST] * 40:
        yield turned(rng.choice((size, rng.randint(22118400, size))), rng.randint(-size, size), rng.randrange(4))


def close_to_the_arctangent():
    """The angle is the arctangent, but for the last step and the rounding of all."""
    for re, im in points(random.Random(7)):
        yield is_close(angle(re, im), exact_angle((re, im)), 1), True


def quarter_turns():
    """Turning by a quarter adds exactly a quarter where a phase exists; none stays none."""
    rng = random.Random(8)
    edge = [*itertools.product((22118400, -22118400), (0, 1, -1, 22118399, -22118399, 22118400))]
    for re, im in [*points(rng), *edge, *[(im, re) for re, im in edge]]:
        yield angle(-im, re), (angle(re, im) + 1073741824) % 2**32
    for _ in range(50):
        re, im = [rng.choice((0, 22118399, -22118399, rng.randint(-22118399, 22118399))) for _ in range(2)]
        yield (no_phase(re, im), no_phase(-im, re), angle(-im, re)), (True, True, 0)


# ---------------------------------------------------------------------------
# Reports of a dead feeder

def single_samples():
    """P: one sample of 1, seen from centre 30, with mark 1."""
    for phase, at, sums in ((0, 30, (245760, 0)), (0, 31, (209552, -93296)), (1, 35, (163840, 0))):
        samples = list(zip(*impulse_runs(phase, at)))
        yield positive_sequence(lambda n: samples[n], 30), sums
        for nominal in SERVED:
            yield run_of(samples, nominal, 30), figures_without_phase(*sums)
            yield fed(samples, nominal)[45], (1000, 2, figures_without_phase(*sums))


def by_the_signs():
    """Counts that have the signs of a table: 45 × 156744 in re or 45 × 155882 in im; three have no phase, four do."""
    for nominal, size in itertools.product(SERVED, (1, 2, 3, 4, 5)):
        for table, re, im in ((cos, 7053480, 0), (sin, 0, -7014690)):
            for sign, first in itertools.product((1, -1), range(15)):
                samples = [tuple(sign * size * ((table(n - lag) > 0) - (table(n - lag) < 0)) for lag in (0, 5, 10))
                           for n in range(first + 31)]
                figures = run_of(samples, nominal, first + 15)
                yield figures[:5], (sign * size * re, sign * size * im, 0, 0, int(size < 4))


def of_two_counts():
    """Samples of at most two counts have no phase: 225 × 3 × 2 × 16384 is 22118400, and few entries are 16384."""
    rng = random.Random(9)
    for n in range(300):
        samples = dead_noise(rng, 46, 1 + n % 2)
        figures = run_of(samples, rng.choice((50, 60)), rng.randint(15, 30))
        yield figures, figures_without_phase(figures.re, figures.im)
    for table, turn in itertools.product((cos, sin), range(15)):
        samples = [tuple(2 if table(n + turn - lag) > 0 else -2 for lag in (0, 5, 10)) for n in range(31)]
        figures = run_of(samples)
        yield figures, figures_without_phase(figures.re, figures.im)


# ---------------------------------------------------------------------------
# The edge at each of the three centres

def one_report(samples, nominal, figures):
    """31 samples as a whole run, as a feed and as a file: the same figures, and the listing's line of them."""
    yield run_of(samples, nominal), figures
    yield fed(samples, nominal), [None] * 30 + [(1000, 1, figures)]
    line = b"1000 1 %d %d %d %d %d\n" % figures[:5]
    yield (listing(header(nominal, nominal) + body(samples)),
           b"PHS 1 %d %d\n" % (nominal, nominal) + line + b"reports 1 samples 31\n")


def along_an_axis(place, value, signs, step):
    """Three values: one is given, the others have these signs and are well above the limit. The first less twice the
    second plus the third is a multiple of the step."""
    values = [sign * 4 * LIMIT for sign in signs]
    values[place] = value
    moved = BEFORE if place == AFTER else AFTER
    values[moved] -= (values[BEFORE] - 2 * values[AT] + values[AFTER]) % step
    return values


def centres_on_axes():
    """One centre at the edge, the others above it on the same axis: below it mark 1, at it d1 and d2 by the signs."""
    rng = random.Random(10)
    for axis, place, size, nominal in itertools.product((RE, IM), (BEFORE, AT, AFTER), (BELOW, LIMIT), SERVED):
        for signs in itertools.product((1, -1), repeat=3):
            # the multiples that the samples 0, 15 and 30 make, where the table entry of a is 0
            values = along_an_axis(place, signs[place] * size, signs, 16384 if axis == RE else 28378)
            centres = [(value, 0) if axis == RE else (0, value) for value in values]
            re, im = centres[AT]
            figures = figures_without_phase(re, im)
            if size == LIMIT:
                figures = figures._replace(mark=0)
                if signs[BEFORE] != signs[AFTER]:
                    frequency, rocof = ACROSS[nominal]
                    figures = figures._replace(d1=HALF_TURN, d2=HALF_TURN, frequency=frequency, rocof=rocof)
            yield from one_report(with_centres(rng, 0, centres), nominal, figures)


def angles_as_differences():
    """The angle figures, as the d1 of a whole run whose centre before has the angle 0."""
    rng = random.Random(11)
    for (re, im), figure in ANGLES:
        case = after_angle_0(rng, re, im, int(figure is None))
        figures = run_of(case.samples)
        yield (figures.d1 % 2**32, figures.mark), (figure or 0, case.mark)


def centres_at_the_edge():
    """One, two or three centres at the edge, at any residue: mark 1 where one is below it, else d1 and d2 by the
    arctangents."""
    rng = random.Random(12)
    for cases in (one_at_the_edge(rng, RESIDUES), several_at_the_edge(rng, RESIDUES), beyond_32_bits(rng, RESIDUES),
                  truncation_told(rng, RESIDUES, 9)):
        for case in cases:
            figures = run_of([(7, -7, 9)] * case.residue + case.samples, centre=case.residue + 15)
            if case.mark == 1:
                yield figures, figures_without_phase(*case.centres[AT])
            else:
                p, q, r = map(exact_angle, case.centres)
                yield (figures.re, figures.im, figures.mark), (*case.centres[AT], 0)
                yield is_close(figures.d1, r - p, 2) and is_close(figures.d2, r - 2 * q + p, 4), True


# ---------------------------------------------------------------------------
# Files

def report_lines(data):
    """The report lines of a file, as numbers."""
    lines = listing(data).decode("ascii").splitlines()
    assert lines[0].startswith("PHS") and lines[-1].startswith("reports")
    return [list(map(int, line.split())) for line in lines[1:-1]]


def listed_files():
    """A dead feeder has `0 0 1` in every line, one that comes back has it in between; the edge goes by its cases."""
    for data, count in ((example_files()["dead_feeder"], 13), (stored_files()["dead"], 28)):
        yield [line[4:] for line in report_lines(data)], [[0, 0, 1]] * count
    lines = report_lines(example_files()["dies_and_comes_back"])
    yield [line[6] for line in lines], [0] * 7 + [1] * 6 + [0] * 7
    yield [line[4:] for line in lines[7:13]], [[0, 0, 1]] * 6
    lines = report_lines(stored_files()["edge_of_phase"])
    yield [(*line[2:4], line[6]) for line in lines], [(*case.centres[AT], case.mark) for case in edge_cases()]
    yield [line[4:6] for line in lines if line[6]], [[0, 0]] * 48


PHASE_CHECKS = (angles, edges_of_the_angle, angles_at_the_edge, angles_by_floor, close_to_the_arctangent,
                quarter_turns, single_samples, by_the_signs, of_two_counts, centres_on_axes, angles_as_differences,
                centres_at_the_edge, listed_files)
