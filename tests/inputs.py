"""Inputs made for the tests: nominals and rates, waves of a sequence, noise and rails."""

import math

from reference import SERVED, sampling

LOW, HIGH = -32768, 32767


def served_pairs():
    """Every served nominal and rate."""
    return [(nominal, rate) for nominal, rates in SERVED.items() for rate in rates]


def opening_pairs():
    """Every nominal and rate that an opening or a header may give, rate 0 among them."""
    return [(nominal, rate) for nominal, rates in SERVED.items() for rate in (0,) + rates]


def clipped(value):
    """A number made whole, within the signed 16 bits of a sample."""
    return max(LOW, min(HIGH, round(value)))


def sample_at(turns, amplitude, order=1):
    """a, b, c at an angle in turns: order 1 is positive sequence, -1 negative, 0 zero."""
    return tuple(clipped(amplitude * math.cos(2 * math.pi * (turns - order * lag / 3))) for lag in range(3))


def steady_wave(nominal, frequency, amplitude, count, turns=0.0, order=1):
    """Samples of one frequency from an angle in turns on."""
    return [sample_at(turns + frequency * n / sampling(nominal), amplitude, order) for n in range(count)]


def any_wave(rng, nominal, count):
    """Positive sequence of any frequency from 40 to 70 Hz, sometimes of two counts or about four, most often more."""
    amplitude = rng.choice((2, 4, 5, 300, 20000, 20000, HIGH, HIGH))
    return steady_wave(nominal, rng.uniform(40, 70), amplitude, count, rng.random())


def noise_sample(rng, amplitude):
    """A sample of noise."""
    return tuple(rng.randint(-amplitude, amplitude) for _ in range(3))


def dead_noise(rng, count, amplitude=2):
    """Samples of a dead feeder, of two counts at most or of another amplitude."""
    return [noise_sample(rng, amplitude) for _ in range(count)]


def dead_in_between(rng, wave):
    """A wave with the noise of a dead feeder in its second third."""
    third = len(wave) // 3
    return wave[:third] + dead_noise(rng, third) + wave[2 * third:]


def rail_sample(rng):
    """A sample with each phase at either rail."""
    return tuple(rng.choice((LOW, HIGH)) for _ in range(3))


def any_sample(rng):
    """A sample of rails, or of noise of any amplitude."""
    amplitude = rng.choice((None, 2, 40, 300, 20000, HIGH))
    return noise_sample(rng, amplitude) if amplitude else rail_sample(rng)


def any_runs(rng, *lengths):
    """Three runs of noise of one amplitude: sometimes of two counts, or of so many that a phase may be there or not."""
    amplitude = rng.choice((2, 30, 60, 500, HIGH, HIGH))
    return [[rng.randint(-amplitude, amplitude) for _ in range(length)] for length in lengths]


def any_stretch(rng, nominal, count):
    """So many samples of a wave, of anything, of noise that may have a phase or not, or of a dead feeder."""
    kind = rng.randrange(10)
    if kind < 5:
        return any_wave(rng, nominal, count)
    if kind < 8:
        return [any_sample(rng) for _ in range(count)]
    return [noise_sample(rng, 40) for _ in range(count)] if kind == 8 else dead_noise(rng, count, rng.randint(0, 2))
