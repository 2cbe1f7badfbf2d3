"""The scenes of a replay script that reach every edge of CR 5."""

from centres import (
    ANGLES, RESIDUES, after_angle_0, beyond_32_bits, one_at_the_edge, several_at_the_edge, truncation_told)
from inputs import dead_in_between, dead_noise, steady_wave
from reference import frame_spacing
from scenes import push_window, run_window


def run_cases(maker, cases):
    """Cases as whole runs, each of the known mark."""
    for case in cases:
        run_window(maker, maker.rng.choice((50, 60)), case.residue, case.samples)
        assert int(maker.lines[-1].split()[5]) == case.mark


def push_cases(maker, cases):
    """Cases of residue 0 as feeds, each with a report of the known mark."""
    for n, case in enumerate(cases):
        push_window(maker, n % 16, maker.rng.choice((50, 60)), case.samples)
        assert int(maker.lines[-2].split()[7]) == case.mark


def known_angles(maker):
    """The angle figures, each as the d1 of a run and of a report."""
    for (re, im), angle in ANGLES:
        cases = [after_angle_0(maker.rng, re, im, int(angle is None)) for _ in range(2)]
        run_cases(maker, cases[:1])
        assert int(maker.lines[-1].split()[3]) % 2**32 == (angle or 0)
        push_cases(maker, cases[1:])
        assert int(maker.lines[-2].split()[5]) % 2**32 == (angle or 0)


def edges_of_phase(maker):
    """Each centre at both sides of the edge, each part and sign, exactly; several centres together; low 32 bits."""
    rng = maker.rng
    run_cases(maker, one_at_the_edge(rng, RESIDUES))
    run_cases(maker, beyond_32_bits(rng, RESIDUES))
    run_cases(maker, rng.sample(list(several_at_the_edge(rng, RESIDUES)), 120))
    # four at a time differ in the other part alone
    cases = list(one_at_the_edge(rng, (0,)))
    push_cases(maker, [rng.choice(cases[at:at + 4]) for at in range(0, len(cases), 4)])
    push_cases(maker, rng.sample(list(several_at_the_edge(rng, (0,))), 12))


def truncation_told_apart(maker):
    """Centres above the limit, of which truncation instead of floor gives other figures."""
    run_cases(maker, truncation_told(maker.rng, RESIDUES, 48))
    push_cases(maker, truncation_told(maker.rng, (0,), 6))


def dead_feeders(maker):
    """A feeder that dies and comes back, and one that is dead from the opening on."""
    rng = maker.rng
    for slot, (nominal, rate) in enumerate(((50, 50), (60, 30))):
        count = frame_spacing(nominal, rate) + 40
        wave = steady_wave(nominal, nominal + rng.uniform(-2, 2), 20000, 3 * count, rng.random())
        maker.open(slot, nominal, rate)
        for sample in dead_in_between(rng, wave):
            maker.push(slot, sample)
        maker.close(slot)
    for slot, amplitude in ((2, 1), (3, 2)):
        maker.open(slot)
        for sample in dead_noise(rng, 46, amplitude):
            maker.push(slot, sample)
        maker.show(slot)
        maker.close(slot)


PHASE_SCENES = (known_angles, edges_of_phase, truncation_told_apart, dead_feeders)
