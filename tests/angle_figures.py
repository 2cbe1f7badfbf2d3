"""The figures of CR 6: what is kept of the three newest centres, what a push makes of it, the reports from it, and its
salvage. A figure is what the model answers, and what it must."""

import functools
import itertools
import random

from centres import ANGLES, IM, RE, after_angle_0, with_centres
from images import KINDS
from inputs import any_sample, any_stretch, dead_noise, noise_sample, opening_pairs
from maker import FREE, as_of_old, edited, held_slot
from reference import (
    BANK_BYTES, DONE, PLACES, SLOT_BYTES, SLOTS, SOUND, TRIMMED, Fate, Feed, Mended, Phase, Refused, Taken, close,
    damage, feed_of, kept_rate, open_feed, phase_of, positive_sequence, push, put_slot, salvage, sampling, slot_bytes,
    slot_of, whole_run)

SLOT = 6
# bytes 197 to 211, and what they have of a centre without 29 samples
KEPT = slice(197, 212)
NOTHING = "00000000", 0
ALL_SOUND = Mended((Fate(SOUND, 0),) * 16)


def bank_with(content):
    """A bank with these bytes in the slot, the others free."""
    bank = bytearray(BANK_BYTES)
    put_slot(bank, SLOT, content)
    return bank


def fed(samples, nominal=60, rate=0):
    """A bank whose slot has taken samples from the opening on, and the answers."""
    bank = bytearray(BANK_BYTES)
    open_feed(bank, SLOT, nominal, rate, 1000)
    return bank, [push(bank, SLOT, *sample) for sample in samples]


def kept_in(bank):
    """Bytes 197 to 211 of the slot."""
    return slot_bytes(bank, SLOT)[KEPT]


def put_kept(bank, kept):
    """Puts bytes 197 to 211 in the slot."""
    put_slot(bank, SLOT, edited(slot_bytes(bank, SLOT), 197, *kept))


def kept_of(*phases):
    """Bytes 197 to 211 of three phases, each an angle of eight hexadecimal digits and a flag."""
    return bytes.fromhex("".join(angle for angle, _ in phases)) + bytes(flag for _, flag in phases)


# ---------------------------------------------------------------------------
# Centres whose angles are known

# on either axis a centre with a phase on either side, of which there are samples, and one without
UNITS = {RE: 22118400, IM: 800 * 28378}
SIGNS = (1, -1, 0)
PHASES = {(RE, 1): ("00000000", 0), (RE, -1): ("80000000", 0), (IM, 1): ("40000000", 0), (IM, -1): ("c0000000", 0),
          (RE, 0): ("00000000", 1), (IM, 0): ("00000000", 1)}
# how many bytes of such a phase are not zero
NONZERO = {(RE, 1): 0, (RE, -1): 1, (IM, 1): 1, (IM, -1): 1, (RE, 0): 1, (IM, 0): 1}


@functools.cache
def known_window(axis, signs):
    """31 samples from the opening on, whose centres 14, 15 and 16 are on an axis and have these signs."""
    values = [sign * UNITS[axis] for sign in signs]
    return with_centres(random.Random(13), 0, [(value, 0) if axis == RE else (0, value) for value in values])


def known_windows():
    """Such windows with each sign at each centre, and the axis and sign of each centre."""
    for axis, signs in itertools.product((RE, IM), itertools.product(SIGNS, repeat=3)):
        yield known_window(axis, signs), [(axis, sign) for sign in signs]


def from_28_to_32():
    """No angle is kept with 28 held, one with 29, two with 30, three with 31; with the next sample they move on."""
    for samples, kinds in known_windows():
        first, second, third = [PHASES[kind] for kind in kinds]
        for nominal in (50, 60):
            bank = fed([], nominal)[0]
            kept = [kept_in(bank)]
            for sample in samples + [(9, 9, 9)]:
                push(bank, SLOT, *sample)
                kept.append(kept_in(bank))
            yield kept[:29], [bytes(15)] * 29
            yield kept[29], kept_of(NOTHING, NOTHING, first)
            yield kept[30], kept_of(NOTHING, first, second)
            yield kept[31], kept_of(first, second, third)
            yield kept[32][:8] + kept[32][12:14], kept[31][4:12] + kept[31][13:]


def reports_from_the_three():
    """The report with 31 held has d1 = r - p and d2 = r - 2q + p of the three, or the mark."""
    for samples, kinds in known_windows():
        p, q, r = [int(PHASES[kind][0], 16) for kind in kinds]
        figures = fed(samples)[1][30].report.figures
        if any(sign == 0 for _, sign in kinds):
            yield figures[2:5], (0, 0, 1)
        else:
            yield (figures.d1 % 2**32, figures.d2 % 2**32, figures.mark), ((r - p) % 2**32, (r - 2 * q + p) % 2**32, 0)
        yield figures, whole_run(*zip(*samples), 15, 60)


def angles_kept():
    """The angle figures, as the newest angle with 31 held; the oldest is 0."""
    rng = random.Random(14)
    for (re, im), figure in ANGLES:
        none = int(figure is None)
        oldest, _, newest = feed_of(slot_bytes(fed(after_angle_0(rng, re, im, none).samples)[0], SLOT)).phases
        yield (oldest, newest), ((0, 0), (figure or 0, none))


def old_images_of_known_angles():
    """An image from before CR 6: with 28 held it is sound; from 29 on salvage puts the angles in, and says how many
    bytes differ. With the angles it is sound."""
    for samples, kinds in known_windows():
        for count in (0, 27, 28, 29, 30, 31):
            bank = fed(samples[:count])[0]
            true = bytes(bank)
            yield salvage(bank), ALL_SOUND
            yield bytes(bank), true
            old = bank_with(as_of_old(slot_bytes(bank, SLOT)))
            differing = sum(NONZERO[kind] for kind in kinds[:max(0, count - 28)])
            word = TRIMMED if differing else SOUND
            yield damage(slot_bytes(old, SLOT)), []
            yield salvage(old).fates[SLOT], Fate(word, differing)
            yield bytes(old), true
            yield salvage(old), ALL_SOUND
            yield bytes(old), true


# ---------------------------------------------------------------------------
# What a push makes of the three

UNTRUE = bytes(range(1, 13)) + bytes((1, 0, 1))


def example_of_byte_208():
    """27 held, byte 208 is 7, a push: byte 204 is 7, bytes 205 to 208 are 0; with 28 held the newest angle comes."""
    samples = known_window(RE, (-1, -1, -1))
    bank = fed(samples[:27])[0]
    bank[SLOT_BYTES * SLOT + 208] = 7
    yield push(bank, SLOT, *samples[27]), Taken(None)
    yield kept_in(bank), bytes((0, 0, 0, 0, 0, 0, 0, 7, 0, 0, 0, 0, 0, 0, 0))
    yield push(bank, SLOT, *samples[28]), Taken(None)
    yield kept_in(bank), bytes((0, 0, 0, 7, 0, 0, 0, 0, 128, 0, 0, 0, 0, 0, 0))
    yield push(bank, SLOT, *samples[29]), Taken(None)
    yield kept_in(bank), bytes((0, 0, 0, 0, 128, 0, 0, 0, 128, 0, 0, 0, 0, 0, 0))


def untrue_ones_move_on():
    """Whatever the three are they move on, and no byte but the numbers, the sample's and 197 to 211 is altered; the
    last is zero and flag 0 up to 28 held after the push, and is then the newest centre's."""
    rng = random.Random(15)
    for dead, count in itertools.product((False, True), (*range(36), 45, 46, 61, 62)):
        samples = dead_noise(rng, count + 1) if dead else [noise_sample(rng, 30000) for _ in range(count + 1)]
        bank, true = fed(samples[:count])[0], fed(samples)[0]
        put_kept(bank, UNTRUE)
        push(bank, SLOT, *samples[count])
        kept = kept_in(bank)
        yield kept[:8], UNTRUE[4:12]
        yield kept[12:14], UNTRUE[13:]
        # the newest is worked out as for true ones
        yield kept[8:12] + kept[14:], kept_in(true)[8:12] + kept_in(true)[14:]
        if count < 28 or dead:
            yield kept[8:12] + kept[14:], bytes((0, 0, 0, 0, int(count >= 28)))
        yield edited(slot_bytes(bank, SLOT), 197, *kept_in(true)), slot_bytes(true, SLOT)
        # with two samples more the untrue ones are gone
        for sample in ((5, -9, 7), (6, 0, -3)):
            push(bank, SLOT, *sample)
            push(true, SLOT, *sample)
        yield bytes(bank), bytes(true)


def reports_from_untrue_angles():
    """With r = 0, p and q are the second and third kept before the push; the first and its flag have no effect."""
    samples = known_window(RE, (1, 1, 1))
    run = whole_run(*zip(*samples), 15, 60)
    for p, q, d1, d2 in ((0, 0, 0, 0), (0, 1, 0, -2), (1, 0, -1, 1), (4294967290, 0, 6, -6), (4294967280, 5, 16, -26),
                         (2**31, 0, -2147483648, -2147483648), (2**31 + 1, 0, 2147483647, -2147483647),
                         (1, 2**31, -1, 1), (0, 2**30, 0, -2147483648), (0, 2**30 + 1, 0, 2147483646)):
        for first, flags in itertools.product((0, 7, 2**32 - 1), itertools.product((0, 1), repeat=3)):
            bank = fed(samples[:30])[0]
            put_kept(bank, kept_of(*[("%08x" % angle, flag) for angle, flag in zip((first, p, q), flags)]))
            figures = push(bank, SLOT, *samples[30]).report.figures
            marked = flags[1] == 1 or flags[2] == 1
            yield figures[2:5], (0, 0, 1) if marked else (d1, d2, 0)
            # the frequency deviation and ROCOF are those of d1 and d2; the rest is the whole run's
            yield figures[7:], ((0.0, 0.0) if marked else (d1 * 450 / 4294967296, d2 * 810000 / 4294967296))
            yield figures[:2] + figures[5:7], run[:2] + run[5:7]


def flags_without_a_phase():
    """Where the newest of the three centres alone has a phase, untrue flags of the others give a report mark 0."""
    for flags, newest in itertools.product(itertools.product((0, 1), repeat=3), (0, 20000)):
        bank = fed([(0, 0, 0)] * 30)[0]
        yield kept_in(bank), bytes(12) + bytes((0, 1, 1))
        bank[SLOT_BYTES * SLOT + 209:SLOT_BYTES * SLOT + 212] = bytes(flags)
        figures = push(bank, SLOT, newest, newest, 0).report.figures
        yield figures.mark, int(flags[1] == 1 or flags[2] == 1 or newest == 0)
        yield figures[:2], (0, 0)
        yield kept_in(bank)[12:], bytes((flags[1], flags[2], int(newest == 0)))


# ---------------------------------------------------------------------------
# Damage

def answers_to(content):
    """What an opening, a push and a closing answer to a slot of these bytes; a refused one alters none."""
    answers = []
    for call in (lambda bank: open_feed(bank, SLOT, 60, 60, 1), lambda bank: push(bank, SLOT, 1, 2, 3),
                 lambda bank: close(bank, SLOT)):
        bank = bank_with(content)
        answers.append(call(bank))
        if isinstance(answers[-1], Refused):
            assert bank == bank_with(content)
    return answers


OPEN, DAMAGED = [Refused(4), Taken(None), DONE], [Refused(3)] * 3


def edges_of_damage():
    """Nothing of bytes 197 to 211 is damage but a flag over 1; byte 212 and those after it must be zero. Of a free
    slot every byte must be."""
    rng = random.Random(16)
    samples = [noise_sample(rng, 30000) for _ in range(PLACES)]
    for held in (0, 6, 27, 28, 29, 30, 31):
        content = held_slot(samples, rate=10, held=held)
        yield answers_to(content), OPEN
        yield answers_to(as_of_old(content)), OPEN
        for at, value in itertools.product(range(197, 209), (0, 1, 2, 255)):
            yield answers_to(edited(content, at, value)), OPEN
        for at, flag in itertools.product((209, 210, 211), (0, 1, 2, 3, 128, 255)):
            yield answers_to(edited(content, at, flag)), DAMAGED if flag > 1 else OPEN
        for at in (212, 213, 255):
            yield answers_to(edited(content, at, 1)), DAMAGED
        yield answers_to(edited(content, 196, 1)), OPEN if held == 31 else DAMAGED
        yield answers_to(edited(content, 211, 1, 1)), DAMAGED
        yield answers_to(edited(content, 197, *[255] * 12, 1, 1, 1)), OPEN
        yield damage(edited(content, 209, 2)), ["a flag over 1"]
        yield damage(edited(content, 212, 1)), ["a nonzero byte after byte 211"]
    for at in range(196, 213):
        yield answers_to(edited(FREE, at, 1)), DAMAGED


def opened_and_closed():
    """Opening sets bytes 197 to 211 to zero; closing zeroes the slot, whatever is kept."""
    for nominal, rate in opening_pairs():
        yield kept_in(fed([], nominal, rate)[0]), bytes(15)
    bank = fed([(5, -7, 9)] * 40)[0]
    put_kept(bank, UNTRUE)
    yield close(bank, SLOT), DONE
    yield bytes(bank), bytes(BANK_BYTES)
    yield open_feed(bank, SLOT, 60, 60, 1000), DONE
    yield kept_in(bank), bytes(15)


# ---------------------------------------------------------------------------
# Salvage: a figure is the bytes of a slot before and after, its word and its count

def known_slot(axis, signs, held, place=None):
    """The bytes of a slot of known angles, with 31 held also where the places have gone round."""
    content = slot_bytes(fed(known_window(axis, signs)[:held])[0], SLOT)
    if place is not None:
        # the oldest sample is in the next place
        feed = feed_of(content)
        content = slot_of(feed._replace(place=place, places=feed.places[-place:] + feed.places[:-place]))
    return content


def kept_slots():
    """Angles, flags and bytes after them that are not true, of feeds that hold 28 to 31 and whose places have gone
    round or not."""
    for place in (None, 1, 7, 30):
        full = known_slot(RE, (-1, 1, 0), 31, place)
        yield full, full, SOUND, 0
        assert full[KEPT] == kept_of(("80000000", 0), ("00000000", 0), ("00000000", 1))
        yield as_of_old(full), full, TRIMMED, 2
        for at in range(197, 212):
            for value in {0, 1, 2, 128, 255} - {full[at]}:
                yield edited(full, at, value), full, TRIMMED, 1
        yield edited(full, 197, *[255] * 15), full, TRIMMED, 15
        yield edited(full, 197, *[255] * 16), full, TRIMMED, 16
        yield edited(full, 197, *range(1, 60)), full, TRIMMED, 59
        # newest first, and moved on by one place
        yield edited(full, 197, 0, 0, 0, 0, 0, 0, 0, 0, 128, 0, 0, 0, 1, 0, 0), full, TRIMMED, 4
        yield edited(full, 197, 0, 0, 0, 0, 0, 0, 0, 0, 0, 0, 0, 0, 0, 1, 1), full, TRIMMED, 2
        yield edited(full, 211, 2, 1), full, TRIMMED, 2
        yield edited(full, 211, 1, 1), full, TRIMMED, 1
    for held, kept in ((28, kept_of(NOTHING, NOTHING, NOTHING)), (29, kept_of(NOTHING, NOTHING, ("c0000000", 0))),
                       (30, kept_of(NOTHING, ("c0000000", 0), ("00000000", 1)))):
        some = known_slot(IM, (-1, 0, 1), held)
        assert some[KEPT] == kept
        yield some, some, SOUND, 0
        if held > 28:
            yield as_of_old(some), some, TRIMMED, held - 28
        for at in range(197, 212):
            yield edited(some, at, some[at] ^ 1), some, TRIMMED, 1
            yield edited(some, at, 255), some, TRIMMED, 1
        # unfilled places, angles, flags and a byte after them at once
        yield edited(some, 196, 3, *[7] * 15, 3), some, TRIMMED, 17
    # a cycle later the samples have the same angles
    later = edited(known_slot(RE, (-1, 1, 0), 31), 8, 0, 46)
    yield later, later, SOUND, 0
    yield as_of_old(later), later, TRIMMED, 2


def laws_of_salvage():
    """Any image: no damaged slot is left and every angle is true; mending again changes nothing and says sound, 0."""
    rng = random.Random(17)
    for n in range(20 * len(KINDS)):
        bank = bytearray(KINDS[n % len(KINDS)](rng))
        salvage(bank)
        once = bytes(bank)
        yield [slot for slot in SLOTS if damage(slot_bytes(bank, slot)) or not has_true_angles(bank, slot)], []
        yield salvage(bank), ALL_SOUND
        yield bytes(bank), once


# ---------------------------------------------------------------------------
# Any calls

class History:
    """The samples that a feed has taken, after as many zeros as give the first of them its table entries."""

    def __init__(self, feed):
        places = feed.places if feed.held < 31 else feed.places[feed.place:] + feed.places[:feed.place]
        self.nominal = feed.nominal
        self.first = (feed.index - feed.held) % 15
        self.samples = [(0, 0, 0)] * self.first + list(places[:feed.held])

    def phase(self, centre):
        """The angle and flag of a centre; of one that has not 29 samples they are zero."""
        if centre - 14 < self.first:
            return NOTHING
        angle, flag = phase_of(*positive_sequence(lambda n: self.samples[n], centre))
        return "%08x" % angle, flag

    def kept(self):
        """Bytes 197 to 211: the three newest centres."""
        newest = len(self.samples) - 1
        return kept_of(*[self.phase(newest - behind) for behind in (16, 15, 14)])

    def figures(self):
        """The whole run's figures at the centre 15 behind the newest sample."""
        return whole_run(*zip(*self.samples), len(self.samples) - 16, self.nominal)


def has_true_angles(bank, slot):
    """Whether bytes 197 to 211 are those of the samples held, or the slot is free."""
    content = slot_bytes(bank, slot)
    return content[0] == 0 or content[KEPT] == History(feed_of(content)).kept()


def any_calls(rng, bank):
    """Any calls on a bank of sound slots: each slot keeps true angles, and each report is the whole run's."""
    histories = {slot: History(feed_of(slot_bytes(bank, slot))) for slot in SLOTS if bank[SLOT_BYTES * slot]}
    for _ in range(60):
        slot = rng.choice((2, 3, 9, 15))
        kind = rng.randrange(12)
        if kind < 2:
            nominal, rate = rng.choice(opening_pairs())
            if open_feed(bank, slot, nominal, rate, rng.randrange(2**32)) == DONE:
                histories[slot] = History(feed_of(slot_bytes(bank, slot)))
        elif kind == 2:
            if close(bank, slot) == DONE:
                del histories[slot]
        elif kind == 3:
            yield salvage(bank), ALL_SOUND
        elif slot in histories:
            history = histories[slot]
            for sample in any_stretch(rng, history.nominal, rng.randint(1, 20)):
                answer = push(bank, slot, *sample)
                if answer == Refused(8):
                    break
                history.samples.append(sample)
                if answer.report:
                    yield answer.report.figures, history.figures()
        for each, history in histories.items():
            yield slot_bytes(bank, each)[KEPT], history.kept()


def true_after_any_calls():
    """From a cleared bank, and from a salvaged one."""
    rng = random.Random(18)
    for n in range(4):
        yield from any_calls(rng, bytearray(BANK_BYTES))
        bank = bytearray(KINDS[n](rng))
        salvage(bank)
        yield from any_calls(rng, bank)


def over_the_turn_of_a_second():
    """The angles across the turn of a second and of the places are the samples' own."""
    rng = random.Random(19)
    for nominal in (50, 60):
        samples = [any_sample(rng) for _ in range(40)]
        index = sampling(nominal) - 20
        bank = bank_with(held_slot(samples, nominal, kept_rate(nominal, 0), index=index, place=20))
        history = History(feed_of(slot_bytes(bank, SLOT)))
        for sample in samples:
            report = push(bank, SLOT, *sample).report
            history.samples.append(sample)
            yield kept_in(bank), history.kept()
            if report:
                yield report.figures, history.figures()


def feeds_and_slots():
    """A slot gives back its feed and a feed its slot, whatever is kept."""
    feed = Feed(50, 25, 31, 1000, 45, 7, ((257, -2, 3),) * 31, (Phase(2**32 - 1, 0), Phase(258, 1), Phase(0, 255)))
    yield feed_of(slot_of(feed)), feed
    yield slot_of(feed)[KEPT], bytes.fromhex("ffffffff 00000102 00000000 00 01 ff")


ANGLE_CHECKS = (from_28_to_32, reports_from_the_three, angles_kept, old_images_of_known_angles, example_of_byte_208,
                untrue_ones_move_on, reports_from_untrue_angles, flags_without_a_phase, edges_of_damage,
                opened_and_closed, laws_of_salvage, true_after_any_calls, over_the_turn_of_a_second, feeds_and_slots)
