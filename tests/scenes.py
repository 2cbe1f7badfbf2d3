"""The scenes of a replay script that reach every edge of document 01, of CR 1, of CR 2 and of CR 3, and of damage as
CR 6 has it."""

import itertools
import math

from inputs import HIGH, LOW, any_runs, any_sample, any_wave, opening_pairs, served_pairs
from maker import FREE, LENGTHS, any_samples, edited, held_slot
from reference import (
    AFTER_FLAGS, BANK_BYTES, CLOSED, FIRST_ANGLE, FIRST_FLAG, FIRST_PLACE, LAST_SOC, LIMITS, PLACES, SERVED, SLOT_BYTES,
    SLOTS, SOUND, TRIMMED, cos, damage, frame_spacing, kept_rate, mended, sampling, slot_bytes)
from replay import MEMORY_BYTES
from windows import windows

LOW_32, HIGH_32 = -2147483648, 2147483647


# ---------------------------------------------------------------------------
# The figures of document 01, and of CR 1

def impulse_runs(phase, at):
    """Three runs of 61 that are 1 in one phase at one index, else 0."""
    return [[1 if n == at and p == phase else 0 for n in range(61)] for p in range(3)]


def figures_of_the_document(maker):
    """The figures on both sides of each edge, as records."""
    for nominal, (phase, at) in itertools.product(SERVED, ((0, 30), (0, 31), (1, 35))):
        maker.run(nominal, 30, impulse_runs(phase, at))
    for re, im in ((10100, 0), (10060, 80), (10101, 0), (10060, 81)):
        maker.judge(device=(re, im, 0, 0), reference=(10000, 0, 0, 0))
    for class_ in (0, 1):
        for reference in (0, -1):
            maker.judge(class_, 0, 3, (1, 0, 5, 0), (1, 0, reference, 0))
        for device in (1, 2):
            maker.judge(class_, 0, 3, (1, 0, 0, device), (1, 0, 0, 0))
        for m in (-3, -2, 2, 3):
            maker.judge(class_, 1, m)
    for centre in (14, 15, 16):
        maker.run(50, centre, any_runs(maker.rng, 31, 31, 31))
    maker.lay(2, held_slot(any_samples(maker.rng), soc=LAST_SOC, index=898))
    maker.push(2)
    maker.push(2)
    maker.clear()
    maker.open(0)
    for n in range(31):
        maker.push(0, (cos(n), cos(n - 5), cos(n - 10)))
    maker.show(0)
    maker.close(0)


# ---------------------------------------------------------------------------
# Refusals 1, 2, 4 to 7, and the order of refusals

def bank_lengths(maker):
    """Banks of each length, with slots free, open and damaged, and a byte beyond the bank."""
    maker.set(BANK_BYTES, 1)
    maker.set(MEMORY_BYTES - 1, 9)
    for at in (MEMORY_BYTES, 65535):
        maker.set(at, 5)
    maker.open(1)
    maker.set(3 * SLOT_BYTES, 2)
    for length in LENGTHS:
        for slot in (0, 1, 3, 15, 16, 255):
            maker.push(slot, length=length)
            maker.open(slot, 51, 11, length=length)
            maker.close(slot, length=length)
            maker.open(slot, length=length)
        maker.clear(length)
        maker.show(0, 1, 3, 15, 16, 31)
        maker.open(1)
        maker.set(3 * SLOT_BYTES, 2)
    for slot in SLOTS:
        for at in (0, SLOT_BYTES - 1):
            maker.set(SLOT_BYTES * slot + at, 255)
    maker.clear()
    maker.show(*SLOTS, 16, 31, 32, 255)


def every_slot(maker):
    """All sixteen slots, and every number over 15, though bytes lie at some."""
    maker.lay(16, held_slot(any_samples(maker.rng)))
    for slot in range(256):
        maker.push(slot)
        maker.close(slot)
        maker.open(slot, 50, 25, maker.rng.randint(0, LAST_SOC))
        maker.open(slot, 50, 25, 5)
        maker.push(slot)
        maker.show(slot)
    maker.show(*range(18))
    for slot in list(SLOTS) + [16]:
        maker.close(slot)
        maker.close(slot)
        maker.push(slot)
        maker.show(slot)


def openings(maker):
    """Every nominal, and every rate at both nominals."""
    for nominal in range(256):
        for rate in (0, 10, 61):
            maker.open(4, nominal, rate)
            maker.close(4)
    for nominal in SERVED:
        for rate in range(256):
            maker.open(5, nominal, rate, maker.rng.randint(0, LAST_SOC))
            if rate in SERVED[nominal] or rate in (0, 1, 255):
                maker.show(5)
            maker.close(5)
    for soc in (0, 1, 255, 256, 65536, LAST_SOC - 1, LAST_SOC):
        maker.open(6, 50, 10, soc)
        maker.show(6)
        maker.close(6)


def orders_of_the_bank(maker):
    """Bank calls to which two or more refusals apply at once."""
    last = held_slot(any_samples(maker.rng), soc=LAST_SOC, index=899)
    sound = held_slot(any_samples(maker.rng))
    contents = (FREE, sound, last, edited(FREE, 0, 2), edited(FREE, 9, 1), edited(sound, 255, 1),
                edited(last, 210, 2), edited(last, 0, 0), edited(last, 0, 9))
    for content in contents:
        for length, slot in itertools.product((BANK_BYTES, 4095, 8192), (9, 16)):
            for nominal, rate in itertools.product((60, 51), (60, 11, 50)):
                maker.lay(9, content)
                maker.open(slot, nominal, rate, length=length)
            maker.lay(9, content)
            maker.push(slot, length=length)
            maker.show(9)
            maker.lay(9, content)
            maker.close(slot, length=length)
            maker.show(9)
    maker.lay(9, FREE)


# ---------------------------------------------------------------------------
# Damage: both sides of each clause. A case is the bytes of a slot and whether it is damaged.

def state_cases(rng, samples):
    """The state, over otherwise sound and free slots."""
    for content in (held_slot(samples), held_slot(samples, held=4), FREE):
        yield content, False
        for state in (2, 3, 128, 255):
            yield edited(content, 0, state), True


def free_cases(rng, samples):
    """Each byte of a free slot, and an open slot whose state is made 0."""
    yield FREE, False
    for at in range(1, SLOT_BYTES):
        yield edited(FREE, at, rng.choice((1, 255, rng.randint(1, 255)))), True
    yield edited(held_slot(samples), 0, 0), True


def nominal_and_rate_cases(rng, samples):
    """Nominals beside 50 and 60, and every rate at both, a kept 0 included."""
    for nominal in (0, 1, 49, 51, 59, 61, 178, 255):
        yield held_slot(samples, nominal=nominal, rate=10), True
    for nominal in SERVED:
        for rate in range(256):
            yield held_slot(samples, nominal=nominal, rate=rate), rate not in SERVED[nominal]


def index_cases(rng, samples):
    """The index about 750 at 50 Hz and 900 at 60 Hz."""
    for nominal, below, above in ((50, (0, 256, 748, 749), (750, 751, 899, 900, 1005, 65535)),
                                  (60, (0, 256, 750, 898, 899), (900, 901, 1155, 32768, 65535))):
        for index in below + above:
            yield held_slot(samples, nominal=nominal, rate=10, index=index), index in above


def held_cases(rng, samples):
    """The samples held, from 31."""
    content = held_slot(samples)
    yield content, False
    for held in (32, 33, 63, 128, 159, 255):
        yield edited(content, 3, held), True


def place_cases(rng, samples):
    """Places up to 30, and over it."""
    for place in (0, 1, 2, 14, 15, 16, 28, 29, 30, 31, 32, 128, 255):
        yield held_slot(samples, place=place), place > 30


def uneven_cases(rng, samples):
    """Every number held below 31, with the place or the index beside it."""
    for held in range(31):
        content = held_slot(samples, held=held)
        yield content, False
        for place in {held - 1, held + 1, rng.randrange(31)} & set(range(31)) - {held}:
            yield edited(content, 10, place), True
            yield edited(content, 9, place, place), True
        for index in {max(held - 1, 0), held + 1, held + 256, rng.randrange(900)} - {held}:
            yield edited(content, 8, *divmod(index, 256)), True


def early_cases(rng, samples):
    """The index about 31 in SOC 0, and the same in later seconds."""
    for nominal, rate in ((50, 50), (60, 60)):
        for index in (0, 1, 15, 29, 30, 31, 32, 256, 300):
            yield held_slot(samples, nominal, rate, soc=0, index=index), index < 31
        for soc, index in ((1, 0), (1, 15), (1, 30), (256, 30), (65536, 0), (16777216, 15), (LAST_SOC, 30)):
            yield held_slot(samples, nominal, rate, soc=soc, index=index), False
        for held in (0, 14, 30):
            yield held_slot(samples, nominal, rate, held=held, soc=0), False


def unfilled_cases(rng, samples):
    """The bytes about the first unfilled place, and the last of the places."""
    for held in range(31):
        content = held_slot(samples, held=held)
        unfilled = FIRST_PLACE + 6 * held
        if held > 0:
            yield edited(content, unfilled - 1, rng.randint(1, 255)), False
        for at in {unfilled, unfilled + 5, rng.randrange(unfilled, FIRST_ANGLE), FIRST_ANGLE - 1}:
            yield edited(content, at, rng.choice((1, 128, 255))), True
    yield edited(held_slot(samples), FIRST_ANGLE - 1, 255), False


def flag_cases(rng, samples):
    """Each flag about 1, with 31 held and fewer, and each byte of the angles, where nothing is damage."""
    few = held_slot(samples, held=2)
    for content in (held_slot(samples), few):
        for at in range(FIRST_FLAG, AFTER_FLAGS):
            for flag in (2, 3, 128, 255, 0, 1):
                yield edited(content, at, flag), flag > 1
    for at in range(FIRST_ANGLE, FIRST_FLAG):
        yield edited(few, at, rng.choice((1, 2, 255))), False
    for flags, damaged in (((1, 1, 1), False), ((2, 2, 2), True), ((255, 0, 1), True)):
        yield edited(few, FIRST_ANGLE, *bytes([255]) * 12, *flags), damaged


def after_cases(rng, samples):
    """Each byte after byte 211, with 31 held and fewer, and byte 211 itself."""
    for at in range(AFTER_FLAGS, SLOT_BYTES):
        yield edited(held_slot(samples), at, rng.choice((1, 255))), True
    for at in (AFTER_FLAGS, 255):
        yield edited(held_slot(samples, held=6), at, 1), True
    for content in (held_slot(samples), held_slot(samples, held=6)):
        yield edited(content, AFTER_FLAGS - 1, 1), False
        yield edited(content, AFTER_FLAGS - 1, 1, 1), True
    yield held_slot(samples), False


DAMAGE_CASES = {
    "state exceeds 1": state_cases,
    "free with a nonzero byte": free_cases,
    "unserved nominal or rate": nominal_and_rate_cases,
    "index not below the sampling": index_cases,
    "held over 31": held_cases,
    "place over 30": place_cases,
    "fewer than 31 held where place or index differs from held": uneven_cases,
    "31 held with SOC 0 and index under 31": early_cases,
    "a nonzero byte in an unfilled place": unfilled_cases,
    "a flag over 1": flag_cases,
    "a nonzero byte after byte 211": after_cases,
}


def try_slot(maker, slot, neighbour, content):
    """Each call on a slot of these bytes, and on a neighbour that it leaves unaffected."""
    maker.lay(slot, content)
    maker.push(slot)
    maker.push(neighbour)
    maker.show(slot)
    maker.open(slot, 50, 10, 77)
    maker.open(slot, 51, 11)
    maker.open(neighbour)
    if maker.rng.random() < 0.03:
        maker.close(neighbour)
        maker.open(neighbour)
    maker.close(slot)
    maker.show(slot, neighbour)


def damaged_slots(maker):
    """Every clause of damage, each by itself and at both sides of its edge."""
    for number, (clause, cases) in enumerate(DAMAGE_CASES.items()):
        slot = (3 * number + 2) % 16
        neighbour = (slot + maker.rng.choice((1, 15))) % 16
        maker.clear()
        maker.open(neighbour)
        for content, damaged in cases(maker.rng, any_samples(maker.rng)):
            assert damage(content) == ([clause] if damaged else [])
            try_slot(maker, slot, neighbour, content)
        maker.close(neighbour)
        maker.show(neighbour)
    maker.clear()


def one_damaged_of_sixteen(maker):
    """One slot damaged, each in turn, while the other fifteen go on."""
    for slot in SLOTS:
        maker.lay(slot, held_slot(any_samples(maker.rng), place=slot))
    for slot in SLOTS:
        at, value = maker.rng.choice(((maker.rng.randrange(FIRST_FLAG, AFTER_FLAGS), 2),
                                      (maker.rng.randrange(AFTER_FLAGS, SLOT_BYTES), 1)))
        at += SLOT_BYTES * slot
        before = maker.memory[at]
        maker.set(at, value)
        for other in SLOTS:
            maker.push(other)
        maker.close(slot)
        maker.open(slot)
        maker.show(slot)
        maker.set(at, before)
        maker.push(slot)
    maker.show(*SLOTS)
    maker.clear()


# ---------------------------------------------------------------------------
# Salvage (CR 3)

def mend_shown(maker, *slots):
    """The slots shown before and after a salvage, and a second salvage."""
    maker.show(*slots)
    maker.mend()
    maker.show(*slots)
    maker.mend()


def salvage_lengths(maker):
    """Images of each length, with damage in the first slot, the last and one between, and bytes beyond the image."""
    maker.open(0)
    maker.open(15, 50, 25)
    for length in LENGTHS:
        maker.set(SLOT_BYTES - 1, 1)
        maker.set(7 * SLOT_BYTES, 2)
        maker.set(BANK_BYTES - 1, 1)
        maker.mend(length)
        maker.show(0, 7, 15, 16, 31)
    maker.clear()


def one_mended_of_sixteen(maker):
    """One slot trimmed, each in turn, with 0 to 14 and 31 held, after which it goes on; then each closed in turn."""
    for slot in SLOTS:
        nominal = maker.rng.choice((50, 60))
        held = 31 if slot == 15 else slot
        maker.open(slot, nominal, nominal)
        for _ in range(held):
            maker.push(slot)
        maker.set(SLOT_BYTES * slot + (AFTER_FLAGS if held == 31 else FIRST_PLACE + 6 * held), 1)
        maker.push(slot)
        mend_shown(maker, slot)
    for slot in (0, 14, 15):
        for _ in range(17):
            maker.push(slot)
    for slot in SLOTS:
        maker.set(SLOT_BYTES * slot + 1, 51)
        mend_shown(maker, slot)
        maker.push(slot)
        maker.open(slot)
        maker.push(slot)
    maker.clear()


# of a slot that holds 31: its nominal and SOC, a byte, and the bytes from there on that are sound and that are damaged
EDGES_OF_31 = (
    (60, 1000, 8, divmod(899, 256), divmod(900, 256)),
    (50, 1000, 8, divmod(749, 256), divmod(750, 256)),
    (60, 0, 9, [31], [30]),
    (60, 1000, 3, [31], [32]),
    (50, 1000, 3, [31], [255]),
    (60, 1000, 10, [30], [31]),
    (50, 1000, 2, [50], [0]),
    (60, 1000, 1, [60], [61]),
)


def salvage_of_31(maker):
    """Both sides of the edges of slots that hold 31, first with a byte after byte 211."""
    slots = range(5, 5 + len(EDGES_OF_31))
    for slot, (nominal, soc, at, sound, _) in zip(slots, EDGES_OF_31):
        maker.open(slot, nominal, nominal, soc)
        for _ in range(PLACES):
            maker.push(slot)
        maker.lay(slot, edited(slot_bytes(maker.memory, slot), at, *sound))
        maker.set(SLOT_BYTES * slot + maker.rng.randrange(AFTER_FLAGS, SLOT_BYTES), 1)
    mend_shown(maker, *slots)
    for slot, (_, _, at, _, damaged) in zip(slots, EDGES_OF_31):
        maker.lay(slot, edited(slot_bytes(maker.memory, slot), at, *damaged))
    mend_shown(maker, *slots)


# the last byte of the places, of the angles, of the flags and of the slot, and the bytes that follow them
EDGES_AFTER_PLACES = (FIRST_ANGLE - 1, FIRST_ANGLE, FIRST_FLAG - 1, FIRST_FLAG, AFTER_FLAGS - 1, AFTER_FLAGS,
                      SLOT_BYTES - 1)


def salvage_cases(samples):
    """Slots of few samples at both sides of each edge, and the word for each."""
    none, one = held_slot(samples, held=0), held_slot(samples, held=1)
    unfilled = FIRST_PLACE + 6
    for content in (FREE, none, one, held_slot(samples, 50, 25, held=2), edited(one, unfilled - 1, 255)):
        yield content, SOUND
    for at in (FIRST_PLACE, *EDGES_AFTER_PLACES):
        yield edited(none, at, 1), TRIMMED
    for at, *values in ((unfilled, 255), (unfilled - 1, 9, 9), (FIRST_ANGLE - 2, 1, 2, 3, 4), (FIRST_ANGLE, 5, 0, 5),
                        (FIRST_FLAG, 2), (FIRST_FLAG + 1, 255), (AFTER_FLAGS - 1, 1, 1), (AFTER_FLAGS, 5, 0, 5)):
        yield edited(one, at, *values), TRIMMED
    yield edited(none, FIRST_ANGLE, *range(1, SLOT_BYTES - FIRST_ANGLE + 1)), TRIMMED
    for at in (1, 3, FIRST_PLACE, *EDGES_AFTER_PLACES):
        yield edited(FREE, at, 1), CLOSED
    for state in (2, 128, 255):
        yield edited(FREE, 0, state), CLOSED
        yield edited(one, 0, state), CLOSED
    yield edited(one, 0, 0), CLOSED
    for nominal in (0, 49, 51, 59, 61):
        yield edited(none, 1, nominal), CLOSED
    for rate in (0, 11, 50):
        yield edited(none, 2, rate), CLOSED
    for at, *values in ((3, 0), (3, 2), (3, 32), (3, 255), (8, 1), (9, 0), (9, 2), (10, 0), (10, 2), (10, 31),
                        (9, 2, 2)):
        faulty = edited(one, at, *values)
        yield faulty, CLOSED
        yield edited(faulty, SLOT_BYTES - 1, 1), CLOSED
    yield edited(edited(one, 2, 0), unfilled, 1), CLOSED
    yield bytes([1]) * SLOT_BYTES, CLOSED


def salvage_side_by_side(maker):
    """Slots of each word beside each other, sixteen at a time."""
    cases = list(salvage_cases(any_samples(maker.rng)))
    maker.rng.shuffle(cases)
    for at in range(0, len(cases), len(SLOTS)):
        for slot, (content, word) in zip(SLOTS, cases[at:]):
            assert mended(content)[0] == word
            maker.lay(slot, content)
        mend_shown(maker, *SLOTS)
    maker.clear()


# ---------------------------------------------------------------------------
# Reports

def reports(maker):
    """Both nominals and every served rate, rate 0 among them, from the opening on."""
    for slot, (nominal, rate) in enumerate(opening_pairs()):
        maker.open(slot, nominal, rate, maker.rng.choice((0, 1000, maker.rng.randint(0, LAST_SOC))))
        count = 2 * frame_spacing(nominal, kept_rate(nominal, rate)) + 35
        for sample in any_wave(maker.rng, nominal, count):
            maker.push(slot, sample)
        maker.show(slot)
        maker.close(slot)


def push_window(maker, slot, nominal, samples):
    """A window as the first 31 samples of a feed, whose report comes with the last."""
    maker.open(slot, nominal, nominal, maker.rng.randint(0, LAST_SOC))
    for sample in samples:
        maker.push(slot, sample)
    maker.close(slot)


def windows_pushed(maker):
    """Windows whose first index is a multiple of 15."""
    whole = [window for window in windows() if window.first % 15 == 0]
    for n, window in enumerate(maker.rng.sample(whole, 40)):
        push_window(maker, n % 16, window.nominal, window.samples)


def turns_of_the_second(maker):
    """Every served rate across the turn of the second, from the last frame of one to the next."""
    for slot, (nominal, rate) in enumerate(served_pairs()):
        spacing = frame_spacing(nominal, rate)
        index = sampling(nominal) - spacing
        soc = maker.rng.choice((0, 255, 65535, LAST_SOC - 1))
        maker.lay(slot, held_slot(any_samples(maker.rng), nominal, rate, soc=soc, index=index))
        for sample in any_wave(maker.rng, nominal, 2 * spacing + 31):
            maker.push(slot, sample)
        maker.show(slot)
    maker.clear()


def whole_seconds(maker):
    """A second and more, pushed sample by sample from the opening."""
    for slot, nominal in ((12, 50), (13, 60)):
        maker.open(slot, nominal, nominal, LAST_SOC - 1)
        for n, sample in enumerate(any_wave(maker.rng, nominal, sampling(nominal) + 50)):
            maker.push(slot, sample)
            if n % 100 == 0 or n % sampling(nominal) in (0, sampling(nominal) - 1):
                maker.show(slot)
        maker.close(slot)


def last_seconds(maker):
    """Up to the last sample of the last second, and beside it."""
    for nominal in SERVED:
        last = sampling(nominal) - 1
        samples = any_samples(maker.rng)
        maker.lay(10, held_slot(samples, nominal, nominal, soc=LAST_SOC, index=last - 20))
        for _ in range(23):
            maker.push(10)
        maker.show(10)
        maker.open(10)
        maker.close(10)
        for soc in (LAST_SOC - 1, LAST_SOC - 256, 0xFFFEFFFF, 0xFEFFFFFF, 0x7FFFFFFF, 255, 0):
            maker.lay(10, held_slot(samples, nominal, nominal, soc=soc, index=last))
            maker.push(10)
            maker.push(10)
            maker.show(10)
        for index in (0, last - 256, last - 1, last, 749, 750):
            content = held_slot(samples, nominal, 10, soc=LAST_SOC, index=index)
            if not damage(content):
                maker.lay(10, content)
                maker.push(10)
                maker.push(10)
                maker.show(10)
        maker.lay(10, FREE)
        maker.open(10, nominal, nominal, LAST_SOC)
        for _ in range(50):
            maker.push(10)
        maker.close(10)


# ---------------------------------------------------------------------------
# Whole runs

def whole_runs(maker):
    """Runs of every length, unequal lengths, centres at both sides, and the order of refusals."""
    rng = maker.rng
    for length in range(256):
        maker.run(rng.choice((50, 60)), length // 2, any_runs(rng, length, length, length))
    for length in (0, 1, 15, 16, 29, 30, 31, 32, 33, 46, 254, 255):
        runs = any_runs(rng, length, length, length)
        centres = {0, 13, 14, 15, 16, 17, length - 17, length - 16, length - 15, length - 14, length - 1,
                   length, length + 1, 256 + 15, 65536 + 15, 2**31, LAST_SOC - 30, LAST_SOC - 15,
                   LAST_SOC - 14, LAST_SOC}
        for centre in sorted(centres):
            if centre >= 0:
                maker.run(rng.choice((50, 60)), centre, runs)
    for nominal in (0, 1, 10, 49, 50, 51, 59, 60, 61, 100, 255):
        for lengths in ((31, 31, 31), (30, 31, 31), (31, 30, 31), (31, 31, 30), (32, 31, 31), (31, 32, 31),
                        (31, 31, 32), (0, 31, 31), (31, 0, 31), (31, 31, 0), (31, 0, 0), (40, 50, 60)):
            for centre in (14, 15, 16):
                maker.run(nominal, centre, any_runs(rng, *lengths))


def run_window(maker, nominal, residue, samples):
    """A window as a run, after as many samples as give the centre its place in the tables."""
    before = [any_sample(maker.rng) for _ in range(residue)]
    maker.run(nominal, residue + 15, list(zip(*before, *samples)))


def windows_run(maker):
    """Windows of every kind."""
    for window in maker.rng.sample(windows(), 400):
        run_window(maker, window.nominal, window.first % 15, window.samples)


# ---------------------------------------------------------------------------
# Verdicts

# m about both edges of what a ramp leaves out, others whose last byte or two are the same, and the extremes
INTERVALS = sorted({near + far for near in range(-4, 5) for far in (0, -256, 256, -65536, 65536)}
                   | {LOW_32 + n for n in range(4)} | {HIGH_32 - n for n in range(4)})


def orders_of_judging(maker):
    """Every class and every test; class, test, reference and m at once, refused and not; m about its edges."""
    for number in range(256):
        maker.judge(number, 0, 3)
        maker.judge(0, number, 3)
    for class_, test, re, im, m in itertools.product((0, 1, 2, 255), (0, 1, 2, 255), (0, 1), (0, -1), (-3, -2, 1, 3)):
        maker.judge(class_, test, m, reference=(re, im, 0, 0))
    for class_, test in itertools.product((0, 1), repeat=2):
        for m in INTERVALS:
            maker.judge(class_, test, m)


def tve_edge(rng):
    """A device at the edge of 1 %, one a count beyond it, and the reference of both."""
    while True:
        re, im = [rng.choice((0, rng.randint(-300, 300) * 100, rng.randint(LOW, HIGH))) for _ in range(2)]
        most = (re * re + im * im) // 10000
        dr = rng.randint(0, math.isqrt(most))
        di = math.isqrt(most - dr * dr)
        sign_r, sign_i = rng.choice((-1, 1)), rng.choice((-1, 1))
        edge = (re + sign_r * dr, im + sign_i * di)
        beyond = (re + sign_r * dr, im + sign_i * (di + 1))
        if (re, im) != (0, 0) and all(LOW <= part <= HIGH for part in edge + beyond):
            return edge, beyond, (re, im)


def verdict_edges(maker):
    """Both sides of every limit of each class and test."""
    rng = maker.rng
    for class_, test in itertools.product((0, 1), repeat=2):
        _, fe_limit, rfe_limit = LIMITS[class_][test]
        for _ in range(40):
            edge, beyond, (re, im) = tve_edge(rng)
            for device in (edge, beyond):
                maker.judge(class_, test, 3, device + (0, 0), (re, im, 0, 0))
        for device in (LOW, -1, 0, 1, 5, HIGH, rng.randint(LOW, HIGH)):
            for sign, further in itertools.product((-1, 1), (0, 1)):
                fe = 1000 * device + sign * (fe_limit + further)
                rfe = 10000 * device + sign * (rfe_limit + further)
                maker.judge(class_, test, -3, (1, 0, device, 0), (1, 0, fe, 0))
                maker.judge(class_, test, -3, (1, 0, 0, device), (1, 0, 0, rfe))


def verdict_extremes(maker):
    """The extremes of every type."""
    rng = maker.rng
    for re, im in itertools.product((LOW, 0, HIGH), repeat=2):
        for reference in itertools.product((LOW, 0, HIGH), repeat=2):
            maker.judge(0, 0, 0, (re, im, 0, 0), reference + (0, 0))
    for device, reference in itertools.product((LOW, -1, 0, HIGH), (LOW_32, -1, 0, HIGH_32)):
        for class_, test in itertools.product((0, 1), repeat=2):
            maker.judge(class_, test, 3, (1, 0, device, rng.choice((LOW, 0, HIGH))),
                        (1, 0, reference, rng.choice((LOW_32, 0, HIGH_32))))
            maker.judge(class_, test, 3, (1, 0, 0, device), (1, 0, 0, reference))


SCENES = (figures_of_the_document, bank_lengths, every_slot, openings, orders_of_the_bank, damaged_slots,
          one_damaged_of_sixteen, salvage_lengths, one_mended_of_sixteen, salvage_of_31, salvage_side_by_side,
          reports, windows_pushed, turns_of_the_second, whole_seconds, last_seconds, whole_runs, windows_run,
          orders_of_judging, verdict_edges, verdict_extremes)
