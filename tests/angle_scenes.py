"""The scenes of a replay script that reach every edge of CR 6."""

import struct

from centres import one_at_the_edge, several_at_the_edge
from inputs import any_sample, any_wave, dead_noise, noise_sample
from maker import as_of_old, edited
from reference import (
    AFTER_FLAGS, ANGLES_FORM, FIRST_ANGLE, FIRST_FLAG, FIRST_PLACE, SLOT_BYTES, SLOTS, TURN, sampling, slot_bytes)
from scenes import mend_shown

KEPT = range(FIRST_ANGLE, AFTER_FLAGS)
FLAGS = range(FIRST_FLAG, AFTER_FLAGS)


# ---------------------------------------------------------------------------
# Slots with other angles and flags

def kept_bytes(angles, flags):
    """Bytes 197 to 211 of three angles and their flags."""
    return struct.pack(ANGLES_FORM, *angles) + bytes(flags)


def any_kept(rng):
    """Bytes 197 to 211 of any angles and of flags that are no damage."""
    return rng.randbytes(FIRST_FLAG - FIRST_ANGLE) + bytes(rng.randrange(2) for _ in FLAGS)


def with_kept(content, kept):
    """The bytes of a slot with bytes 197 to 211 replaced."""
    return edited(content, FIRST_ANGLE, *kept)


def in_the_other_order(content):
    """The three angles and flags newest first."""
    angles = struct.unpack(ANGLES_FORM, content[FIRST_ANGLE:FIRST_FLAG])
    return with_kept(content, kept_bytes(angles[::-1], content[FIRST_FLAG:AFTER_FLAGS][::-1]))


def moved_on(content):
    """The three moved on by one place, the newest twice."""
    angles = struct.unpack(ANGLES_FORM, content[FIRST_ANGLE:FIRST_FLAG])
    flags = content[FIRST_FLAG:AFTER_FLAGS]
    return with_kept(content, kept_bytes(angles[1:] + angles[2:], flags[1:] + flags[2:]))


def alterations(rng, content):
    """A slot with true angles altered in bytes 197 to 211, after them or in the unfilled places: what salvage mends."""
    yield as_of_old(content)
    for at in KEPT:
        yield edited(content, at, content[at] ^ 1)
    for at in FLAGS:
        yield edited(content, at, 2)
        yield edited(content, at, 255)
    yield edited(content, AFTER_FLAGS, 1)
    yield edited(content, AFTER_FLAGS - 1, content[AFTER_FLAGS - 1] ^ 1, 1)
    # the first byte of the unfilled places, or the last of the slot, with true angles and without
    held = content[3]
    stray = FIRST_PLACE + 6 * held if held < 31 else SLOT_BYTES - 1
    yield edited(content, stray, 1)
    yield edited(as_of_old(content), stray, 1)
    yield in_the_other_order(content)
    yield moved_on(content)
    yield with_kept(content, any_kept(rng))
    yield with_kept(content, bytes([255]) * len(KEPT))


def put_kept(maker, slot, kept):
    """Sets bytes 197 to 211 of a slot, those that differ."""
    maker.lay(slot, with_kept(slot_bytes(maker.memory, slot), kept))


def push_all(maker, slot, samples):
    """Samples pushed to a slot."""
    for sample in samples:
        maker.push(slot, sample)


# ---------------------------------------------------------------------------
# Scenes

def kept_from_the_opening(maker):
    """No angle with 28 held, one with 29, two with 30, three from 31 on; feeders that are alive, dead, or come back."""
    rng = maker.rng
    feeders = [(50, any_wave(rng, 50, 36)), (60, [any_sample(rng) for _ in range(36)]), (60, dead_noise(rng, 36)),
               (50, dead_noise(rng, 30) + any_wave(rng, 50, 6))]
    for slot, (nominal, _) in enumerate(feeders):
        maker.open(slot, nominal, nominal)
    for n in range(36):
        for slot, (_, samples) in enumerate(feeders):
            maker.push(slot, samples[n])
            if n >= 26:
                maker.show(slot)
        if n >= 26:
            maker.mend()
    maker.clear()


def flags_about_the_edge(maker):
    """Windows with a centre at either side of the edge of phase: its flag comes last, and moves on."""
    rng = maker.rng
    cases = rng.sample(list(one_at_the_edge(rng, (0,))), 6) + rng.sample(list(several_at_the_edge(rng, (0,))), 6)
    for n, case in enumerate(cases):
        slot, nominal = n % 16, rng.choice((50, 60))
        maker.open(slot, nominal, nominal)
        push_all(maker, slot, case.samples[:28])
        for sample in case.samples[28:]:
            maker.push(slot, sample)
            maker.show(slot)
        mend_shown(maker, slot)
        maker.close(slot)


def untrue_moved_on(maker):
    """27 held and byte 208 is 7, a push: byte 204 is 7, bytes 205 to 208 are 0. Then untrue angles and flags before
    each push up to 34 held, and before four pushes in a row."""
    rng = maker.rng
    for slot, dead in ((3, False), (14, True)):
        samples = [noise_sample(rng, 2 if dead else 20000) for _ in range(50)]
        maker.open(slot)
        push_all(maker, slot, samples[:27])
        maker.set(SLOT_BYTES * slot + 208, 7)
        maker.push(slot, samples[27])
        maker.show(slot)
        content = slot_bytes(maker.memory, slot)
        assert content[204] == 7 and not any(content[205:AFTER_FLAGS])
        for sample in samples[28:34]:
            put_kept(maker, slot, any_kept(rng))
            maker.push(slot, sample)
            maker.show(slot)
        put_kept(maker, slot, any_kept(rng))
        for sample in samples[34:38]:
            maker.push(slot, sample)
            maker.show(slot)
        put_kept(maker, slot, any_kept(rng))
        maker.close(slot)
        maker.show(slot)
    maker.open(3, 50, 50)
    for _ in range(4):
        put_kept(maker, 3, any_kept(rng))
        maker.push(3)
        maker.show(3)
    maker.close(3)


# bytes 197 to 211 before the push with which a report comes: the second and third angle and flag are then its p and q
BEFORE_REPORTS = (
    ((0, 0, 0), (0, 0, 0)), ((7, 0, 0), (0, 0, 0)), ((0, 1, 0), (0, 0, 0)), ((0, 0, 1), (0, 0, 0)),
    ((0, TURN - 1, TURN // 2), (0, 0, 0)), ((0, TURN // 2, TURN - 1), (0, 0, 0)), ((5, 16777216, 65536), (0, 0, 0)),
    ((9, 9, 9), (1, 0, 0)), ((9, 9, 9), (0, 1, 0)), ((9, 9, 9), (0, 0, 1)), ((0, 0, 0), (1, 1, 1)),
)


def reports_from_untrue_angles(maker):
    """Reports whose p and q are put in before the push; the push works out r."""
    rng = maker.rng
    for slot, nominal in ((4, 50), (11, 60)):
        maker.open(slot, nominal, nominal, rng.randrange(2**32))
        samples = iter(any_wave(rng, nominal, 600))
        push_all(maker, slot, [next(samples) for _ in range(30)])
        for kept in [kept_bytes(*three) for three in BEFORE_REPORTS] + [any_kept(rng) for _ in range(3)]:
            put_kept(maker, slot, kept)
            maker.push(slot, next(samples))
            assert maker.lines[-1].startswith("report")
            maker.show(slot)
            push_all(maker, slot, [next(samples) for _ in range(14)])
        maker.close(slot)
    # of the three centres the newest alone has a phase, or none has
    for flags, newest in (((1, 1), 20000), ((0, 0), 20000), ((0, 1), 20000), ((1, 0), 20000), ((1, 1), 1), ((0, 0), 1)):
        maker.open(5)
        push_all(maker, 5, dead_noise(rng, 30))
        put_kept(maker, 5, kept_bytes((0, 0, 0), (0, *flags)))
        maker.push(5, (newest, 0, 0))
        assert maker.lines[-1].split()[7] == str(int(any(flags) or newest == 1))
        maker.show(5)
        maker.close(5)


def feeds_of_each_kind(maker):
    """Feeds that hold none, 27 to 31, and 31 with the places gone round; the last five feeders are dead."""
    rng = maker.rng
    for slot, count in zip(SLOTS, (0, 1, 27, 28, 29, 30, 31, 32, 45, 61, 77, 28, 29, 30, 31, 46)):
        nominal = rng.choice((50, 60))
        maker.open(slot, nominal, nominal)
        push_all(maker, slot, dead_noise(rng, count) if slot > 10 else [any_sample(rng) for _ in range(count)])


def salvage_of_angles(maker):
    """True angles, old images and every alteration, mended and mended again; then the feeds go on."""
    rng = maker.rng
    feeds_of_each_kind(maker)
    mend_shown(maker, *SLOTS)
    contents = [slot_bytes(maker.memory, slot) for slot in SLOTS]
    for altered in zip(*[alterations(rng, content) for content in contents]):
        for slot in SLOTS:
            maker.lay(slot, altered[slot])
        mend_shown(maker, rng.choice(SLOTS))
        assert [slot_bytes(maker.memory, slot) for slot in SLOTS] == contents
    # the same samples at another index have other angles
    for slot in (8, 9, 10, 15):
        index = rng.choice((1, 14, 16, sampling(contents[slot][1]) - 1))
        maker.lay(slot, edited(contents[slot], 8, *divmod(index, 256)))
    mend_shown(maker, 8, 9, 10, 15)
    for slot in SLOTS:
        push_all(maker, slot, [any_sample(rng) for _ in range(3)])
    maker.show(*SLOTS)
    maker.clear()


ANGLE_SCENES = (kept_from_the_opening, flags_about_the_edge, untrue_moved_on, reports_from_untrue_angles,
                salvage_of_angles)
