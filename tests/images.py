"""Images of the bank, damaged and not, and what the model mends them to.

compare PROGRAM [SEED COUNT]  feeds images that reach every edge, so many random ones and inputs of other lengths to the
                              program in pieces, and compares the mended images and the lines that it writes
gate IMAGE MENDED             writes the image that the gate runs `mend` on, and the mended one
examples DIR                  writes two example images, the mended ones and the lines that say what becomes of a slot
"""

import os
import random
import tempfile
from typing import NamedTuple

from angle_scenes import alterations, any_kept, with_kept
from commands import dispatch, feed, tallied
from files import AMPLITUDE, any_soc, write
from inputs import any_sample, dead_noise, served_pairs, steady_wave
from maker import FREE, any_samples, as_of_old, edited, held_slot
from reference import (
    AFTER_FLAGS, BANK_BYTES, FIRST_ANGLE, FIRST_FLAG, FIRST_PLACE, PLACES, SLOT_BYTES, SLOTS, Refused, open_feed, push,
    salvage, sampling, slot_bytes)
from scenes import DAMAGE_CASES, salvage_cases

PIECES = (None, 1, 4095, 4097)
OTHER_LENGTHS = (0, 1, 255, 256, 4095, 4097, 8192, 65535, 65536, 65537, 1000000)


class Written(NamedTuple):
    """What `mend` writes to standard output and to standard error."""
    output: bytes
    errors: bytes


def mended_image(data):
    """The mended image and its sixteen lines; for an input that is no image `refused 1` and no output."""
    image = bytearray(data)
    answer = salvage(image)
    if isinstance(answer, Refused):
        return Written(b"", b"refused %d\n" % answer.number)
    lines = ["slot %d %s %d\n" % (slot, *fate) for slot, fate in zip(SLOTS, answer.fates)]
    return Written(bytes(image), "".join(lines).encode("ascii"))


# ---------------------------------------------------------------------------
# Both sides of each edge

def laid_in_turn(contents):
    """Slots laid sixteen to an image, the last image's others free."""
    slots = b"".join(contents)
    return [slots[at:at + BANK_BYTES].ljust(BANK_BYTES, b"\0") for at in range(0, len(slots), BANK_BYTES)]


def clauses(rng):
    """Each clause of damage at both sides of its edge, by itself and with the last byte of the slot set too."""
    samples = any_samples(rng)
    contents = [content for cases in DAMAGE_CASES.values() for content, _ in cases(rng, samples)]
    return laid_in_turn(contents + [edited(content, SLOT_BYTES - 1, 1) for content in contents])


def words(rng):
    """Slots of each word beside each other, at both sides of each edge."""
    return laid_in_turn(content for content, _ in salvage_cases(any_samples(rng)))


def strays(rng):
    """Slots with each number held, and other bytes after the held: all of them, the first alone, the last alone, and
    those about the flags alone."""
    samples = any_samples(rng)
    for held in range(PLACES + 1):
        content = held_slot(samples, held=held)
        unfilled = FIRST_PLACE + 6 * held
        yield edited(content, unfilled, *bytes([255]) * (SLOT_BYTES - unfilled))
        for at in (unfilled, FIRST_FLAG, AFTER_FLAGS - 1, AFTER_FLAGS, SLOT_BYTES - 1):
            yield edited(content, at, content[at] ^ 1)


def untrue(rng):
    """Slots about 29 held, with the places gone round or not, of feeders that are alive, dead, or dead in between:
    with true angles, with each alteration of them, and altered with a number that closes the slot."""
    feeders = ([any_sample(rng) for _ in range(PLACES)], dead_noise(rng, PLACES),
               dead_noise(rng, 29) + [any_sample(rng) for _ in range(2)],
               [any_sample(rng) for _ in range(2)] + dead_noise(rng, 29))
    for samples in feeders:
        for held, place in ((0, 0), (27, 27), (28, 28), (29, 29), (30, 30), (31, 0), (31, 1), (31, rng.randrange(31))):
            nominal = rng.choice((50, 60))
            content = held_slot(samples, nominal, nominal, held, place=place, index=rng.randrange(sampling(nominal)))
            yield content
            altered = list(alterations(rng, content))
            yield from altered
            yield edited(rng.choice(altered), 2, 0)


def one_of_sixteen(rng):
    """One slot damaged or with an untrue angle, each in turn, trimmed and closed, among sound ones that are open or
    free."""
    open_slot = held_slot(any_samples(rng))
    for slot in SLOTS:
        for damaged in (edited(open_slot, FIRST_ANGLE, open_slot[FIRST_ANGLE] ^ 1), edited(open_slot, FIRST_FLAG, 2),
                        edited(open_slot, AFTER_FLAGS, 1), edited(open_slot, 0, 2), edited(FREE, SLOT_BYTES - 1, 1)):
            contents = [open_slot if (slot + other) % 3 else FREE for other in SLOTS]
            contents[slot] = damaged
            yield b"".join(contents)


def alike(rng):
    """Sixteen times the same slot: free, open, trimmed, and closed with 1 and with all 256 bytes that differ."""
    content = held_slot(any_samples(rng))
    for slot in (FREE, content, edited(content, SLOT_BYTES - 1, 1), as_of_old(content), edited(FREE, 1, 1),
                 bytes([1]) * SLOT_BYTES, bytes([255]) * SLOT_BYTES):
        yield slot * len(SLOTS)


def edges(rng):
    """Every image of the makers above, and some of them mended, which are as they are."""
    images = (clauses(rng) + words(rng) + laid_in_turn(strays(rng)) + laid_in_turn(untrue(rng))
              + list(one_of_sixteen(rng)) + list(alike(rng)))
    return images + [mended_image(image).output for image in images[::20]]


# ---------------------------------------------------------------------------
# Random images

def sound_slot(rng):
    """A sound slot, free or open, with any number held, sometimes of a dead feeder."""
    nominal, rate = rng.choice(served_pairs())
    held = rng.choice((0, 1, 28, 29, 30, 31, 31, 31, rng.randint(0, 31)))
    soc = any_soc(rng)
    index = rng.randrange(31 if soc == 0 else 0, sampling(nominal))
    samples = dead_noise(rng, PLACES) if rng.random() < 0.2 else [any_sample(rng) for _ in range(PLACES)]
    return rng.choice((FREE, held_slot(samples, nominal, rate, held, soc, index, rng.randrange(PLACES))))


def sound(rng):
    """A sound image."""
    return b"".join(sound_slot(rng) for _ in SLOTS)


def with_changed_bytes(rng):
    """A sound image with any bytes changed."""
    image = bytearray(sound(rng))
    for _ in range(rng.choice((1, 2, 9, 60))):
        image[rng.randrange(BANK_BYTES)] = rng.randrange(256)
    return bytes(image)


def with_changed_heads(rng):
    """A sound image with bytes before the places changed, by one or by anything."""
    image = bytearray(sound(rng))
    for slot in rng.sample(SLOTS, 6):
        at = SLOT_BYTES * slot + rng.randrange(FIRST_PLACE)
        image[at] = rng.choice((0, image[at] ^ 1, (image[at] + 1) % 256, rng.randrange(256)))
    return bytes(image)


def with_stray_bytes(rng):
    """A sound image with bytes from byte 197 on changed, and some before it."""
    image = bytearray(sound(rng))
    for _ in range(rng.randint(1, 20)):
        at = rng.choice((rng.randrange(FIRST_PLACE, SLOT_BYTES), rng.randrange(FIRST_ANGLE, SLOT_BYTES)))
        image[SLOT_BYTES * rng.choice(SLOTS) + at] = rng.choice((1, 255, rng.randrange(256)))
    return bytes(image)


def with_untrue_angles(rng):
    """A sound image in which some open slots keep other angles and flags, or a flag over 1."""
    def with_other(content):
        flagged = edited(content, rng.randrange(FIRST_FLAG, AFTER_FLAGS), rng.choice((0, 1, 2, 255)))
        return rng.choice((content, content, with_kept(content, any_kept(rng)), flagged)) if content[0] else FREE
    return b"".join(with_other(sound_slot(rng)) for _ in SLOTS)


def from_before_cr_6(rng):
    """A sound image with zeros where the angles and flags are kept."""
    return b"".join(as_of_old(sound_slot(rng)) for _ in SLOTS)


def with_a_bad_sector(rng):
    """A sound image with 512 bytes, or part of them, overwritten by zeros, by 255s or by anything."""
    image = sound(rng)
    at = 512 * rng.randrange(BANK_BYTES // 512) + rng.choice((0, 0, rng.randrange(512)))
    length = min(512, BANK_BYTES - at)
    sector = rng.choice((bytes(length), bytes([255]) * length, rng.randbytes(length)))
    return image[:at] + sector + image[at + length:]


def shifted(rng):
    """A sound image turned by some bytes."""
    image = sound(rng)
    by = rng.choice((1, 255, 4095, rng.randrange(BANK_BYTES)))
    return image[by:] + image[:by]


def of_any_bytes(rng):
    """Any bytes, the states often 0 or 1."""
    return b"".join(bytes([rng.choice((0, 1, 1, rng.randrange(256)))]) + rng.randbytes(SLOT_BYTES - 1) for _ in SLOTS)


KINDS = (sound, with_changed_bytes, with_changed_heads, with_stray_bytes, with_untrue_angles, from_before_cr_6,
         with_a_bad_sector, shifted, of_any_bytes)


def others(rng):
    """Inputs of other lengths, which begin as a damaged image."""
    image = with_stray_bytes(rng)
    return [(image * (length // BANK_BYTES + 1))[:length] for length in OTHER_LENGTHS]


def inputs(seed, count):
    """The edges, so many random images, the kinds in turn, and inputs of other lengths."""
    rng = random.Random(seed)
    return edges(rng) + [KINDS[n % len(KINDS)](rng) for n in range(count)] + others(rng)


# ---------------------------------------------------------------------------
# The image that the gate runs `mend` on, and the examples

def gate_image():
    """Slots of each word, 0 and 15 damaged, at both nominals and about the edges."""
    rng = random.Random(2011)
    samples, dead = any_samples(rng), dead_noise(rng, PLACES)
    full, fifty = held_slot(samples), held_slot(samples, 50, 25)
    six, almost = held_slot(samples, held=6), held_slot(samples, 50, 10, held=30)
    return b"".join((
        # trimmed: one byte after byte 211; sound: 31 held with true angles, and free
        edited(full, 212, 1),
        full,
        FREE,
        # trimmed: the first byte of the unfilled places and the last; an untrue angle alone; a flag of 2
        edited(edited(six, FIRST_PLACE + 6 * 6, 128), 196, 1),
        edited(fifty, 204, fifty[204] ^ 1),
        edited(almost, 210, 2),
        # closed: free with a nonzero byte, state 2 and every byte nonzero, both kinds of damage
        edited(FREE, 255, 1),
        bytes([2]) * SLOT_BYTES,
        edited(edited(fifty, 2, 0), 211, 2),
        # trimmed: a dead feeder's flags are not there, as in an image from before CR 6
        as_of_old(held_slot(dead, place=30)),
        # closed: 32 held, place 31, index 750 at 50 Hz, 31 held with SOC 0 and index 30, 6 held where the place is 7
        edited(full, 3, 32),
        held_slot(samples, 50, 25, place=31),
        held_slot(samples, 50, 25, index=750),
        held_slot(samples, soc=0, index=30),
        edited(six, 10, 7),
        # trimmed: every byte from byte 197 on
        edited(fifty, 197, *range(1, 60)),
    ))


def five_feeds():
    """A bank as a rack dumps it: five feeds, in slots 0 to 4, and the rest free."""
    bank = bytearray(BANK_BYTES)
    for slot, (nominal, rate, frequency, count, turns) in enumerate((
            (50, 50, 50.0, 750, 0.1), (50, 25, 49.9, 400, 0.0), (60, 60, 60.0, 20, 0.0), (60, 30, 60.1, 95, 0.0),
            (50, 10, 50.0, 31, 0.7))):
        open_feed(bank, slot, nominal, rate, 1000)
        for sample in steady_wave(nominal, frequency, AMPLITUDE, count, turns):
            push(bank, slot, *sample)
    return bank


def damaged_image():
    """The five feeds after a bad sector: one has stray bytes after its samples, and the numbers of another are
    overwritten."""
    bank = five_feeds()
    stray, head = b"\xde\xad\xbe\xef" * 4, b"bad sector"
    bank[SLOT_BYTES + 200:SLOT_BYTES + 200 + len(stray)] = stray
    bank[3 * SLOT_BYTES:3 * SLOT_BYTES + len(head)] = head
    return bytes(bank)


def old_image():
    """The five feeds as a rack dumped them before CR 6."""
    bank = five_feeds()
    return b"".join(as_of_old(slot_bytes(bank, slot)) for slot in SLOTS)


# an example image, and the names of the image, of the mended one and of the lines
EXAMPLES = ((damaged_image, "damaged.bank", "mended.bank", "damaged.txt"),
            (old_image, "old.bank", "old_mended.bank", "old.txt"))


# ---------------------------------------------------------------------------
# Commands

def written_by(program, data, size):
    """What the program writes when the bytes come through a pipe in pieces of a size."""
    with tempfile.TemporaryFile() as output, tempfile.TemporaryFile() as errors:
        feed(program, data, size, output, errors)
        output.seek(0)
        errors.seek(0)
        return Written(output.read(), errors.read())


def up_to_the_difference(expected, written):
    """The length of an output, and the byte up to which it is as expected."""
    same = os.path.commonprefix([expected, written])
    return "%d bytes, the same up to byte %d" % (len(written), len(same))


def in_pieces(program, images):
    """Whether the program mends each image as the model, for pieces of each size, and what is shown where not."""
    for n, data in enumerate(images, 1):
        expected = mended_image(data)
        for size in PIECES:
            written = written_by(program, data, size or max(1, len(data)))
            yield written == expected, (
                "image %d of %d bytes in pieces of %s\n  expected %d bytes and %r\n  written  %s and %r"
                % (n, len(data), size or "any size", len(expected.output), expected.errors,
                   up_to_the_difference(expected.output, written.output), written.errors))


def compare(program, seed=1, count=140):
    """Feeds images to the program in pieces; 0 if it mends each as the model, else 1."""
    return tallied(in_pieces(program, inputs(int(seed), int(count))), "%d of %d images agree")


def gate(image_name, mended_name):
    """Writes the image of the gate and the mended one."""
    image = gate_image()
    write(image_name, image)
    write(mended_name, mended_image(image).output)


def examples(directory):
    """Writes the example images, the mended ones and the lines."""
    os.makedirs(directory, exist_ok=True)
    for maker, image_name, mended_name, lines_name in EXAMPLES:
        image = maker()
        write(os.path.join(directory, image_name), image)
        write(os.path.join(directory, mended_name), mended_image(image).output)
        write(os.path.join(directory, lines_name), mended_image(image).errors)


if __name__ == "__main__":
    dispatch(__doc__, compare, gate, examples)
