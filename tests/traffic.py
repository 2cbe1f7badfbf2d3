"""Random calls, those of the bank on the sixteen slots, for replay scripts."""

import struct

from angle_scenes import any_kept, put_kept
from inputs import any_runs, any_stretch, clipped, dead_noise, opening_pairs
from maker import FREE, LENGTHS, agreeing, any_bench, any_figures, edited, flipped, frame_bytes, sealed
from reference import (
    AFTER_FLAGS, BANK_BYTES, FIRST_ANGLE, FIRST_PLACE, FRAME_BYTES, LAST_SOC, SLOT_BYTES, SLOTS, damage, is_open,
    sampling, slot_bytes)


def judge_closely(maker, device):
    """A judging of a device's figures by a reference close to them, or not."""
    rng = maker.rng
    re, im, frequency, rocof = device
    reference = (clipped(re + rng.randint(-400, 400)), clipped(im + rng.randint(-400, 400)),
                 1000 * frequency + rng.randint(-12000, 12000), 10000 * rocof + rng.randint(-120000, 120000))
    maker.judge(rng.choice((0, 1, 0, 1, 2)), rng.choice((0, 1, 0, 1, 2)), rng.randint(-4, 5), device, reference)


def any_judging(maker):
    """A judging of any figures."""
    judge_closely(maker, any_figures(maker.rng))


def any_reading(maker):
    """A reading of a frame at the expected tag or beside it, most often judged if its figures are read."""
    rng = maker.rng
    bench, figures = any_bench(rng), any_figures(rng)
    fields = agreeing(bench, figures, rng.randrange(256))
    late = rng.choice((0, 0, 0, 0, 1, 1, 2, -1))
    maker.read(bench, frame_bytes(fields._replace(fracsec=(fields.fracsec + late) % 2**32,
                                                  stat=rng.choice((0, rng.randrange(2**14))))))
    if maker.lines[-1].startswith("reading") and rng.random() < 0.6:
        judge_closely(maker, figures)


def with_changed_bit(rng, bench, data):
    """A bit of the frame is changed."""
    return bench, flipped(data, rng.randrange(8 * FRAME_BYTES))


def with_changed_byte(rng, bench, data):
    """A byte of the frame is changed, and half the time the checksum with it."""
    changed = edited(data, rng.randrange(FRAME_BYTES - 2), rng.randrange(256))
    return bench, rng.choice((changed, sealed(changed[:-2])))


def with_changed_field(rng, bench, data):
    """A field is changed by one, by a bit or to anything, and the checksum with it."""
    at, width = rng.choice(((0, 2), (2, 2), (4, 2), (6, 4), (10, 4), (14, 2), (16, 2), (18, 2), (20, 2), (22, 2)))
    value = int.from_bytes(data[at:at + width], "big")
    most = 256**width
    other = rng.choice((value + 1, value - 1, value ^ 1 << rng.randrange(8 * width), rng.randrange(most))) % most
    return bench, sealed(edited(data, at, *other.to_bytes(width, "big"))[:-2])


def with_changed_bench(rng, bench, data):
    """A number of the bench is changed, by one or to anything."""
    name, most = rng.choice((("nominal", 255), ("rate", 255), ("id_code", 65535), ("time_base", LAST_SOC),
                             ("soc", LAST_SOC), ("frame", LAST_SOC), ("frame", 255)))
    value = getattr(bench, name)
    other = rng.choice((value + 1, value - 1, 0, rng.randint(0, most)))
    return bench._replace(**{name: other % (most + 1)}), data


def with_turned_second(rng, bench, data):
    """The bench expects the same moment, told from the second before."""
    return bench._replace(soc=(bench.soc - 1) % 2**32, frame=bench.frame + bench.rate), data


def with_changed_length(rng, bench, data):
    """The frame is cut short or goes on."""
    return bench, rng.choice((data[:rng.randrange(FRAME_BYTES)], data + rng.randbytes(rng.randint(1, 229))))


FRAME_CHANGES = (with_changed_bit, with_changed_byte, with_changed_field, with_changed_field, with_changed_bench,
                 with_turned_second, with_changed_length)


def any_changed_reading(maker):
    """A reading with one thing changed."""
    rng = maker.rng
    bench = any_bench(rng)
    data = frame_bytes(agreeing(bench, any_figures(rng), rng.randrange(256)))
    maker.read(*rng.choice(FRAME_CHANGES)(rng, bench, data))


def any_readings(maker):
    """Frames in a row, sound and not."""
    for _ in range(maker.rng.randint(1, 12)):
        maker.rng.choice((any_reading, any_reading, any_changed_reading))(maker)


def any_whole_run(maker):
    """A whole run of any length and centre, most of them answered."""
    rng = maker.rng
    length = rng.randint(29, 90)
    lengths = [length, length, length + rng.choice((0, 0, 0, 0, 0, 1))]
    maker.run(rng.choice((50, 60, 50, 60, 55)), rng.randint(14, length - 15), any_runs(rng, *lengths))


def any_change(maker, slot):
    """A byte of a slot is changed, of its numbers, of its angles and flags, or any."""
    rng = maker.rng
    at = SLOT_BYTES * slot + rng.choice((rng.randrange(FIRST_PLACE), rng.randrange(FIRST_ANGLE, AFTER_FLAGS),
                                         rng.randrange(SLOT_BYTES)))
    maker.set(at, rng.choice((0, 1, maker.memory[at] ^ 1, rng.randint(0, 255))))


def any_damage(maker):
    """A byte of a slot is changed, the slot is tried, and most often the byte is put back."""
    rng = maker.rng
    slot = rng.choice(SLOTS)
    before = slot_bytes(maker.memory, slot)
    any_change(maker, slot)
    rng.choice((maker.push, maker.close, maker.open, maker.show))(slot)
    maker.push((slot + rng.choice((1, 15))) % 16)
    if damage(slot_bytes(maker.memory, slot)) and rng.random() < 0.9:
        maker.lay(slot, before)


def any_salvage(maker):
    """Bytes of a few slots are changed, and the image is mended."""
    rng = maker.rng
    for slot in rng.sample(SLOTS, rng.randint(0, 4)):
        for _ in range(rng.choice((1, 1, 1, 2, 9))):
            any_change(maker, slot)
    maker.mend()


def any_untrue(maker):
    """Other angles and flags are put in an open slot."""
    slot = maker.rng.choice(SLOTS)
    if is_open(maker.memory, slot):
        put_kept(maker, slot, any_kept(maker.rng))


def any_moment(maker):
    """A slot that holds 31 is moved to a moment close to the turn of a second."""
    rng = maker.rng
    slot = rng.choice(SLOTS)
    content = slot_bytes(maker.memory, slot)
    if content[0] == 1 and content[3] == 31 and not damage(content):
        index = rng.choice((0, 1, 14, 15, sampling(content[1]) - rng.randint(1, 40)))
        soc = rng.choice((1, 1000, LAST_SOC - 1, LAST_SOC))
        maker.lay(slot, edited(content, 4, *struct.pack(">IH", soc, index)))


def feeder(rng, slot, count):
    """What a slot's feeder gives: those of the last three slots are most often dead."""
    if slot >= 13 and rng.random() < 0.9:
        return dead_noise(rng, count)
    return any_stretch(rng, 60, count)


def any_pushes(maker):
    """What their feeders give, pushed to some of the open slots in turn."""
    rng = maker.rng
    slots = rng.sample(SLOTS, rng.randint(1, 5))
    count = rng.randint(1, 20)
    samples = {slot: feeder(rng, slot, count) for slot in slots}
    for n in range(count):
        for slot in slots:
            if is_open(maker.memory, slot) or n == 0:
                maker.push(slot, samples[slot][n])


def any_opening(maker):
    """An opening, most of them served."""
    rng = maker.rng
    nominal, rate = rng.choice(opening_pairs())
    maker.open(rng.choice(SLOTS), nominal, rng.choice((rate, rate, rate, rng.randint(0, 61))),
               rng.choice((0, 1000, LAST_SOC, rng.randint(0, LAST_SOC))))


def any_closing(maker):
    """A closing; a slot that is damaged is set free."""
    slot = maker.rng.choice(SLOTS)
    maker.close(slot)
    if damage(slot_bytes(maker.memory, slot)):
        maker.lay(slot, FREE)


def any_length(maker):
    """A bank call with a bank of any length."""
    length = maker.rng.choice(LENGTHS)
    slot = maker.rng.choice((0, 5, 15, 16, 255))
    call = maker.rng.choice((maker.push, maker.close, maker.open))
    call(slot, length=length)
    if length != BANK_BYTES:
        maker.clear(length)
        maker.mend(length)


def any_show(maker):
    """A slot shown."""
    maker.show(maker.rng.choice(SLOTS))


TRAFFIC = {any_pushes: 30, any_opening: 12, any_closing: 3, any_damage: 6, any_salvage: 2, any_untrue: 2, any_moment: 4,
           any_show: 12, any_judging: 40, any_readings: 20, any_whole_run: 8, any_length: 2}


def any_traffic(maker, calls):
    """Random calls until the script has so many records."""
    while len(maker.records) < calls:
        maker.rng.choices(list(TRAFFIC), list(TRAFFIC.values()))[0](maker)
    maker.show(*range(32))
