"""A replay script in the making, the bytes of slots that scripts set, and the bytes of frames that they read."""

import random
import struct
from typing import NamedTuple

from inputs import HIGH, LOW, any_sample, served_pairs
from reference import (
    AFTER_FLAGS, BANK_BYTES, FIRST_ANGLE, FRAME_BYTES, FRAME_FORM, LAST_SOC, MOST_TIME_BASE, NOT_YET, PLACES,
    SLOT_BYTES, SYNC, Feed, Frame, checksum, slot_of, true_phases)
from replay import ARGUMENTS, new_memory, replay

LENGTHS = (0, 1, 255, 256, 4095, 4096, 4097, 8191, 8192, 8193, 65535)


def record(letter, *arguments):
    """A record of numbers alone."""
    return letter + struct.pack(ARGUMENTS[letter], *arguments)


def run_record(nominal, centre, runs):
    """The record of a whole run."""
    head = record(b"W", nominal, centre, *[len(run) for run in runs])
    return head + b"".join(struct.pack(">%dh" % len(run), *run) for run in runs)


def frame_record(bench, data):
    """The record of a reading."""
    return record(b"F", *bench, len(data)) + data


class Maker:
    """A script in the making: its records, the memory after them and the lines they print."""

    def __init__(self, seed):
        self.rng = random.Random(seed)
        self.memory = new_memory()
        self.records = []
        self.lines = []

    def add(self, data):
        """Adds a record."""
        self.records.append(data)
        self.lines += replay(data, self.memory)

    def clear(self, length=BANK_BYTES):
        """Clearing."""
        self.add(record(b"C", length))

    def open(self, slot, nominal=60, rate=60, soc=1000, length=BANK_BYTES):
        """An opening."""
        self.add(record(b"O", length, slot, nominal, rate, soc))

    def push(self, slot, sample=None, length=BANK_BYTES):
        """A push, of any sample where none is given."""
        self.add(record(b"P", length, slot, *(sample or any_sample(self.rng))))

    def close(self, slot, length=BANK_BYTES):
        """A closing."""
        self.add(record(b"X", length, slot))

    def mend(self, length=BANK_BYTES):
        """A salvage."""
        self.add(record(b"M", length))

    def set(self, at, value):
        """A byte set."""
        self.add(record(b"S", at, value))

    def show(self, *slots):
        """Slots shown."""
        for slot in slots:
            self.add(record(b"D", slot))

    def run(self, nominal, centre, runs):
        """A whole run."""
        self.add(run_record(nominal, centre, runs))

    def judge(self, class_=0, test=0, m=3, device=(1, 0, 0, 0), reference=(1, 0, 0, 0)):
        """A judging; device and reference are re, im, frequency, ROCOF."""
        self.add(record(b"J", class_, test, m, *device, *reference))

    def read(self, bench, data):
        """A reading of the bytes of a frame."""
        self.add(frame_record(bench, data))

    def lay(self, slot, content):
        """Sets the bytes of a slot, those that differ."""
        for at, value in enumerate(content, SLOT_BYTES * slot):
            if self.memory[at] != value:
                self.set(at, value)


FREE = bytes(SLOT_BYTES)


def any_samples(rng):
    """31 samples, none with a zero byte."""
    return [tuple(rng.choice((-1, 1)) * (257 * rng.randint(1, 120) + rng.randint(1, 100)) for _ in range(3))
            for _ in range(PLACES)]


def held_slot(samples, nominal=60, rate=60, held=31, soc=1000, index=45, place=7):
    """The bytes of an open slot with true angles; with fewer than 31 held the index and place are the held."""
    if held < 31:
        index = place = held
    filled = tuple(samples[:held]) + ((0, 0, 0),) * (PLACES - held)
    feed = Feed(nominal, rate, held, soc, index, place, filled, (NOT_YET,) * 3)
    return slot_of(feed._replace(phases=true_phases(feed)))


def edited(content, at, *values):
    """The bytes of a slot with those from at on replaced."""
    return content[:at] + bytes(values) + content[at + len(values):]


def as_of_old(content):
    """The bytes of a slot as an image from before CR 6 has them, with zeros where the angles and flags are kept."""
    return edited(content, FIRST_ANGLE, *bytes(AFTER_FLAGS - FIRST_ANGLE))


class Bench(NamedTuple):
    """What the bench supplies: nominal, rate, the ID and TIME_BASE that it configured, and the tag that it expects."""
    nominal: int = 60
    rate: int = 60
    id_code: int = 258
    time_base: int = 1000000
    soc: int = 1000
    frame: int = 20


def any_bench(rng):
    """A bench of any served nominal and rate, any ID, TIME_BASE and SOC, and most often a frame below the rate."""
    nominal, rate = rng.choice(served_pairs())
    time_base = rng.choice((1000, 1000000, MOST_TIME_BASE, rng.randint(1, 2 * rate), rng.randint(1, MOST_TIME_BASE)))
    frame = rng.randrange(rng.choice((rate, rate, rate, 2 * rate)))
    return Bench(nominal, rate, rng.randrange(65536), time_base, rng.choice((0, LAST_SOC, rng.randint(0, LAST_SOC))),
                 min(frame, 2**24 * rate // time_base - 1))


def any_figures(rng):
    """Four figures of signed 16 bits, most of them any, some small and some extreme."""
    return tuple(rng.choice((rng.choice((LOW, -1, 0, HIGH)), rng.randint(-99, 99)) + (rng.randint(LOW, HIGH),) * 4)
                 for _ in range(4))


def agreeing(bench, figures=(4386, -292, -200, 100), quality=0):
    """The fields of a frame that agrees with the bench."""
    parts = bench.frame * bench.time_base // bench.rate
    return Frame(SYNC, FRAME_BYTES, bench.id_code, bench.soc, quality << 24 | parts, 0, *figures, check=0)


def sealed(message):
    """A message and its checksum."""
    return message + struct.pack(">H", checksum(message))


def frame_bytes(fields):
    """The bytes of a frame of these fields, its checksum right."""
    return sealed(struct.pack(FRAME_FORM, *fields)[:-2])


def flipped(data, *bits):
    """Bytes with the bits of these numbers changed, the first bit being the highest of the first byte."""
    changed = bytearray(data)
    for bit in bits:
        changed[bit // 8] ^= 128 >> bit % 8
    return bytes(changed)
