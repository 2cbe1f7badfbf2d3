"""The scenes of a replay script that reach every edge of CR 4."""

import binascii
import itertools
import struct

from inputs import HIGH, LOW, served_pairs
from maker import Bench, agreeing, any_bench, any_figures, flipped, frame_bytes, sealed
from reference import FRAME_BYTES, LAST_SOC, MOST_TIME_BASE, SERVED, SYNC

BENCH = Bench()
AT_THE_SECOND = Bench(frame=0)
MESSAGE_BITS = 8 * (FRAME_BYTES - 2)
FRAME_BITS = 8 * FRAME_BYTES


def read_with(maker, bench=BENCH, **changed):
    """A reading of the frame that agrees with the bench, but for the fields given, its checksum right."""
    maker.read(bench, frame_bytes(agreeing(bench)._replace(**changed)))


def read_at(maker, bench, fracsec, soc=BENCH.soc):
    """A reading of a frame with this FRACSEC and SOC, which need not agree with the bench."""
    maker.read(bench, frame_bytes(agreeing(BENCH)._replace(fracsec=fracsec, soc=soc)))


# ---------------------------------------------------------------------------
# What is read

def figures_of_frames(maker):
    """Each figure at its extremes, with every time quality, and figures whose bytes differ, read and then judged."""
    for quality, figures in enumerate(itertools.product((LOW, -1, 0, HIGH), repeat=4)):
        maker.read(BENCH, frame_bytes(agreeing(BENCH, figures, quality)))
    for figures in ((258, 772, 1286, 1800), (-258, -772, -1286, -1800), (1, 256, -256, 255), (10100, 0, 5, 1),
                    (10101, 0, 6, 2), (10060, 80, -5, -1), (10060, 81, -6, -2), any_figures(maker.rng)):
        maker.read(BENCH, frame_bytes(agreeing(BENCH, figures)))
        for class_, test in itertools.product((0, 1), repeat=2):
            maker.judge(class_, test, device=figures, reference=(10000, 0, 0, 0))


def every_stat(maker):
    """Each bit of STAT, alone and with all lower bits; only the two top bits refuse."""
    for bit in range(16):
        read_with(maker, stat=1 << bit)
        read_with(maker, stat=(2 << bit) - 1)
    for stat in (0, 0x3FFF, 0x7FFF, 0xBFFF, 0xC000, 0xFFFF):
        read_with(maker, stat=stat)


# ---------------------------------------------------------------------------
# What is refused

def nominals_and_rates(maker):
    """Nominals beside 50 and 60, and every rate up to 61 at both, at a tag that agrees at any of them."""
    data = frame_bytes(agreeing(AT_THE_SECOND))
    for nominal in [0, 1, 10, 49, 51, 55, 59, 61, 255] + [50 ^ 1 << bit for bit in range(8)]:
        maker.read(AT_THE_SECOND._replace(nominal=nominal, rate=10), data)
    for nominal, rate in itertools.product(SERVED, [*range(62), 74, 100, 120, 138, 255]):
        maker.read(AT_THE_SECOND._replace(nominal=nominal, rate=rate), data)


def time_bases(maker):
    """TIME_BASE about both its edges, and beyond 24 bits with low bytes that are not over."""
    for time_base in (0, 1, 2, 255, 256, 65535, 65536, 1000000, 0x7FFFFF, 0x800000, MOST_TIME_BASE - 1, MOST_TIME_BASE,
                      2**24, 2**24 + 1, 2**24 + 1000000, 2**25, 2**31 - 1, 2**31, 2**31 + 1000000, LAST_SOC - 1,
                      LAST_SOC):
        for frame in (0, 20):
            read_at(maker, Bench(time_base=time_base, frame=frame), frame * time_base // BENCH.rate % 2**24)


def every_length(maker):
    """A frame cut to every length and filled up to every length, and frames whose size and checksum are of theirs."""
    data = frame_bytes(agreeing(BENCH))
    for length in range(256):
        maker.read(BENCH, (data + maker.rng.randbytes(256))[:length])
    for length in (24, 25, 26, 27, 28, 30, 52):
        fields = agreeing(BENCH)._replace(size=length)
        maker.read(BENCH, sealed((frame_bytes(fields)[:-2] + bytes(30))[:length - 2]))
    maker.read(BENCH, data + data)
    maker.read(BENCH, data[1:] + data[:1])
    maker.read(BENCH, bytes(FRAME_BYTES))


def syncs(maker):
    """The sync of other frames and versions, each bit changed, and the bytes exchanged."""
    for second in (0, 1, 2, 3, 0x0F, 0x11, 0x12, 0x21, 0x31, 0x41, 0x51, 0x61, 0x71, 0x81, 0xAA, 255):
        read_with(maker, sync=bytes([0xAA, second]))
    for first in (0, 1, 0xA9, 0xAB, 0x55, 255):
        read_with(maker, sync=bytes([first, 1]))
    for sync in [b"\x01\xaa", b"\0\0"] + [flipped(SYNC, bit) for bit in range(16)]:
        read_with(maker, sync=sync)


def sizes(maker):
    """The size field beside 26, with each bit changed, with its bytes exchanged and with the same low byte."""
    for size in [0, 1, 16, 24, 25, 26, 27, 28, 30, 0x1A00, 0x1A1A, 65535] + [26 ^ 1 << bit for bit in range(16)]:
        read_with(maker, size=size)


def other_checksums(data):
    """What else a checksum could be: over fewer bytes or more, from another start, with a final change, reversed."""
    message = data[:-2]
    for start, end in ((0, 23), (0, 22), (1, 24), (2, 24), (4, 24), (0, 25), (0, 26)):
        yield binascii.crc_hqx(data[start:end], 0xFFFF)
    right = binascii.crc_hqx(message, 0xFFFF)
    yield binascii.crc_hqx(message, 0)
    yield binascii.crc_hqx(message, 0x1D0F)
    yield binascii.crc_hqx(message + bytes(2), 0xFFFF)
    yield right ^ 0xFFFF
    yield right >> 8 | right % 256 << 8
    yield int("{:016b}".format(right)[::-1], 2)
    yield 0
    yield 0xFFFF


def checksums(maker):
    """Other checksums, each bit changed, two bits changed, before the checksum and in it, and any sound frames."""
    data = frame_bytes(agreeing(BENCH, (258, -772, 1286, -1800), 139))
    maker.read(BENCH, data)
    for other in other_checksums(data):
        maker.read(BENCH, data[:-2] + struct.pack(">H", other))
    for bit in range(FRAME_BITS):
        maker.read(BENCH, flipped(data, bit))
    for _ in range(20):
        maker.read(BENCH, flipped(data, *maker.rng.sample(range(FRAME_BITS), 2)))
        bench = any_bench(maker.rng)
        maker.read(bench, frame_bytes(agreeing(bench, any_figures(maker.rng), maker.rng.randrange(256))))


def id_codes(maker):
    """IDs that differ in one bit, in one byte, and by the order of the bytes; the least and the most."""
    for id_code in (0, 1, 255, 256, 258, 65535):
        read_with(maker, BENCH._replace(id_code=id_code))
    for other in [0, 1, 2, 257, 259, 513, 514, 65535] + [258 ^ 1 << bit for bit in range(16)]:
        read_with(maker, id_code=other)
        maker.read(BENCH._replace(id_code=other), frame_bytes(agreeing(BENCH)))


# ---------------------------------------------------------------------------
# The tag

def differences_about_the_rate(maker):
    """At every served rate, FRACSEC from the last that is too early to the first that is too late."""
    rng = maker.rng
    for nominal, rate in served_pairs():
        for time_base, frame in ((1000 * rate - 1, 1), (1000 * rate, 1), (1000 * rate + 1, 1), (1, rng.randrange(rate)),
                                 (rate - 1, rate + 1), (rate + 1, 0), (1000000, rng.randrange(2 * rate)),
                                 (MOST_TIME_BASE, rate - 1)):
            before = frame * time_base // rate
            for parts in range(max(before - 1, 0), min(before + 3, 2**24)):
                read_at(maker, Bench(nominal, rate, 258, time_base, 1000, frame), rng.randrange(256) << 24 | parts)


def beyond_the_second(maker):
    """FRACSEC of TIME_BASE or more and frame of rate or more, which go by the same sentence."""
    for time_base, rate, frame, parts in (
            (1000, 10, 10, 1000), (1000, 10, 10, 999), (1000, 10, 10, 1001), (1000, 10, 9, 1000), (1000, 10, 0, 1000),
            (1000, 10, 25, 2500), (1000, 10, 25, 2501), (1000, 10, 167772, 16777200), (1000, 10, 167773, 16777215),
            (1, 60, 59, 0), (1, 60, 60, 0), (1, 60, 60, 1), (1, 60, 59, 1), (1, 60, 1, 1), (1, 60, 0, 1),
            (1, 60, 1006632900, 16777215), (1, 60, 1006632959, 16777215), (1, 60, 1006632960, 16777215),
            (1, 60, 1006632841, 16777215), (1, 60, 1006632840, 16777215),
            (MOST_TIME_BASE, 60, 60, 16777215), (MOST_TIME_BASE, 60, 60, 16777214), (MOST_TIME_BASE, 60, 60, 0),
            (MOST_TIME_BASE, 60, 59, 16777215), (MOST_TIME_BASE, 60, 61, 16777215)):
        read_at(maker, Bench(60, rate, 258, time_base, 1000, frame), parts)


def seconds(maker):
    """SOC a second apart, also where the frames are the same moment, with one bit changed, and at the extremes."""
    for soc, expected in ((1000, 1001), (1001, 1000), (1000, 1000), (0, LAST_SOC), (LAST_SOC, 0), (0, 0),
                          (LAST_SOC, LAST_SOC), (LAST_SOC - 1, LAST_SOC), (0x01020304, 0x04030201)):
        for frame, parts in ((0, 0), (0, 1000000), (0, 999999), (60, 0), (60, 1000000), (59, 1000000)):
            read_at(maker, Bench(soc=expected, frame=frame), parts, soc)
    for bit in range(32):
        read_with(maker, soc=BENCH.soc ^ 1 << bit)


def wrapping_tags():
    """TIME_BASE, rate, frame and FRACSEC that agree only where a number wraps or loses bits."""
    for rate, (time_base, turn) in itertools.product((10, 60), (
            (1000000, 2**26), (2**23, 2**9), (65536, 65536), (4, 2**30), (1000000, 256), (1000000, 65536),
            (1000000, 2**24), (1000000, 2**31))):
        for frame in (0, 5):
            yield time_base, rate, turn + frame, frame * time_base // rate
            yield time_base, rate, 2**32 - turn + frame, frame * time_base // rate
    for time_base, rate, parts in itertools.product((999, 16777213, MOST_TIME_BASE), (12, 60), (1, 8000000, 16777214)):
        yield time_base, rate, parts * rate * pow(time_base, -1, 2**32) % 2**32, parts
    # a product of 2^31, and one less than 0 where it is signed
    yield 2**22, 60, 2**9, 0
    for time_base, parts in itertools.product((1, 9, 59, 60, MOST_TIME_BASE), (0, 16777215)):
        yield time_base, 60, 2**32 - 1, parts
    # FRACSEC with its high byte
    for quality in (1, 15, 255):
        yield 1, 10, ((quality << 24) + 5) * 10 % 2**32, quality << 24 | 5


def wrapped(maker):
    """Tags whose numbers must not wrap, none of which agrees."""
    for time_base, rate, frame, fracsec in wrapping_tags():
        read_at(maker, Bench(60, rate, 258, time_base, 1000, frame), fracsec)
        assert maker.lines[-1] == "refused 24"


# ---------------------------------------------------------------------------
# The order of refusals

ORDER = (6, 7, 36, 18, 19, 20, 21, 22, 23, 24)
# what leads to a refusal, of the bench's numbers and of the fields of the frame that agrees with BENCH
BENCH_FAULTS = {
    6: [("nominal", nominal) for nominal in (0, 49, 51, 59, 61, 255)],
    7: [("rate", rate) for rate in (0, 1, 11, 25, 50, 59, 61, 255)],
    36: [("time_base", time_base) for time_base in (0, 2**24, 2**24 + 1000000, LAST_SOC)],
}
FIELD_FAULTS = {
    19: [("sync", sync) for sync in (b"\xaa\x11", b"\xaa\x21", b"\xaa\x31", b"\xaa\x41", b"\xaa\x02", b"\x2a\x01")],
    20: [("size", size) for size in (0, 25, 27, 0x1A00, 65535)],
    22: [("id_code", id_code) for id_code in (0, 257, 259, 513, 65535)],
    23: [("stat", stat) for stat in (0x4000, 0x8000, 0xC000, 0xFFFF)],
    24: [("soc", 999), ("soc", 1001), ("fracsec", 333332), ("fracsec", 333335)],
}


def any_of(rng, faults, due):
    """One fault for each of the refusals that are due."""
    return dict(rng.choice(faults[number]) for number in due if number in faults)


def with_faults(rng, due):
    """A bench and the bytes of a frame to which just these refusals apply."""
    data = frame_bytes(agreeing(BENCH)._replace(**any_of(rng, FIELD_FAULTS, due)))
    if 21 in due:
        data = flipped(data, rng.randrange(MESSAGE_BITS, FRAME_BITS))
    if 18 in due:
        data = rng.choice((data[:-1], data + b"\0", data + data))
    return BENCH._replace(**any_of(rng, BENCH_FAULTS, due)), data


def orders_of_reading(maker):
    """No refusal due, each one, every two at once in several ways, and all from each on: the first is given."""
    ones, twos = [list(itertools.combinations(ORDER, count)) for count in (1, 2)]
    for due in [()] + 5 * ones + 3 * twos + [ORDER[at:] for at in range(len(ORDER))]:
        maker.read(*with_faults(maker.rng, due))
        assert maker.lines[-1] == ("refused %d" % due[0] if due else "reading 4386 -292 -200 100 0")


FRAME_SCENES = (figures_of_frames, every_stat, nominals_and_rates, time_bases, every_length, syncs, sizes, checksums,
                id_codes, differences_about_the_rate, beyond_the_second, seconds, wrapped, orders_of_reading)
