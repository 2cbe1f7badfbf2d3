"""The figures of document 01 and of CR 1 to CR 6 on both sides of each edge, held against the model."""

import binascii
import itertools
import random

from angle_figures import ANGLE_CHECKS, kept_slots
from files import document, header
from frame_scenes import ORDER, other_checksums, with_faults, wrapping_tags
from inputs import served_pairs
from maker import FREE, Bench, agreeing, any_bench, any_figures, edited, flipped, frame_bytes, held_slot, sealed
from phase_figures import PHASE_CHECKS
from reference import (
    BANK_BYTES, CLOSED, DONE, LEFT_OUT, PLACES, SERVED, SLOT_BYTES, SLOTS, SOUND, TRIMMED, Device, Fate, Frame, Mended,
    Reading, Reference, Refused, Taken, Verdict, bits, checksum, clear, damage, differences, feed_of, frame_spacing,
    frequency_deviation, judge, listing, open_feed, push, put_slot, read_frame, salvage, sampling, slot_bytes, slot_of,
    whole_run, within_tve)

CLASSES = (0, 1)
STEADY, RAMP = 0, 1


def wrapped_differences():
    """P: d1 across the turn, and at half a turn."""
    yield differences(4294967290, 0, 10)[0], 16
    yield differences(0, 0, 2**31)[0], -2147483648
    yield differences(2**31 + 5, 0, 5)[0], -2147483648
    yield bits(frequency_deviation(-2147483648, 60)), bits(-225.0)


def total_vector_errors():
    """P: reference (10000, 0), 1 %."""
    reference = Reference(10000, 0, 0, 0)
    for (re, im), within in (((10100, 0), True), ((10060, 80), True),
                             ((10101, 0), False), ((10060, 81), False)):
        device = Device(re, im, 0, 0)
        yield within_tve(device, reference, 1), within
        for class_ in CLASSES:
            yield judge(class_, STEADY, 0, device, reference), Verdict(within, True, True)


def steady_frequency_errors():
    """Steady FE: device 5, reference 0 within; reference -1 not."""
    for class_ in CLASSES:
        for reference, within in ((0, True), (-1, False)):
            answer = judge(class_, STEADY, 0, Device(1, 0, 5, 0), Reference(1, 0, reference, 0))
            yield answer, Verdict(True, within, True)


def steady_rocof_errors():
    """Steady RFE: device 1, reference 0 within; 2 not."""
    for class_ in CLASSES:
        for device, within in ((1, True), (2, False)):
            answer = judge(class_, STEADY, 0, Device(1, 0, 0, device), Reference(1, 0, 0, 0))
            yield answer, Verdict(True, True, within)


def left_out_intervals():
    """CR 1: in ramp tests m from -2 to 2 left out, -3, 3 and the extremes judged; in steady tests no effect."""
    equal = Device(1, 1, 0, 0), Reference(1, 1, 0, 0)
    judged = Verdict(True, True, True)
    for class_ in CLASSES:
        for m in (-2, -1, 0, 1, 2):
            yield judge(class_, RAMP, m, *equal), LEFT_OUT
            yield judge(class_, STEADY, m, *equal), judged
        for m in (-2147483648, -3, 3, 2147483647):
            yield judge(class_, RAMP, m, *equal), judged
            yield judge(class_, STEADY, m, *equal), judged


def last_second():
    """SOC 4294967295, 60 Hz: index 898 taken, 899 refused 8."""
    bank = bytearray(BANK_BYTES)
    put_slot(bank, 3, held_slot(((1, 2, 3),) * 31, soc=4294967295, index=898, place=0))
    yield push(bank, 3, 0, 0, 0), Taken(None)
    before = bytes(bank)
    yield push(bank, 3, 0, 0, 0), Refused(8)
    yield bytes(bank), before


def runs_of_31():
    """Runs of 31: centre 15 answered, 14 and 16 refused 17."""
    run = [0] * 31
    yield isinstance(whole_run(run, run, run, 15, 50), Refused), False
    yield whole_run(run, run, run, 14, 50), Refused(17)
    yield whole_run(run, run, run, 16, 50), Refused(17)


def whole_listing():
    """The listing of 31 samples of the tables, at 60 Hz and rate 60, from SOC 1000."""
    yield listing(document()), b"PHS 1 60 60\n1000 1 90598592160 0 0 0 0\nreports 1 samples 31\n"


def rate_0_at_opening():
    """CR 2: rate 0 is kept as the nominal frequency, every other rate as it is; a kept 0 is damage."""
    for nominal, rates in SERVED.items():
        for rate in (0,) + rates:
            bank = bytearray(BANK_BYTES)
            yield open_feed(bank, 0, nominal, rate, 1000), DONE
            yield bank[2], rate or nominal
        bank[2] = 0
        yield push(bank, 0, 0, 0, 0), Refused(3)


def rate_0_in_headers():
    """CR 2: rate 0 means 10 in version 1 and the nominal frequency in version 2; other versions are refused 13."""
    for version, nominal, rate, kept in ((1, 50, 0, 10), (1, 60, 0, 10), (2, 50, 0, 50), (2, 60, 0, 60),
                                         (1, 50, 50, 50), (1, 60, 60, 60), (2, 50, 10, 10), (2, 60, 10, 10)):
        line = b"PHS %d %d %d\n" % (version, nominal, kept)
        yield listing(header(nominal, rate, version=version)), line + b"reports 0 samples 0\n"
    for version in (0, 3, 256, 512, 65535):
        yield listing(header(60, 0, version=version)), b"refused 13\n"
    for version in (1, 2):
        yield listing(header(51, 0, version=version)), b"refused 6\n"
        yield listing(header(60, 50, version=version)), b"refused 7\n"


# ---------------------------------------------------------------------------
# CR 3: a figure is the bytes of a slot before and after, its word and its count

# equal phases, which have no phase: from 29 held on the flags are 1
SAMPLES = ((257, 257, 257),) * PLACES
FULL = held_slot(SAMPLES, held=31)
SOME = held_slot(SAMPLES, held=6)
NONE = held_slot(SAMPLES, held=0)
AFTER_SIX = 11 + 6 * 6
# the last byte of the places, of the angles, of the flags and of the slot, and the bytes that follow them
AFTER_EDGES = (196, 197, 208, 209, 211, 212, 255)
# slots with each clause of faulty numbers, and their nonzero bytes: FULL has 197, of which 186 are its samples and 3
# its flags
FAULTY_NUMBERS = (
    (edited(FULL, 1, 51), 197), (edited(FULL, 1, 0), 196), (edited(FULL, 2, 11), 197), (edited(FULL, 2, 0), 196),
    (edited(FULL, 1, 50), 197), (edited(NONE, 2, 0), 4),
    (edited(FULL, 8, 3, 132), 198), (edited(FULL, 8, 255, 255), 198),
    (held_slot(SAMPLES, nominal=50, rate=50, index=750), 198),
    (edited(FULL, 3, 32), 197), (edited(FULL, 3, 255), 197),
    (edited(FULL, 10, 31), 197), (edited(FULL, 10, 255), 197),
    (edited(SOME, 10, 5), 44), (edited(SOME, 10, 7), 44), (edited(SOME, 9, 5), 44), (edited(SOME, 9, 7), 44),
    (edited(SOME, 8, 1), 45), (edited(SOME, 9, 7, 7), 44), (edited(SOME, 3, 5), 44), (edited(NONE, 10, 1), 6),
    (held_slot(SAMPLES, soc=0, index=30), 195), (held_slot(SAMPLES, soc=0, index=0), 194),
)


def sound_slots():
    """Free and open slots, none, some and 31 held; the last byte of the last filled place is a sample's."""
    for slot in (FREE, NONE, SOME, FULL, held_slot(SAMPLES, nominal=50, rate=10), edited(SOME, AFTER_SIX - 1, 255),
                 edited(SOME, AFTER_SIX - 1, 0), edited(FULL, 196, 2), edited(FULL, 196, 0)):
        yield slot, slot, SOUND, 0


def trimmed_slots():
    """Nonzero bytes in unfilled places or after byte 211 are set to zero, and what is kept is made true."""
    for at in (11, 16, 17, *AFTER_EDGES):
        yield edited(NONE, at, 1), NONE, TRIMMED, 1
    for at in (AFTER_SIX, AFTER_SIX + 5, AFTER_SIX + 6, *AFTER_EDGES):
        yield edited(SOME, at, 255), SOME, TRIMMED, 1
    for at in AFTER_EDGES[1:]:
        yield edited(FULL, at, 128), FULL, TRIMMED, 1
    almost = held_slot(SAMPLES, held=30)
    for at in (191, *AFTER_EDGES):
        yield edited(almost, at, 7), almost, TRIMMED, 1
    yield edited(FULL, 196, 2, 255), edited(FULL, 196, 2), TRIMMED, 1
    yield edited(SOME, AFTER_SIX - 1, 9, 9), edited(SOME, AFTER_SIX - 1, 9), TRIMMED, 1
    yield edited(SOME, 195, 1, 2, 3, 4), SOME, TRIMMED, 4
    yield edited(SOME, 195, 1, 0, 3, 0, 5), SOME, TRIMMED, 3
    yield edited(FULL, 197, *range(1, 60)), FULL, TRIMMED, 59
    yield edited(NONE, 11, *range(1, 246)), NONE, TRIMMED, 245


def closed_slots():
    """Any other damaged slot is all zero; its nonzero bytes are those that differ."""
    for at in (1, 11, *AFTER_EDGES):
        yield edited(FREE, at, 1), FREE, CLOSED, 1
    for state in (2, 255):
        yield edited(FREE, 0, state), FREE, CLOSED, 1
        yield edited(FULL, 0, state), FREE, CLOSED, 197
    yield edited(FULL, 0, 0), FREE, CLOSED, 196
    yield bytes([1]) * SLOT_BYTES, FREE, CLOSED, 256
    yield bytes([2]) * SLOT_BYTES, FREE, CLOSED, 256
    yield bytes([0]) + bytes([255]) * 255, FREE, CLOSED, 255
    for faulty, count in FAULTY_NUMBERS:
        yield faulty, FREE, CLOSED, count


def beside_faulty_numbers():
    """On the other side of each clause's edge the slot is sound, and is trimmed where a stray byte is put to it."""
    for slot in (held_slot(SAMPLES, index=899), held_slot(SAMPLES, nominal=50, rate=50, index=749),
                 held_slot(SAMPLES, place=30), held_slot(SAMPLES, soc=0, index=31), held_slot(SAMPLES, soc=1, index=0),
                 held_slot(SAMPLES, nominal=50, rate=25), held_slot(SAMPLES, held=30, soc=0)):
        yield slot, slot, SOUND, 0
        yield edited(slot, 255, 1), slot, TRIMMED, 1


def slots_with_both():
    """A slot with both kinds of damage is closed."""
    for faulty, count in FAULTY_NUMBERS:
        yield edited(faulty, 255, 1), FREE, CLOSED, count + 1
        yield edited(faulty, 209, 2), FREE, CLOSED, count if faulty[209] else count + 1
    yield edited(edited(SOME, 9, 7), AFTER_SIX, 1), FREE, CLOSED, 45
    yield edited(edited(NONE, 1, 51), 11, *range(1, 246)), FREE, CLOSED, 250


def mended_alone():
    """Each slot figure, in one slot among sound ones: only that slot is altered, and mended again nothing is."""
    others = [FULL, FREE, SOME, NONE] * 4
    figures = [figure for figures in (sound_slots, trimmed_slots, closed_slots, beside_faulty_numbers, slots_with_both,
                                      kept_slots) for figure in figures()]
    for n, (before, after, word, count) in enumerate(figures):
        # slot 15 first, and every other in turn
        slot = 15 - n % 16
        bank = bytearray(b"".join(others))
        put_slot(bank, slot, before)
        fates = [Fate(SOUND, 0)] * 16
        fates[slot] = Fate(word, count)
        yield salvage(bank), Mended(tuple(fates))
        yield bytes(bank), b"".join(others[:slot] + [after] + others[slot + 1:])
        yield any(damage(slot_bytes(bank, each)) for each in SLOTS), False
        once = bytes(bank)
        yield salvage(bank), Mended((Fate(SOUND, 0),) * 16)
        yield bytes(bank), once


def mended_together():
    """Slots of each kind beside each other: what becomes of one depends on its bytes alone."""
    kinds = [(FREE, FREE, SOUND, 0), (edited(SOME, 197, 1), SOME, TRIMMED, 1), (edited(FREE, 255, 1), FREE, CLOSED, 1),
             (edited(edited(FULL, 2, 0), 255, 1), FREE, CLOSED, 197)]
    for turn in range(4):
        slots = (kinds[turn:] + kinds[:turn]) * 4
        bank = bytearray(b"".join(before for before, _, _, _ in slots))
        yield salvage(bank), Mended(tuple(Fate(word, count) for _, _, word, count in slots))
        yield bytes(bank), b"".join(after for _, after, _, _ in slots)
    for word, before, after, count in ((SOUND, FULL, FULL, 0), (TRIMMED, edited(FULL, 255, 1), FULL, 1),
                                       (CLOSED, bytes([255]) * SLOT_BYTES, FREE, 256)):
        bank = bytearray(before * 16)
        yield salvage(bank), Mended((Fate(word, count),) * 16)
        yield bytes(bank), after * 16


def refused_salvage():
    """Refused 1 at every length but 4096, and then no byte is altered."""
    for length in (0, 1, 255, 256, 4095, 4097, 8192):
        for fill in (0, 255):
            image = bytearray([fill]) * length
            yield salvage(image), Refused(1)
            yield bytes(image), bytes([fill]) * length
    cleared = bytearray(BANK_BYTES)
    clear(cleared)
    yield salvage(cleared), Mended((Fate(SOUND, 0),) * 16)


def pushes_after_salvage():
    """A trimmed feed goes on as if it had not been damaged; a closed one is free."""
    banks = [bytearray(BANK_BYTES) for _ in range(2)]
    for bank in banks:
        open_feed(bank, 5, 60, 60, 1000)
        open_feed(bank, 15, 50, 50, 1000)
    banks[1][5 * SLOT_BYTES + 255] = 1
    banks[1][15 * SLOT_BYTES + 1] = 51
    yield push(banks[1], 5, 0, 0, 0), Refused(3)
    yield salvage(banks[1]).fates[5::10], (Fate(TRIMMED, 1), Fate(CLOSED, 5))
    reports = [[push(bank, 5, n, -n, 7) for n in range(31)] for bank in banks]
    yield reports[1], reports[0]
    yield reports[1][30].report.frame, 1
    yield push(banks[1], 15, 0, 0, 0), Refused(5)
    yield open_feed(banks[1], 15, 50, 50, 1000), DONE
    yield banks[1], banks[0]


# ---------------------------------------------------------------------------
# CR 4: a frame written by hand, and what the bench supplies that it agrees with

HAND = bytes.fromhex("aa01 001a 0102 03040506 8b07a120 0000 1122 fedc ff38 0064 74ee")
FIELDS = Frame(b"\xaa\x01", 26, 258, 50595078, 0x8B07A120, 0, 4386, -292, -200, 100, 0x74EE)
BENCH = Bench(60, 10, 258, 1000000, 50595078, 5)
DEVICE = Device(4386, -292, -200, 100)


def read(data=HAND, **changed):
    """What is answered to the bytes of a frame, by the bench of the one written by hand with some numbers changed."""
    return read_frame(data, *BENCH._replace(**changed))


def read_with(**changed):
    """What is answered to the frame written by hand with some fields changed and its checksum right."""
    return read(frame_bytes(FIELDS._replace(**changed)))


def read_at(time_base, rate, frame, fracsec, soc=0, expected_soc=0, nominal=60):
    """What is answered to a frame of this tag; None where its figures are read."""
    bench = Bench(nominal, rate, 258, time_base, expected_soc, frame)
    answer = read_frame(frame_bytes(FIELDS._replace(soc=soc, fracsec=fracsec)), *bench)
    return answer if isinstance(answer, Refused) else None


AGREES, DISAGREES = None, Refused(24)


def known_checksums():
    """Published vectors, and the standard library's checksum; a message with its checksum leaves nothing."""
    yield checksum(b"123456789"), 0x29B1
    yield checksum(b""), 0xFFFF
    yield checksum(b"A"), 0xB915
    yield checksum(b"\0"), 0xE1F0
    yield checksum(b"\0\0"), 0x1D0F
    yield checksum(b"\xff\xff"), 0
    yield checksum(HAND[:-2]), 0x74EE
    rng = random.Random(4)
    for length in range(64):
        message = rng.randbytes(length)
        yield checksum(message), binascii.crc_hqx(message, 0xFFFF)
        yield checksum(sealed(message)), 0


def frame_by_hand():
    """The four figures as they are, and the time quality aside; read or typed, they meet the same verdict."""
    yield frame_bytes(FIELDS), HAND
    yield read(), Reading(DEVICE, 139)
    for reference in (Reference(4386, -292, -200000, 1000000), Reference(4400, -300, -195000, 1010000),
                      Reference(4386, -241, -205001, 989999), Reference(0, 0, 0, 0)):
        yield judge(0, STEADY, 0, read().device, reference), judge(0, STEADY, 0, DEVICE, reference)


def read_figures():
    """Each figure at its extremes and with bytes that differ."""
    for figures in list(itertools.product((-32768, -1, 0, 32767), repeat=4)) + [(258, 772, 1286, 1800),
                                                                                 (-258, -772, -1286, -1800)]:
        yield read(frame_bytes(agreeing(BENCH, figures))), Reading(Device(*figures), 0)


def time_qualities():
    """Any high byte of FRACSEC is answered and has no other effect."""
    for quality in range(256):
        yield read_with(fracsec=quality << 24 | 500000), Reading(DEVICE, quality)
        yield read_with(fracsec=quality << 24 | 500001), DISAGREES


def bench_refusals():
    """6: nominals beside 50 and 60; 7: every rate that is not served, 0 too; 36: TIME_BASE 0 or over 16777215."""
    data = frame_bytes(FIELDS._replace(fracsec=0))
    for nominal, rates in {50: (10, 25, 50), 60: (10, 12, 15, 20, 30, 60)}.items():
        for rate in range(256):
            wanted = Reading(DEVICE, 0) if rate in rates else Refused(7)
            yield read(data, nominal=nominal, rate=rate, frame=0), wanted
    for nominal in (0, 1, 10, 49, 51, 59, 61, 255):
        yield read(data, nominal=nominal, frame=0), Refused(6)
    for time_base in (0, 16777216, 16777217, 17777216, 2147483648, 4294967295):
        yield read(data, time_base=time_base, frame=0), Refused(36)
    for time_base in (1, 2, 16777214, 16777215):
        yield read(data, time_base=time_base, frame=0), Reading(DEVICE, 0)


def lengths():
    """18: every length but 26, also where the size field and the checksum are right for it."""
    for length in range(256):
        wanted = Reading(DEVICE, 139) if length == 26 else Refused(18)
        yield read((HAND + bytes(230))[:length]), wanted
    for length in (25, 27, 28):
        yield read(sealed((edited(HAND, 2, 0, length)[:-2] + bytes(9))[:length - 2])), Refused(18)


def syncs_and_sizes():
    """19: the sync of other frames and other versions; 20: the size field; the checksum is right."""
    for second in range(256):
        yield read_with(sync=bytes([0xAA, second])), Reading(DEVICE, 139) if second == 1 else Refused(19)
    for sync in (b"\x01\xaa", b"\0\1", b"\x2a\x01", b"\xab\x01", b"\0\0"):
        yield read_with(sync=sync), Refused(19)
    for size in (0, 1, 24, 25, 27, 28, 0x1A00, 0x011A, 0x1A1A, 65535):
        yield read_with(size=size), Refused(20)


def changed_bits():
    """19, 20 and 21: every change of one bit, and of the checksum's bytes; no such frame is accepted."""
    for bit in range(208):
        yield read(flipped(HAND, bit)), Refused(19 if bit < 16 else 20 if bit < 32 else 21)
    rng = random.Random(5)
    for _ in range(8):
        bench = any_bench(rng)
        data = frame_bytes(agreeing(bench, any_figures(rng), rng.randrange(256)))
        yield isinstance(read_frame(data, *bench), Reading), True
        yield {read_frame(flipped(data, bit), *bench) for bit in range(32, 208)}, {Refused(21)}
    for other in other_checksums(HAND):
        yield read(HAND[:-2] + other.to_bytes(2, "big")), Refused(21)


def ids_and_stats():
    """22: any other ID, on either side; 23: either of STAT's two top bits, and no other."""
    for other in [0, 2, 257, 259, 513, 65535] + [258 ^ 1 << bit for bit in range(16)]:
        yield read_with(id_code=other), Refused(22)
        yield read(id_code=other), Refused(22)
    for id_code in (0, 255, 256, 65535):
        yield read(frame_bytes(FIELDS._replace(id_code=id_code)), id_code=id_code), Reading(DEVICE, 139)
    for stat in [0x3FFF] + [1 << bit for bit in range(14)]:
        yield read_with(stat=stat), Reading(DEVICE, 139)
    for stat in (0x4000, 0x8000, 0xC000, 0x7FFF, 0xBFFF, 0xFFFF):
        yield read_with(stat=stat), Refused(23)


def differences_of_tags():
    """24: at every rate a difference of rate - 1 agrees, one of rate does not, on either side."""
    for nominal, rate in served_pairs():
        # TIME_BASE from 1000 × rate, and FRACSEC where frame 1 is expected
        for further, fracsec, wanted in ((0, 1000, AGREES), (1, 1001, AGREES), (-1, 999, AGREES), (0, 1001, DISAGREES),
                                         (0, 999, DISAGREES), (1, 999, DISAGREES), (-1, 1001, DISAGREES)):
            yield read_at(1000 * rate + further, rate, 1, fracsec, nominal=nominal), wanted
    # 20 × 1000000 = 60 × 333333 + 20 = 60 × 333334 - 40
    for fracsec, wanted in ((333332, DISAGREES), (333333, AGREES), (333334, AGREES), (333335, DISAGREES)):
        yield read_at(1000000, 60, 20, fracsec), wanted


def tags_beyond_the_second():
    """24: FRACSEC of TIME_BASE or more and frame of rate or more go by the same sentence."""
    for time_base, rate, frame, fracsec, wanted in (
            (1000, 10, 10, 1000, AGREES), (1000, 10, 10, 999, DISAGREES), (1000, 10, 10, 1001, DISAGREES),
            (1000, 10, 10, 0, DISAGREES), (1000, 10, 0, 1000, DISAGREES), (1000, 10, 25, 2500, AGREES),
            (1, 60, 0, 0, AGREES), (1, 60, 59, 0, AGREES), (1, 60, 60, 0, DISAGREES), (1, 60, 60, 1, AGREES),
            (1, 60, 1, 1, AGREES), (1, 60, 0, 1, DISAGREES), (1, 60, 1006632900, 16777215, AGREES),
            (1, 60, 1006632959, 16777215, AGREES), (1, 60, 1006632960, 16777215, DISAGREES),
            (16777215, 60, 60, 16777215, AGREES), (16777215, 60, 60, 16777214, DISAGREES)):
        yield read_at(time_base, rate, frame, fracsec), wanted


def tags_of_seconds():
    """24: SOC s agrees with s alone, also where both tags are the same moment."""
    for soc, expected in ((1000, 1001), (1001, 1000), (0, 4294967295), (4294967295, 0), (1, 256), (1000, 1000 + 65536)):
        for frame, fracsec in ((0, 0), (0, 1000), (0, 999), (10, 0), (10, 1000), (9, 1000)):
            yield read_at(1000, 10, frame, fracsec, soc, expected), DISAGREES
    for soc in (0, 1000, 2147483648, 4294967295):
        yield read_at(1000, 10, 10, 1000, soc, soc), AGREES


def tags_that_wrap():
    """24: numbers of which none wraps or loses bits."""
    for tag in wrapping_tags():
        yield read_at(*tag), DISAGREES


def orders_of_reading():
    """Each refusal by itself, and every two at once: the first of the order is given."""
    rng = random.Random(6)
    for due in [*itertools.combinations(ORDER, 1), *itertools.combinations(ORDER, 2)] * 8:
        bench, data = with_faults(rng, due)
        yield read_frame(data, *bench), Refused(due[0])


# ---------------------------------------------------------------------------
# The bank and the whole run

def bank_and_whole_run():
    """The reports of a feed are the whole run's at the multiples of D, with the centre's tag."""
    rng = random.Random(1)
    for nominal, rates in SERVED.items():
        length = sampling(nominal) + 130
        # large noise, noise that may have a phase or not, and a dead feeder, 130 samples of each in turn
        runs = [[rng.randint(-size, size) for size in [(32767, 40, 2)[n // 130 % 3] for n in range(length)]]
                for _ in range(3)]
        for rate in rates:
            bank = bytearray(BANK_BYTES)
            yield open_feed(bank, 7, nominal, rate, 41), DONE
            spacing = frame_spacing(nominal, rate)
            reports = []
            for n, sample in enumerate(zip(*runs)):
                report = push(bank, 7, *sample).report
                if report:
                    reports.append((n - 15, report))
            centres = [n for n in range(15, length - 15) if n % spacing == 0]
            yield [centre for centre, _ in reports], centres
            yield ([report.figures for _, report in reports],
                   [whole_run(*runs, centre, nominal) for centre in centres])
            yield ([(report.soc, report.frame) for _, report in reports],
                   [(41 + centre // sampling(nominal), centre % sampling(nominal) // spacing)
                    for centre in centres])
            yield slot_of(feed_of(slot_bytes(bank, 7))), slot_bytes(bank, 7)


CHECKS = (wrapped_differences, total_vector_errors, steady_frequency_errors, steady_rocof_errors, left_out_intervals,
          last_second, runs_of_31, whole_listing, rate_0_at_opening, rate_0_in_headers, mended_alone, mended_together,
          refused_salvage, pushes_after_salvage, known_checksums, frame_by_hand, read_figures, time_qualities,
          bench_refusals, lengths, syncs_and_sizes, changed_bits, ids_and_stats, differences_of_tags,
          tags_beyond_the_second, tags_of_seconds, tags_that_wrap, orders_of_reading, *PHASE_CHECKS, *ANGLE_CHECKS,
          bank_and_whole_run)


def main():
    """Asserts every figure and prints how many hold."""
    held = 0
    for check in CHECKS:
        for answer, figure in check():
            assert answer == figure, "%s: %r instead of %r" % (check.__doc__, answer, figure)
            held += 1
    print("%d figures hold" % held)


if __name__ == "__main__":
    main()
