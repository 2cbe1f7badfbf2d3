"""The class P model of document 01, with CR 1 to CR 6 of document 02, in the order of 01's sections and then the
frames of CR 4, in exact whole numbers."""

import math
import struct
from typing import NamedTuple, Optional

# ---------------------------------------------------------------------------
# Sampling and tags

SERVED = {50: (10, 25, 50), 60: (10, 12, 15, 20, 30, 60)}
LAST_SOC = 4294967295


def sampling(nominal):
    """15 samples per nominal cycle: 750 or 900 per second."""
    return {50: 750, 60: 900}[nominal]


def kept_rate(nominal, rate):
    """CR 2: at opening, rate 0 stands for the nominal frequency."""
    return nominal if rate == 0 else rate


def frame_spacing(nominal, rate):
    """D = sampling / rate."""
    assert sampling(nominal) % rate == 0
    return sampling(nominal) // rate


# ---------------------------------------------------------------------------
# The filter (Annex C, order N = 28)

OFFSETS = range(-14, 15)


def weight(k):
    """Weight of offset k, from -14 to 14."""
    return 15 - abs(k)


COS = [round(16384 * math.cos(2 * math.pi * n / 15)) for n in range(15)]
SIN = [round(16384 * math.sin(2 * math.pi * n / 15)) for n in range(15)]

assert sum(weight(k) for k in OFFSETS) == 225
assert COS[:8] == [16384, 14968, 10963, 5063, -1713, -8192, -13255, -16026]
assert SIN[:8] == [0, 6664, 12176, 15582, 16294, 14189, 9630, 3406]
assert all(COS[n] == COS[15 - n] and SIN[n] == -SIN[15 - n] for n in range(8, 15))


def cos(n):
    """The cosine table, its index taken mod 15."""
    return COS[n % 15]


def sin(n):
    """The sine table, its index taken mod 15."""
    return SIN[n % 15]


def positive_sequence(sample, i):
    """re and im at centre i, where sample(n) is the a, b, c of index n."""
    re = 0
    im = 0
    for k in OFFSETS:
        n = i + k
        a, b, c = sample(n)
        re += weight(k) * (a * cos(n) + b * cos(n - 5) + c * cos(n - 10))
        im -= weight(k) * (a * sin(n) + b * sin(n - 5) + c * sin(n - 10))
    return re, im


# ---------------------------------------------------------------------------
# The angle

TURN = 2**32
HALF_TURN = 2**31
QUARTER_TURN = 2**30

ARCTANGENTS = [round(math.atan(2.0**-i) * TURN / (2 * math.pi)) for i in range(24)]

assert ARCTANGENTS == [
    536870912, 316933406, 167458907, 85004756, 42667331, 21354465, 10679838, 5340245,
    2670163, 1335087, 667544, 333772, 166886, 83443, 41722, 20861,
    10430, 5215, 2608, 1304, 652, 326, 163, 81]

NO_PHASE_BELOW = 22118400

# "which is four peak counts"
assert NO_PHASE_BELOW == 4 * 5529600


def no_phase(re, im):
    """CR 5: there is no phase when both |re| and |im| are below 22118400."""
    return abs(re) < NO_PHASE_BELOW and abs(im) < NO_PHASE_BELOW


def first_quadrant(re, im):
    """Turned into the first quadrant: re, im and the base."""
    if re > 0 and im >= 0:
        return re, im, 0
    if re <= 0 and im > 0:
        return im, -re, QUARTER_TURN
    if re < 0 and im <= 0:
        return -re, -im, HALF_TURN
    assert re >= 0 and im < 0
    return -im, re, 3 * QUARTER_TURN


def angle(re, im):
    """The angle in 2^32nds of a turn, modulo 2^32; 0 where there is no phase."""
    if no_phase(re, im):
        return 0
    re, im, turned = first_quadrant(re * 65536, im * 65536)
    for i in range(24):
        # // is the floor towards minus infinity
        x, y = re, im
        if y > 0:
            re = x + y // 2**i
            im = y - x // 2**i
            turned += ARCTANGENTS[i]
        elif y < 0:
            re = x - y // 2**i
            im = y + x // 2**i
            turned -= ARCTANGENTS[i]
    return turned % TURN


# ---------------------------------------------------------------------------
# The report

class Figures(NamedTuple):
    """The report without a tag."""
    re: int
    im: int
    d1: int
    d2: int
    mark: int
    peak_re: float
    peak_im: float
    frequency: float
    rocof: float


class Report(NamedTuple):
    """The tag, SOC and frame number, and the figures."""
    soc: int
    frame: int
    figures: Figures


def signed(difference):
    """Modulo 2^32, read as a signed 32-bit number."""
    wrapped = difference % TURN
    return wrapped - TURN if wrapped >= HALF_TURN else wrapped


def differences(p, q, r):
    """d1 = r - p and d2 = r - 2q + p."""
    return signed(r - p), signed(r - 2 * q + p)


def divided_once(whole, divisor):
    """A whole number made a float without loss, divided once."""
    assert int(float(whole)) == whole and int(float(divisor)) == divisor
    return float(whole) / float(divisor)


def peak_counts(part):
    """re or im in peak counts."""
    return divided_once(part, 5529600)


def frequency_deviation(d1, nominal):
    """The frequency deviation in Hz: d1 × half the sampling, divided once."""
    return divided_once(d1 * (sampling(nominal) // 2), 4294967296)


def rocof(d2, nominal):
    """ROCOF in Hz/s: d2 × the square of the sampling, divided once."""
    return divided_once(d2 * sampling(nominal) ** 2, 4294967296)


def bits(number):
    """The bits of a 64-bit float."""
    return struct.unpack(">Q", struct.pack(">d", number))[0]


class Phase(NamedTuple):
    """The angle at a centre, and its no-phase flag: 1 where there is no phase, and the angle is then 0."""
    angle: int
    flag: int


def phase_of(re, im):
    """The phase of a centre's re and im."""
    return Phase(angle(re, im), int(no_phase(re, im)))


def figures_of(re, im, phases, nominal):
    """The figures of re and im at centre i, and of the phases at i-1, i, i+1."""
    if any(phase.flag for phase in phases):
        d1, d2, mark = 0, 0, 1
    else:
        d1, d2 = differences(*[phase.angle for phase in phases])
        mark = 0
    return Figures(re, im, d1, d2, mark, peak_counts(re), peak_counts(im),
                   frequency_deviation(d1, nominal), rocof(d2, nominal))


def measure(sample, i, nominal):
    """The figures at centre i, from the centres i-1, i, i+1."""
    centres = [positive_sequence(sample, j) for j in (i - 1, i, i + 1)]
    return figures_of(*centres[1], [phase_of(*centre) for centre in centres], nominal)


class Refused(NamedTuple):
    """A refusal answers its number alone."""
    number: int


def whole_run(a, b, c, centre, nominal):
    """The whole-run measurement, the first sample being index 0: refused 6, 16, 17."""
    if nominal not in SERVED:
        return Refused(6)
    if not len(a) == len(b) == len(c):
        return Refused(16)
    before = centre
    after = len(a) - 1 - centre
    if before < 15 or after < 15:
        return Refused(17)
    return measure(lambda n: (a[n], b[n], c[n]), centre, nominal)


# ---------------------------------------------------------------------------
# The bank

BANK_BYTES = 4096
SLOT_BYTES = 256
SLOTS = range(16)
PLACES = 31
FIRST_PLACE = 11
# CR 6: bytes 197-208 keep the angles of the three newest centres, oldest first, bytes 209-211 their no-phase flags
FIRST_ANGLE = 197
FIRST_FLAG = 209
AFTER_FLAGS = 212
ANGLES_FORM = ">III"
# how far the three newest centres stand behind the newest sample, oldest first
BEHIND = (16, 15, 14)
DONE = "done"
SOUND, TRIMMED, CLOSED = "sound", "trimmed", "closed"
# the three clauses of damage by which a slot is trimmed
STRAY_IN_PLACES = "a nonzero byte in an unfilled place"
FLAG_OVER_1 = "a flag over 1"
STRAY_AFTER_FLAGS = "a nonzero byte after byte 211"
# what is kept of a centre that has not 29 samples
NOT_YET = Phase(0, 0)


class Taken(NamedTuple):
    """A push that is not refused, with the report if one is due."""
    report: Optional[Report]


class Fate(NamedTuple):
    """Whether a slot is sound, trimmed or closed, and how many of its bytes differ from before."""
    word: str
    count: int


class Mended(NamedTuple):
    """A salvage that is not refused: the fate of each slot, in the order of the slots."""
    fates: tuple


class Feed(NamedTuple):
    """A feed taken out of its slot; its phases are those kept of the three newest centres, oldest first."""
    nominal: int
    rate: int
    held: int
    soc: int
    index: int
    place: int
    places: tuple
    phases: tuple


def feed_of(slot):
    """The feed that the 256 bytes of an open slot hold."""
    _, nominal, rate, held, soc, index, place = struct.unpack(">BBBBIHB", slot[:FIRST_PLACE])
    places = tuple(struct.iter_unpack(">hhh", slot[FIRST_PLACE:FIRST_ANGLE]))
    angles = struct.unpack(ANGLES_FORM, slot[FIRST_ANGLE:FIRST_FLAG])
    phases = tuple(map(Phase, angles, slot[FIRST_FLAG:AFTER_FLAGS]))
    return Feed(nominal, rate, held, soc, index, place, places, phases)


def slot_of(feed):
    """The 256 bytes of the open slot that holds the feed."""
    head = struct.pack(">BBBBIHB", 1, feed.nominal, feed.rate, feed.held,
                       feed.soc, feed.index, feed.place)
    places = b"".join(struct.pack(">hhh", *sample) for sample in feed.places)
    angles = struct.pack(ANGLES_FORM, *[phase.angle for phase in feed.phases])
    flags = bytes(phase.flag for phase in feed.phases)
    return (head + places + angles + flags).ljust(SLOT_BYTES, b"\0")


def held_samples(feed):
    """The samples held, oldest first: with 31 held the next place holds the oldest."""
    return feed.places[feed.place:] + feed.places[:feed.place] if feed.held == 31 else feed.places[:feed.held]


def phase_behind(feed, behind):
    """The phase of the centre so far behind the newest sample; zero and flag 0 where it has not 29 samples held."""
    if feed.held < behind + 15:
        return NOT_YET
    samples = held_samples(feed)
    # an index below 0 is the second before's, and has the same table entries: the sampling is a multiple of 15
    oldest = feed.index - feed.held
    return phase_of(*positive_sequence(lambda n: samples[n - oldest], feed.index - 1 - behind))


def true_phases(feed):
    """The phases of the three newest centres, oldest first, worked out from the samples held."""
    return tuple(phase_behind(feed, behind) for behind in BEHIND)


def unfilled_from(feed):
    """The byte of a slot at which its unfilled places begin, which is 197 with 31 held."""
    return FIRST_PLACE + 6 * feed.held


def damage(slot):
    """The clauses of damage that the 256 bytes of a slot meet, in the document's words."""
    state = slot[0]
    if state > 1:
        return ["state exceeds 1"]
    if state == 0:
        return ["free with a nonzero byte"] if any(slot) else []
    feed = feed_of(slot)
    served = feed.nominal in SERVED
    clauses = {
        "unserved nominal or rate":
            not served or feed.rate not in SERVED[feed.nominal],
        "index not below the sampling":
            served and feed.index >= sampling(feed.nominal),
        "held over 31":
            feed.held > 31,
        "place over 30":
            feed.place > 30,
        "fewer than 31 held where place or index differs from held":
            feed.held < 31 and (feed.place != feed.held or feed.index != feed.held),
        "31 held with SOC 0 and index under 31":
            feed.held == 31 and feed.soc == 0 and feed.index < 31,
        STRAY_IN_PLACES:
            any(slot[unfilled_from(feed):FIRST_ANGLE]),
        FLAG_OVER_1:
            any(phase.flag > 1 for phase in feed.phases),
        STRAY_AFTER_FLAGS:
            any(slot[AFTER_FLAGS:]),
    }
    return [clause for clause, met in clauses.items() if met]


def slot_bytes(bank, slot):
    """The 256 bytes of the named slot."""
    return bytes(bank[SLOT_BYTES * slot:SLOT_BYTES * (slot + 1)])


def put_slot(bank, slot, content):
    """The 256 bytes go back to the named slot."""
    assert len(content) == SLOT_BYTES
    bank[SLOT_BYTES * slot:SLOT_BYTES * (slot + 1)] = content


def named_slot_refusal(bank, slot):
    """Refusals 1, 2, 3, which open, push and close share; only the named slot is looked at."""
    if len(bank) != BANK_BYTES:
        return Refused(1)
    if slot > 15:
        return Refused(2)
    if damage(slot_bytes(bank, slot)):
        return Refused(3)
    return None


def is_open(bank, slot):
    """State 1 is open, 0 is free."""
    return slot_bytes(bank, slot)[0] == 1


def clear(bank):
    """Clearing zeroes the bank: refused 1."""
    if len(bank) != BANK_BYTES:
        return Refused(1)
    bank[:] = bytes(BANK_BYTES)
    return DONE


def opening_refusal(nominal, rate):
    """Refusals 6, 7, which open and a file header share."""
    if nominal not in SERVED:
        return Refused(6)
    if rate not in SERVED[nominal] and rate != 0:
        return Refused(7)
    return None


def open_feed(bank, slot, nominal, rate, soc):
    """Opening: refused 1, 2, 3, 4, 6, 7."""
    refusal = named_slot_refusal(bank, slot)
    if refusal:
        return refusal
    if is_open(bank, slot):
        return Refused(4)
    refusal = opening_refusal(nominal, rate)
    if refusal:
        return refusal
    feed = Feed(nominal, kept_rate(nominal, rate), held=0, soc=soc, index=0, place=0,
                places=((0, 0, 0),) * PLACES, phases=(NOT_YET,) * 3)
    put_slot(bank, slot, slot_of(feed))
    return DONE


def is_last_sample(feed):
    """SOC 4294967295 and the sample is the last index of the second."""
    return feed.soc == LAST_SOC and feed.index == sampling(feed.nominal) - 1


def with_sample(feed, sample):
    """The feed after a sample goes in the next place, which then moves on one, 30 to 0. The three phases move on by
    one, whatever they are, and the newest centre's comes last."""
    places = feed.places[:feed.place] + (sample,) + feed.places[feed.place + 1:]
    place = 0 if feed.place == 30 else feed.place + 1
    held = min(feed.held + 1, 31)
    soc, index = feed.soc, feed.index + 1
    if index == sampling(feed.nominal):
        soc, index = feed.soc + 1, 0
    following = Feed(feed.nominal, feed.rate, held, soc, index, place, places, feed.phases)
    return following._replace(phases=feed.phases[1:] + (phase_behind(following, BEHIND[-1]),))


def report_at(feed, soc, index):
    """The report due with the newest sample, of this SOC and index; None if none is due. re and im are those at its
    centre; p, q and r are the three kept."""
    if feed.held < 31:
        return None
    centre_soc, centre = soc, index - 15
    if centre < 0:
        centre_soc, centre = soc - 1, centre + sampling(feed.nominal)
    spacing = frame_spacing(feed.nominal, feed.rate)
    if centre % spacing != 0:
        return None
    # the index of the oldest sample is the centre's - 15
    window = held_samples(feed)
    re, im = positive_sequence(lambda n: window[n - (centre - 15)], centre)
    return Report(centre_soc, centre // spacing, figures_of(re, im, feed.phases, feed.nominal))


def push(bank, slot, a, b, c):
    """A push of one sample: refused 1, 2, 3, 5, 8."""
    refusal = named_slot_refusal(bank, slot)
    if refusal:
        return refusal
    if not is_open(bank, slot):
        return Refused(5)
    feed = feed_of(slot_bytes(bank, slot))
    if is_last_sample(feed):
        return Refused(8)
    following = with_sample(feed, (a, b, c))
    put_slot(bank, slot, slot_of(following))
    return Taken(report_at(following, feed.soc, feed.index))


def close(bank, slot):
    """Closing zeroes the slot: refused 1, 2, 3, 5."""
    refusal = named_slot_refusal(bank, slot)
    if refusal:
        return refusal
    if not is_open(bank, slot):
        return Refused(5)
    put_slot(bank, slot, bytes(SLOT_BYTES))
    return DONE


def mended(slot):
    """CR 3 and CR 6: the word for the 256 bytes of a slot, and the bytes that it is mended to."""
    clauses = set(damage(slot))
    if not clauses <= {STRAY_IN_PLACES, FLAG_OVER_1, STRAY_AFTER_FLAGS}:
        return CLOSED, bytes(SLOT_BYTES)
    if slot[0] == 0:
        return SOUND, slot
    # the unfilled places and all after byte 211 are zero, and the three phases are those of the samples
    feed = feed_of(slot[:unfilled_from(feed_of(slot))].ljust(SLOT_BYTES, b"\0"))
    after = slot_of(feed._replace(phases=true_phases(feed)))
    return SOUND if not clauses and after == slot else TRIMMED, after


def differing_bytes(before, after):
    """How many bytes differ from before."""
    return sum(old != new for old, new in zip(before, after))


def salvage(bank):
    """CR 3: an image is mended slot by slot: refused 1."""
    if len(bank) != BANK_BYTES:
        return Refused(1)
    fates = []
    for slot in SLOTS:
        before = slot_bytes(bank, slot)
        word, after = mended(before)
        put_slot(bank, slot, after)
        fates.append(Fate(word, differing_bytes(before, after)))
    return Mended(tuple(fates))


# ---------------------------------------------------------------------------
# The verdict

# limits by class, then by test, three to each: TVE in percent, FE in µHz, RFE in µHz/s
LIMITS = [
    [(1, 5000, 10000), (1, 10000, 100000)],
    [(1, 5000, 10000), (1, 5000, 100000)],
]
RAMP = 1
LEFT_OUT = "left out"


class Device(NamedTuple):
    """re, im; frequency deviation in mHz; ROCOF in hundredths of Hz/s."""
    re: int
    im: int
    frequency: int
    rocof: int


class Reference(NamedTuple):
    """re, im in the same counts; frequency deviation in µHz; ROCOF in µHz/s."""
    re: int
    im: int
    frequency: int
    rocof: int


class Verdict(NamedTuple):
    """Whether the device is within TVE, FE and RFE."""
    tve: bool
    fe: bool
    rfe: bool


def within_tve(device, reference, percent):
    """(dr² + di²)·10000 ≤ p²·(re² + im²) of the reference."""
    dr = device.re - reference.re
    di = device.im - reference.im
    return (dr**2 + di**2) * 10000 <= percent**2 * (reference.re**2 + reference.im**2)


def within_fe(device, reference, limit):
    """|1000·device - reference| meets the limit."""
    return abs(1000 * device.frequency - reference.frequency) <= limit


def within_rfe(device, reference, limit):
    """|10000·device - reference| meets the limit."""
    return abs(10000 * device.rocof - reference.rocof) <= limit


def judge(class_, test, m, device, reference):
    """The judging of one device report: refused 10, 11, 9, then "left out": in ramp tests m from -2 to 2 (CR 1)."""
    if class_ > 1:
        return Refused(10)
    if test > 1:
        return Refused(11)
    if reference.re == 0 and reference.im == 0:
        return Refused(9)
    if test == RAMP and -2 <= m <= 2:
        return LEFT_OUT
    percent, fe_limit, rfe_limit = LIMITS[class_][test]
    return Verdict(within_tve(device, reference, percent),
                   within_fe(device, reference, fe_limit),
                   within_rfe(device, reference, rfe_limit))


# ---------------------------------------------------------------------------
# PHS files and the listing

HEADER_BYTES = 11
SAMPLE_BYTES = 6
VERSIONS = (1, 2)


class Header(NamedTuple):
    """The version, the nominal, the rate as the file gives it, and the SOC."""
    version: int
    nominal: int
    rate: int
    soc: int


def read_header(data):
    """The header of a file: refused 14, 12, 13 (CR 2: versions other than 1 and 2), 6, 7."""
    if len(data) < HEADER_BYTES:
        return Refused(14)
    mark, *fields = struct.unpack(">3sHBBI", data[:HEADER_BYTES])
    header = Header(*fields)
    if mark != b"PHS":
        return Refused(12)
    if header.version not in VERSIONS:
        return Refused(13)
    return opening_refusal(header.nominal, header.rate) or header


def passed_rate(version, rate):
    """CR 2: of a version 1 file with rate 0 the reader passes 10 itself; else what the file gives."""
    return 10 if version == 1 and rate == 0 else rate


def tag_and_whole_numbers(report):
    """SOC frame re im d1 d2 mark, in decimal."""
    figures = report.figures
    return "%d %d %d %d %d %d %d" % (report.soc, report.frame, figures.re, figures.im,
                                     figures.d1, figures.d2, figures.mark)


def listing_lines(data):
    """The lines of the listing of a file."""
    header = read_header(data)
    if isinstance(header, Refused):
        return ["refused %d" % header.number]
    bank = bytearray(BANK_BYTES)
    clear(bank)
    open_feed(bank, 0, header.nominal, passed_rate(header.version, header.rate), header.soc)
    lines = ["PHS %d %d %d" % (header.version, header.nominal, feed_of(slot_bytes(bank, 0)).rate)]
    reports = 0
    samples = 0
    for at in range(HEADER_BYTES, len(data), SAMPLE_BYTES):
        sample = data[at:at + SAMPLE_BYTES]
        if len(sample) < SAMPLE_BYTES:
            return lines + ["refused 15"]
        answer = push(bank, 0, *struct.unpack(">hhh", sample))
        if isinstance(answer, Refused):
            return lines + ["refused %d" % answer.number]
        samples += 1
        if answer.report:
            reports += 1
            lines.append(tag_and_whole_numbers(answer.report))
    return lines + ["reports %d samples %d" % (reports, samples)]


def listing(data):
    """The listing of a file, bytes in and bytes out."""
    return "".join(line + "\n" for line in listing_lines(data)).encode("ascii")


# ---------------------------------------------------------------------------
# The device's own frames (CR 4)

FRAME_BYTES = 26
FRAME_FORM = ">2sHHIIHhhhhH"
SYNC = b"\xaa\x01"
# x^16 + x^12 + x^5 + 1
POLYNOMIAL = 0x11021
INITIAL = 0xFFFF
MOST_TIME_BASE = 16777215

assert struct.calcsize(FRAME_FORM) == FRAME_BYTES


class Frame(NamedTuple):
    """The fields of a data frame, in their order."""
    sync: bytes
    size: int
    id_code: int
    soc: int
    fracsec: int
    stat: int
    re: int
    im: int
    frequency: int
    rocof: int
    check: int


class Reading(NamedTuple):
    """The frame's four figures as they are, and the time quality aside."""
    device: Device
    quality: int


def remainder(dividend):
    """What the division by the polynomial leaves, bit by bit from the highest; sums are without carries."""
    while dividend.bit_length() > 16:
        dividend ^= POLYNOMIAL << (dividend.bit_length() - 17)
    return dividend


def checksum(message):
    """CRC-CCITT: what the message and 16 zero bits leave, the first 16 bits of both summed with the initial value."""
    return remainder(int.from_bytes(message, "big") << 16 ^ INITIAL << 8 * len(message))


def time_quality(fracsec):
    """The high byte of FRACSEC."""
    return fracsec >> 24


def parts_of_second(fracsec):
    """The low 24 bits of FRACSEC, which count TIME_BASE parts of the second."""
    return fracsec % 2**24


def tag_agrees(fields, rate, time_base, soc, frame):
    """SOC is equal, and FRACSEC × rate differs from frame × TIME_BASE by less than rate."""
    difference = parts_of_second(fields.fracsec) * rate - frame * time_base
    return fields.soc == soc and abs(difference) < rate


def read_frame(data, nominal, rate, id_code, time_base, soc, frame):
    """The reading of a data frame: refused 6, 7 (rate 0 too), 36, 18, 19, 20, 21, 22, 23, 24."""
    if nominal not in SERVED:
        return Refused(6)
    if rate not in SERVED[nominal]:
        return Refused(7)
    if time_base == 0 or time_base > MOST_TIME_BASE:
        return Refused(36)
    if len(data) != FRAME_BYTES:
        return Refused(18)
    fields = Frame(*struct.unpack(FRAME_FORM, data))
    if fields.sync != SYNC:
        return Refused(19)
    if fields.size != FRAME_BYTES:
        return Refused(20)
    if fields.check != checksum(data[:-2]):
        return Refused(21)
    if fields.id_code != id_code:
        return Refused(22)
    if fields.stat >> 14 != 0:
        return Refused(23)
    if not tag_agrees(fields, rate, time_base, soc, frame):
        return Refused(24)
    device = Device(fields.re, fields.im, fields.frequency, fields.rocof)
    return Reading(device, time_quality(fields.fracsec))
