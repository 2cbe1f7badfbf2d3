"""Frames as an outside dissector reads them, compared with what the replay program says of them.

compare PROGRAM [SEED COUNT]  makes a capture of so many random data frames, each after its configuration frame, has it
                              dissected and runs the program on the frames; it needs tshark, of Debian's package tshark
examples DIR                  writes a short script, of a frame and of the judging of its figures, and its lines
"""

import collections
import datetime
import os
import random
import re
import shutil
import struct
import subprocess
import sys
import xml.etree.ElementTree
from fractions import Fraction

from commands import compared, dispatch, printed_by
from files import write
from maker import Bench, Maker, agreeing, any_bench, any_figures, flipped, frame_bytes, frame_record, sealed
from reference import FRAME_BYTES, LAST_SOC

DISSECTOR = "tshark"
PORT = 4713


# ---------------------------------------------------------------------------
# Random frames, sound and not

def other_sync(rng, fields):
    """The sync of other frames, of other versions, and any other."""
    return fields._replace(sync=rng.choice((bytes([0xAA, rng.randrange(256)]), rng.randbytes(2))))


def other_size(rng, fields):
    """A size field beside 26, with its bytes exchanged, and any other."""
    return fields._replace(size=rng.choice((0, 25, 27, 0x1A00, rng.randrange(65536))))


def other_id(rng, fields):
    """An ID code that differs in a bit."""
    return fields._replace(id_code=fields.id_code ^ 1 << rng.randrange(16))


def other_second(rng, fields):
    """The second before, the one after, or any."""
    return fields._replace(soc=rng.choice((fields.soc - 1, fields.soc + 1, rng.randint(0, LAST_SOC))) % 2**32)


def other_fraction(rng, fields):
    """FRACSEC a few parts away."""
    return fields._replace(fracsec=(fields.fracsec + rng.choice((-2, -1, 1, 2))) % 2**32)


def data_error(rng, fields):
    """One or both of STAT's two top bits, and any others."""
    return fields._replace(stat=fields.stat | rng.choice((0x4000, 0x8000, 0xC000)))


FIELD_CHANGES = (other_sync, other_size, other_id, other_second, other_fraction, data_error)


def changed_bits(rng, data):
    """One or two bits changed, or any checksum."""
    return rng.choice((flipped(data, rng.randrange(8 * len(data))),
                       flipped(data, *rng.sample(range(8 * len(data)), 2)),
                       data[:-2] + rng.randbytes(2)))


def changed_length(rng, data):
    """A frame that is cut short or goes on."""
    return rng.choice((data[:-1], data + rng.randbytes(rng.randint(1, 9))))


BYTE_CHANGES = (changed_bits, changed_length)


def any_frame(rng, bench):
    """The bytes of a frame for the bench: sound, with one thing wrong, and some with more."""
    fields = agreeing(bench, any_figures(rng), rng.randrange(256))._replace(stat=rng.randrange(2**14))
    for change in rng.sample(FIELD_CHANGES, rng.choice((0, 0, 0, 1, 1, 1, 2))):
        fields = change(rng, fields)
    data = frame_bytes(fields)
    for change in rng.sample(BYTE_CHANGES, rng.choice((0, 0, 0, 0, 0, 1))):
        data = change(rng, data)
    return data


# ---------------------------------------------------------------------------
# The capture

def configuration(bench):
    """The configuration frame 2 of one device: one phasor, rectangular, all of 16 bits, a count being a volt."""
    station = struct.pack(">16sHHHHH16sI", b"BENCH", bench.id_code, 0, 1, 0, 0, b"PHASOR", 100000)
    rest = struct.pack(">HIIIH", bench.id_code, bench.soc, 0, bench.time_base, 1) + station + struct.pack(
        ">HHH", 1 if bench.nominal == 50 else 0, 0, bench.rate)
    return sealed(b"\xaa\x31" + struct.pack(">H", len(rest) + 6) + rest)


def packet(payload):
    """A record of the capture: the bytes in a datagram from one address to another."""
    datagram = struct.pack(">HHHH", PORT, PORT, 8 + len(payload), 0) + payload
    header = struct.pack(">BBHHHBBH4s4s", 0x45, 0, 20 + len(datagram), 0, 0, 64, 17, 0, bytes((10, 0, 0, 1)),
                         bytes((10, 0, 0, 2)))
    length = len(header + datagram)
    return struct.pack(">IIII", 0, 0, length, length) + header + datagram


def capture(payloads):
    """A capture file of packets that begin with their internet header."""
    return struct.pack(">IHHiIII", 0xA1B2C3D4, 2, 4, 0, 0, 65535, 101) + b"".join(map(packet, payloads))


# ---------------------------------------------------------------------------
# What the dissector says

def dissected(payloads):
    """For each packet the fields that the dissector prints, by their names."""
    command = [DISSECTOR, "-n", "-r", "-", "-T", "pdml", "-J", "udp synphasor"]
    printed = subprocess.run(command, input=capture(payloads), stdout=subprocess.PIPE, stderr=subprocess.DEVNULL,
                             check=True).stdout
    packets = xml.etree.ElementTree.fromstring(printed).findall("packet")
    assert len(packets) == len(payloads)
    return [{field.get("name"): field for field in each.iter("field")} for each in packets]


def number(fields, name):
    """A field that is printed as a whole number, in decimal or hexadecimal."""
    return int(fields[name].get("show"), 0)


def soc_of(fields):
    """The SOC whose moment is printed."""
    text = fields["synphasor.soc"].get("show")
    moment = datetime.datetime.strptime(text.partition(".")[0], "%b %d, %Y %H:%M:%S")
    return (moment - datetime.datetime(1970, 1, 1)) // datetime.timedelta(seconds=1)


def quality_of(fields):
    """The time quality: seven bits are printed, and the highest is in the byte beside them."""
    direction, occurred, pending, code = [int(fields["synphasor.timeqal." + name].get("value"), 16)
                                          for name in ("lsdir", "lsocc", "lspend", "timequalindic")]
    byte = int(fields["synphasor.timeqal.timequalindic"].get("unmaskedvalue"), 16)
    return byte & 0x80 | direction << 6 | occurred << 5 | pending << 4 | code


def figures_of(fields):
    """The four figures; a part of the phasor that is printed as no number is -32768."""
    parts = re.search(r"unscaled: *(\S+), *(\S+)$", fields["synphasor.phasor"].get("showname")).groups()
    return [-32768 if part == "NAN" else int(part) for part in parts] + [
        number(fields, "synphasor.frequency_deviation_from_nominal"),
        round(100 * float(fields["synphasor.rate_change_frequency"].get("show")))]


def same_moment(fields, configured, bench):
    """Whether the SOC is the expected and the fraction less than one part of the second from the frame's."""
    time_base = number(configured, "synphasor.conf.timebase")
    rate = number(configured, "synphasor.rate_of_transmission")
    away = Fraction(number(fields, "synphasor.fracsec_raw"), time_base) - Fraction(bench.frame, rate)
    return soc_of(fields) == bench.soc and abs(away) < Fraction(1, time_base)


def line_for(fields, configured, bench):
    """The line that a frame must give, by what is printed of it and of its configuration. Where the first byte is not
    AA, nothing is printed of a frame but its length."""
    if number(fields, "udp.length") != 8 + FRAME_BYTES:
        return "refused 18"
    if "synphasor.sync" not in fields or number(fields, "synphasor.sync") != 0xAA01:
        return "refused 19"
    if number(fields, "synphasor.frsize") != FRAME_BYTES:
        return "refused 20"
    if fields["synphasor.checksum.status"].get("showname") != "Checksum Status: Good":
        return "refused 21"
    if number(fields, "synphasor.idcode_stream_source") != number(configured, "synphasor.idcode_data_source"):
        return "refused 22"
    if number(fields, "synphasor.data.status") != 0:
        return "refused 23"
    if not same_moment(fields, configured, bench):
        return "refused 24"
    return "reading %d %d %d %d %d" % (*figures_of(fields), quality_of(fields))


# ---------------------------------------------------------------------------
# The commands

def compare(program, seed=1, count=4000):
    """Compares random frames; 0 if the program says of each what the dissector does, 1 if not, 2 without it."""
    if not shutil.which(DISSECTOR):
        print("%s is not installed: it is in Debian's package tshark" % DISSECTOR, file=sys.stderr)
        return 2
    rng = random.Random(int(seed))
    benches = [any_bench(rng) for _ in range(int(count))]
    frames = [any_frame(rng, bench) for bench in benches]
    packets = dissected([data for pair in zip(map(configuration, benches), frames) for data in pair])
    expected = [line_for(fields, configured, bench)
                for configured, fields, bench in zip(packets[::2], packets[1::2], benches)]
    answers = collections.Counter(line if line.startswith("refused") else "read" for line in expected)
    print(", ".join("%d %s" % (times, answer) for answer, times in sorted(answers.items())))
    script = b"".join(frame_record(bench, data) for bench, data in zip(benches, frames))
    return compared(expected, printed_by(program, script), "frames")


def examples(directory):
    """Writes a script of a frame, a sixtieth of a second past SOC 1000, and of the judging of its figures."""
    maker = Maker(0)
    bench = Bench(60, 60, 7, 1000000, 1000, 1)
    figures = (10100, -250, -3, 12)
    maker.read(bench, frame_bytes(agreeing(bench, figures)._replace(fracsec=15 << 24 | 16667)))
    maker.judge(device=figures, reference=(10000, -250, 0, 0))
    os.makedirs(directory, exist_ok=True)
    write(os.path.join(directory, "frame.script"), b"".join(maker.records))
    write(os.path.join(directory, "frame.txt"), "".join(line + "\n" for line in maker.lines).encode("ascii"))


if __name__ == "__main__":
    dispatch(__doc__, compare, examples)
