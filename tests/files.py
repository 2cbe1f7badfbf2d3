"""PHS files, and the listings that the model gives for them.

make SEED COUNT DIR           writes NNN.phs and its listing NNN.txt
compare PROGRAM [SEED COUNT]  feeds such files to the program in pieces and compares its listings
examples DIR                  writes a few short example files and their listings
gate FILE LISTING             writes the file that the gate runs `listing` on, and its listing
stored DIR LISTINGS           writes the files that the gate runs `listings` on, and the text of all their listings
"""

import os
import random
import struct
import tempfile

from centres import one_at_the_edge
from commands import dispatch, feed, tallied
from inputs import any_sample, any_stretch, dead_in_between, dead_noise, opening_pairs, sample_at, steady_wave
from reference import (
    HEADER_BYTES, LAST_SOC, SERVED, VERSIONS, cos, kept_rate, listing, passed_rate, sampling)

PIECES = (None, 1, 4095, 65537)
AMPLITUDE = 20000


# ---------------------------------------------------------------------------
# The bytes of a file

def header(nominal, rate, soc=1000, mark=b"PHS", version=1):
    """The 11 bytes of a header."""
    return struct.pack(">3sHBBI", mark, version, nominal, rate, soc)


def body(samples):
    """6 bytes a sample."""
    return b"".join(struct.pack(">hhh", *sample) for sample in samples)


def any_soc(rng):
    """A SOC, often at either end."""
    return rng.choice((0, 1, LAST_SOC - 1, LAST_SOC, rng.randint(0, LAST_SOC)))


def any_body(rng, nominal, count):
    """The bytes of so many samples: a wave, anything, noise or a dead feeder, in turn where they are many."""
    stretches = [any_stretch(rng, nominal, min(300, count - at)) for at in range(0, count, 300)]
    return b"".join(map(body, stretches))


# ---------------------------------------------------------------------------
# Both sides of each edge, one file each

def wrong_headers():
    """Headers with one fault, and with two or more of which the first in order is refused."""
    for mark in (b"phs", b"QHS", b"PIS", b"PHT", b"SHP", b"\0\0\0"):
        yield header(60, 60, mark=mark)
    for version in (0, 3, 4, 255, 256, 257, 258, 512, 513, 65535):
        yield header(60, 0, version=version)
    for version in VERSIONS:
        for nominal in (0, 49, 51, 59, 61, 255):
            yield header(nominal, 0, version=version)
        for nominal, rates in SERVED.items():
            beside = {rate + change for rate in (0,) + rates for change in (-1, 1)} & set(range(256))
            of_any = {rate for served in SERVED.values() for rate in served}
            for rate in sorted((beside | of_any | {255}) - set(rates) - {0}):
                yield header(nominal, rate, version=version)
        yield header(51, 11, version=version)
    yield header(51, 11, mark=b"PHT", version=3)
    yield header(51, 11, version=3)


def cut_headers():
    """Fewer than 11 bytes, of a sound header and of a wrong one."""
    for length in range(11):
        yield header(60, 60)[:length]
    yield header(51, 11, mark=b"PHT", version=3)[:10]


def cut_samples():
    """Part of a sample, the first of a file and the one with which a report would come."""
    samples = body([(1, 2, 3)] * 31)
    for length in (1, 2, 3, 4, 5):
        yield header(60, 60) + samples[:length]
        yield header(50, 50) + samples[:30 * 6 + length]


def last_seconds():
    """About the last sample of the last second, whole and in part."""
    for nominal in SERVED:
        samples = body([(n, -n, 5) for n in range(sampling(nominal) + 1)])
        for length in (-12, -6, -5, -1, 0, 1, 6):
            yield header(nominal, nominal, LAST_SOC) + samples[:sampling(nominal) * 6 + length]


def bare_headers():
    """A header and no sample, of each version, at every nominal and rate that it may give."""
    for version in VERSIONS:
        for nominal, rate in opening_pairs():
            yield header(nominal, rate, version=version)


def dead_feeder(nominal, rate, seconds, *amplitudes):
    """The leads are off: noise of each of these amplitudes, one after the other."""
    rng = random.Random(5)
    count = int(seconds * sampling(nominal)) // len(amplitudes)
    return header(nominal, rate) + body([sample for most in amplitudes for sample in dead_noise(rng, count, most)])


def dies_and_comes_back(nominal, rate, seconds):
    """The nominal frequency, but noise of two counts in the second third."""
    wave = steady_wave(nominal, nominal, AMPLITUDE, int(seconds * sampling(nominal)) // 3 * 3)
    return header(nominal, rate) + body(dead_in_between(random.Random(6), wave))


def edge_cases():
    """Each centre at both sides of the edge of phase, each part and sign, at the centres of reports."""
    return list(one_at_the_edge(random.Random(2015), (0,)))


def edge_of_phase():
    """The cases as reports 45 samples apart, one after the other; no report sees the samples between their windows."""
    rng = random.Random(2016)
    samples = [any_sample(rng) for _ in range(16)]
    for case in edge_cases():
        samples += [any_sample(rng) for _ in range(14)] + case.samples
    return header(60, 20) + body(samples)


def phases():
    """Dead feeders, and both sides of the edge of phase."""
    yield dead_feeder(60, 10, 1, 0, 1, 2, 3)
    yield dies_and_comes_back(50, 25, 1)
    yield edge_of_phase()


def edges():
    """Every file of the makers above."""
    return [data for maker in (wrong_headers, cut_headers, cut_samples, last_seconds, bare_headers, phases)
            for data in maker()]


# ---------------------------------------------------------------------------
# Random files

def any_opening(rng):
    """A version, and a nominal and rate that it may give."""
    return rng.choice(VERSIONS), *rng.choice(opening_pairs())


def sound(rng):
    """A sound file of up to 300 samples."""
    version, nominal, rate = any_opening(rng)
    return header(nominal, rate, any_soc(rng), version=version) + any_body(rng, nominal, rng.randint(0, 300))


def about_the_first_report(rng):
    """A sound file that ends about the first sample with which a report comes."""
    version, nominal, rate = any_opening(rng)
    first = max(30, sampling(nominal) // kept_rate(nominal, passed_rate(version, rate)) + 15)
    samples = any_body(rng, nominal, first + rng.randint(-1, 2))
    return header(nominal, rate, any_soc(rng), version=version) + samples


def over_a_second(rng):
    """A sound file that passes the turn of the second."""
    version, nominal, rate = any_opening(rng)
    samples = any_body(rng, nominal, sampling(nominal) + rng.randint(-2, 100))
    return header(nominal, rate, rng.choice((0, 1000, LAST_SOC - 1)), version=version) + samples


def to_the_last_second(rng):
    """A file that ends about the last sample of the last second."""
    version, nominal, rate = any_opening(rng)
    seconds = rng.choice((1, 1, 2))
    count = seconds * sampling(nominal) + rng.choice((-2, -1, 0, 1, 30))
    rest = rng.randbytes(rng.choice((0, 0, 1, 5)))
    return header(nominal, rate, LAST_SOC + 1 - seconds, version=version) + any_body(rng, nominal, count) + rest


def cut_in_a_sample(rng):
    """1 to 5 bytes after the last whole sample."""
    return sound(rng) + rng.randbytes(rng.randint(1, 5))


def with_a_changed_byte(rng):
    """A sound file with any byte of the header changed."""
    data = bytearray(sound(rng))
    data[rng.randrange(HEADER_BYTES)] = rng.randrange(256)
    return bytes(data)


def cut_anywhere(rng):
    """A sound file cut at any byte."""
    data = sound(rng)
    return data[:rng.randint(0, len(data))]


def over_many_pieces(rng):
    """A sound file longer than 65537 bytes."""
    version, nominal, rate = any_opening(rng)
    return header(nominal, rate, version=version) + any_body(rng, nominal, rng.randint(10930, 11500))


KINDS = (sound, about_the_first_report, over_a_second, to_the_last_second, cut_in_a_sample,
         with_a_changed_byte, cut_anywhere)
LONG_EVERY = 50


def any_file(rng, n):
    """The random file of a number, the kinds in turn."""
    kind = over_many_pieces if n % LONG_EVERY == LONG_EVERY - 1 else KINDS[n % len(KINDS)]
    return kind(rng)


def files(seed, count):
    """So many files: an edge and a random one in turn, then random ones."""
    rng = random.Random(seed)
    in_turn = [data for n, edge in enumerate(edges()) for data in (edge, any_file(rng, n))][:count]
    return in_turn + [any_file(rng, n) for n in range(count - len(in_turn))]


# ---------------------------------------------------------------------------
# Examples

def steady(nominal, rate, seconds):
    """The nominal frequency throughout."""
    return off_nominal(nominal, rate, seconds, 0)


def off_nominal(nominal, rate, seconds, deviation, version=1):
    """A frequency beside the nominal throughout."""
    samples = steady_wave(nominal, nominal + deviation, AMPLITUDE, int(seconds * sampling(nominal)))
    return header(nominal, rate, version=version) + body(samples)


def ramp(nominal, rate, seconds, slope):
    """A frequency that leaves the nominal by so many Hz a second."""
    times = [n / sampling(nominal) for n in range(int(seconds * sampling(nominal)))]
    samples = [sample_at(nominal * t + slope * t * t / 2, AMPLITUDE) for t in times]
    return header(nominal, rate) + body(samples)


def step(nominal, rate, seconds, factor, turns):
    """A step of amplitude and angle in the middle."""
    count = int(seconds * sampling(nominal))
    before = steady_wave(nominal, nominal, AMPLITUDE, count)[:count // 2]
    after = steady_wave(nominal, nominal, AMPLITUDE * factor, count, turns)[count // 2:]
    return header(nominal, rate) + body(before + after)


def document():
    """The file of document 01's whole listing: 31 samples of the cosine table at 60 Hz."""
    return header(60, 60) + body([(cos(n), cos(n - 5), cos(n - 10)) for n in range(31)])


def example_files():
    """The examples by name."""
    return {
        "document": document(),
        "steady": steady(50, 50, 0.4),
        "off_nominal": off_nominal(60, 30, 0.5, -0.75),
        "ramp": ramp(50, 25, 1, 1.0),
        "step": step(60, 60, 0.5, 1.1, 1 / 36),
        "cut_short": steady(60, 10, 0.4)[:-2],
        "rate_0_version_1": off_nominal(50, 0, 0.3, 0.5, version=1),
        "rate_0_version_2": off_nominal(50, 0, 0.3, 0.5, version=2),
        "dead_feeder": dead_feeder(50, 50, 0.3, 2),
        "dies_and_comes_back": dies_and_comes_back(60, 30, 0.7),
    }


# ---------------------------------------------------------------------------
# The files that the gate runs the programs on

# `listings` lists each file once with each pair: the bytes of its input buffer and of its output buffer
BUFFERS = ((65536, 65536), (7, 256), (65536, 256))

# then, each by a word: no file to read; no place to write a refusal or the last line to; no byte of input; an output of 255 bytes
ENDINGS = (b"unread\n", b"unwritten\n", b"unwritten\n", b"no room\n", b"no room\n")


def gone_on_with(seed, data, nominal, length):
    """A file gone on with to so many bytes or more: waves, noise, dead feeders and silence. Each read of 65536 bytes
    ends inside a sample."""
    rng = random.Random(seed)
    while len(data) < length:
        count = rng.randint(40, 400)
        data += body(rng.choice((any_stretch(rng, nominal, count), any_stretch(rng, nominal, count),
                                 dead_noise(rng, count), [(0, 0, 0)] * count)))
    return data


def gate_file():
    """The document's file gone on with, over two reads of 65536 bytes."""
    return gone_on_with(2011, document(), 60, 132000)


def stored_files():
    """The files that `listings` lists, by name, in its order."""
    samples = body(steady_wave(60, 60.5, AMPLITUDE, 200))
    return {
        # refused 14, 14, 12, 6, 7, and four times 13; whole headers have samples after them
        "empty": b"",
        "header_cut": header(60, 60)[:10],
        "mark_wrong": header(60, 60, mark=b"PHT") + samples,
        "nominal_wrong": header(51, 10) + samples,
        "rate_wrong": header(60, 50, version=2) + samples,
        "version_0": header(51, 11, version=0) + samples,
        "version_3": header(60, 0, version=3) + samples,
        "version_256": header(60, 60, version=256) + samples,
        "version_258": header(60, 0, version=258) + samples,
        # sound; the waves pass the turn of a second
        "header_only": header(50, 10),
        "fifty": off_nominal(50, 25, 1.2, 0.37),
        "sixty": off_nominal(60, 10, 1.2, -1.25),
        # rate 0 at both nominals in both versions
        "fifty_rate_0_version_1": off_nominal(50, 0, 0.4, 0.25, version=1),
        "sixty_rate_0_version_1": off_nominal(60, 0, 0.4, 0.25, version=1),
        "fifty_rate_0_version_2": off_nominal(50, 0, 0.4, 0.25, version=2),
        "sixty_rate_0_version_2": off_nominal(60, 0, 0.4, 0.25, version=2),
        # no phase, and both sides of the edge of phase
        "dead": dead_feeder(50, 50, 0.6, 1, 2),
        "edge_of_phase": edge_of_phase(),
        # refused 15, and 8 with more than 65536 bytes after it
        "sample_cut": ramp(60, 30, 0.4, 2.0)[:-3],
        "last_second": header(60, 60, LAST_SOC) + body(steady_wave(60, 59.5, AMPLITUDE, 12000)),
        # over several reads, sound, and of version 2 refused 15
        "long": gone_on_with(2012, header(50, 50), 50, 400000),
        "long_cut": gone_on_with(2013, header(60, 20, version=2), 60, 200000)[:-1],
    }


def listed_in_turn(named_files):
    """The text that `listings` prints: each file's name, then its listing once for each pair of buffers; last the endings."""
    return b"".join(name.encode("ascii") + b".phs\n" + listing(data) * len(BUFFERS)
                    for name, data in named_files.items()) + b"".join(ENDINGS)


# ---------------------------------------------------------------------------
# Commands

def write(path, content):
    """Writes the bytes of a file."""
    with open(path, "wb") as file:
        file.write(content)


def write_files(directory, named_files):
    """Writes each file as NAME.phs."""
    os.makedirs(directory, exist_ok=True)
    for name, data in named_files.items():
        write(os.path.join(directory, name + ".phs"), data)


def write_listings(directory, named_files):
    """Writes the listing of each file as NAME.txt."""
    for name, data in named_files.items():
        write(os.path.join(directory, name + ".txt"), listing(data))


def numbered_files(seed, count):
    """So many files, by number."""
    return {"%03d" % n: data for n, data in enumerate(files(int(seed), int(count)))}


def make(seed, count, directory):
    """Writes so many files and their listings."""
    named = numbered_files(seed, count)
    write_files(directory, named)
    write_listings(directory, named)


def examples(directory):
    """Writes the example files and their listings."""
    named = example_files()
    write_files(directory, named)
    write_listings(directory, named)


def gate(file_name, listing_name):
    """Writes the file of the gate and its listing."""
    data = gate_file()
    write(file_name, data)
    write(listing_name, listing(data))


def stored(directory, listings_name):
    """Writes the stored files and the text of all their listings."""
    named = stored_files()
    write_files(directory, named)
    write(listings_name, listed_in_turn(named))


def printed_by(program, data, size):
    """What the program prints when the bytes come through a pipe in pieces of a size."""
    with tempfile.TemporaryFile() as output:
        feed(program, data, size, output)
        output.seek(0)
        return output.read()


def with_listings(named_files):
    """Each file's name, its bytes and its listing."""
    return [(name, data, listing(data)) for name, data in named_files.items()]


def in_pieces(program, listed):
    """Whether the program prints each file's listing, for pieces of each size, and what to show where it does not."""
    for name, data, expected in listed:
        for size in PIECES:
            printed = printed_by(program, data, size or max(1, len(data)))
            yield printed == expected, ("file %s in pieces of %s\n  expected %r\n  printed  %r"
                                        % (name, size or "any size", expected[-200:], printed[-200:]))


def compared_in_pieces(program, listed):
    """Feeds files to the program in pieces; 0 if it prints each one's listing, else 1."""
    return tallied(in_pieces(program, listed), "%d of %d listings agree")


def compare(program, seed=1, count=320):
    """Feeds so many files to the program; 0 if every listing agrees, else 1."""
    return compared_in_pieces(program, with_listings(numbered_files(seed, count)))


if __name__ == "__main__":
    dispatch(__doc__, make, compare, examples, gate, stored)
