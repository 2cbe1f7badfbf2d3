"""Scripts for the replay program, and the lines that the model gives for them.

make SEED CALLS SCRIPT EXPECTED [unknown|cut]  writes a script of at least so many records, and its
                                               lines; it ends in an unknown byte or a cut record
compare PROGRAM SEED CALLS                     runs the program on such a script
pieces PROGRAM SEED CALLS                      the same, the script coming in pieces through a pipe
endings PROGRAM                                runs it on short scripts of every malformed ending
"""

import collections

from angle_scenes import ANGLE_SCENES
from commands import compared, compared_on, dispatch, printed_by
from files import PIECES, printed_by as printed_in_pieces
from frame_scenes import BENCH, FRAME_SCENES
from maker import Maker, agreeing, frame_bytes, frame_record, record, run_record
from phase_scenes import PHASE_SCENES
from reference import CLOSED, SOUND, TRIMMED
from replay import ARGUMENTS, new_memory, replay
from scenes import SCENES
from traffic import any_traffic

REFUSALS_REACHED = {1, 2, 3, 4, 5, 6, 7, 8, 9, 10, 11, 16, 17, 18, 19, 20, 21, 22, 23, 24, 36}
FATES_REACHED = {SOUND, TRIMMED, CLOSED}


# ---------------------------------------------------------------------------
# Malformed endings

def every_record():
    """One record of each kind."""
    return [record(b"C", 4096), record(b"O", 4096, 0, 60, 60, 1000), record(b"P", 4096, 0, 1, 2, 3),
            record(b"X", 4096, 0), record(b"S", 1, 1), record(b"M", 4096), record(b"D", 0),
            record(b"J", 0, 0, 3, 1, 0, 0, 0, 1, 0, 0, 0), run_record(60, 15, [[1, 2, 3]] * 3),
            frame_record(BENCH, frame_bytes(agreeing(BENCH)))]


def cut_endings():
    """Every record, cut short at every place."""
    return [data[:length] for data in every_record() for length in range(1, len(data))]


def unknown_endings():
    """Every unknown byte, before a record that is not run."""
    return [bytes([byte]) + record(b"D", 0) for byte in range(256) if bytes([byte]) not in ARGUMENTS]


ENDINGS = {"cut": cut_endings, "unknown": unknown_endings}


# ---------------------------------------------------------------------------
# Commands

def made(seed, calls, ending=None):
    """A script that reaches every edge and then goes on at random."""
    maker = Maker(seed)
    for scene in SCENES + PHASE_SCENES + ANGLE_SCENES + FRAME_SCENES:
        scene(maker)
    any_traffic(maker, calls)
    if ending:
        maker.add(maker.rng.choice(ENDINGS[ending]()))
    return maker


def named_answers(line):
    """The answers of a line: a refusal by its number, a salvage by the word of each slot, the others by their first
    word."""
    first, *rest = line.split()
    if first == "refused":
        return [line]
    if first == "mended":
        return ["mended " + fate.split("/")[0] for fate in rest]
    return [first]


def counts(lines):
    """How often each answer is given."""
    return collections.Counter(answer for line in lines for answer in named_answers(line))


def make(seed, calls, script_path, expected_path, ending=None):
    """Writes the script and its lines, and prints how often each answer is given."""
    maker = made(int(seed), int(calls), ending)
    answers = counts(maker.lines)
    assert all(answers["refused %d" % number] for number in REFUSALS_REACHED)
    assert all(answers["mended " + word] for word in FATES_REACHED)
    with open(script_path, "wb") as file:
        file.writelines(maker.records)
    with open(expected_path, "w") as file:
        file.writelines(line + "\n" for line in maker.lines)
    print("%d records, %d lines" % (len(maker.records), len(maker.lines)))
    for answer, count in sorted(answers.items()):
        print("%7d %s" % (count, answer))


def compare(program, seed, calls):
    """Runs the program on a script; 0 if every line agrees, else 1."""
    maker = made(int(seed), int(calls))
    return compared_on(program, b"".join(maker.records), maker.lines, "lines")


def pieces(program, seed, calls):
    """Feeds a script to the program in pieces of each size; 0 if every line agrees, else 1."""
    maker = made(int(seed), int(calls))
    script = b"".join(maker.records)
    printed = [printed_in_pieces(program, script, size or len(script)) for size in PIECES]
    lines = [line for text in printed for line in text.decode("ascii", "replace").splitlines()]
    return compared(maker.lines * len(PIECES), lines, "lines")


def endings(program):
    """Runs the program on every malformed ending; 0 if all agree, else 1."""
    start = b"".join(every_record())
    scripts = [start + ending for endings_of in ENDINGS.values() for ending in endings_of()]
    expected = ["; ".join(replay(script, new_memory())) for script in scripts]
    printed = ["; ".join(printed_by(program, script)) for script in scripts]
    return compared(expected, printed, "endings")


if __name__ == "__main__":
    dispatch(__doc__, make, compare, pieces, endings)
