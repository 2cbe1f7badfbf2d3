"""The replay program on the model: a script on standard input, a line for each answer.

All numbers of a script are big-endian. A bank call lends the first bytes of a memory of 8192.
"""

import struct
import sys

from lines import answer_line
from reference import (
    Device, Reference, clear, close, judge, open_feed, push, read_frame, salvage, slot_bytes, whole_run)

MEMORY_BYTES = 8192
SLOTS_SHOWN = 32
BAD_RECORD = "bad record"

ARGUMENTS = {
    b"C": ">H",
    b"O": ">HBBBI",
    b"P": ">HBhhh",
    b"X": ">HB",
    b"M": ">H",
    b"S": ">HB",
    b"D": ">B",
    b"W": ">BIBBB",
    b"J": ">BBihhhhhhii",
    b"F": ">BBHIIIB",
}


class BadRecord(Exception):
    """A record that is cut short, or whose byte is unknown."""


class Script:
    """A script and the place up to which it is read."""

    def __init__(self, data):
        self.data = data
        self.at = 0

    def ended(self):
        """The script ends with the input."""
        return self.at == len(self.data)

    def take(self, count):
        """The next bytes; a record that has fewer is cut short."""
        if self.at + count > len(self.data):
            raise BadRecord
        self.at += count
        return self.data[self.at - count:self.at]

    def numbers(self, form):
        """The next numbers, of a struct form."""
        return struct.unpack(form, self.take(struct.calcsize(form)))


def new_memory():
    """8192 bytes, all zero."""
    return bytearray(MEMORY_BYTES)


def on_bank(memory, length, call, *arguments):
    """The answer of a bank call that is lent the first bytes of the memory."""
    lent = memory[:length]
    answer = call(lent, *arguments)
    memory[:len(lent)] = lent
    return answer_line(answer)


def set_byte(memory, at, value):
    """Nothing where at is 8192 or more."""
    if at < MEMORY_BYTES:
        memory[at] = value


def shown_slot(memory, slot):
    """The hexadecimal digits of a slot; no line for slots that are not below 32."""
    if slot >= SLOTS_SHOWN:
        return None
    return "bytes " + slot_bytes(memory, slot).hex()


def run(script, nominal, centre, *lengths):
    """The whole run, whose samples follow the lengths."""
    a, b, c = [script.numbers(">%dh" % length) for length in lengths]
    return answer_line(whole_run(a, b, c, centre, nominal))


def verdict(class_, test, m, *numbers):
    """The judging, the device's four numbers before the reference's four."""
    return answer_line(judge(class_, test, m, Device(*numbers[:4]), Reference(*numbers[4:])))


def reading(script, *numbers):
    """The reading of a frame, whose bytes follow the bench's numbers and the length."""
    *bench, length = numbers
    return answer_line(read_frame(script.take(length), *bench))


def answer(script, memory):
    """The line of the next record, or None where it has none."""
    letter = script.take(1)
    if letter not in ARGUMENTS:
        raise BadRecord
    arguments = script.numbers(ARGUMENTS[letter])
    if letter == b"S":
        return set_byte(memory, *arguments)
    if letter == b"D":
        return shown_slot(memory, *arguments)
    if letter == b"W":
        return run(script, *arguments)
    if letter == b"J":
        return verdict(*arguments)
    if letter == b"F":
        return reading(script, *arguments)
    length, *rest = arguments
    call = {b"C": clear, b"O": open_feed, b"P": push, b"X": close, b"M": salvage}[letter]
    return on_bank(memory, length, call, *rest)


def replay(data, memory):
    """The lines that a script prints, on a memory that it alters."""
    script = Script(data)
    lines = []
    try:
        while not script.ended():
            line = answer(script, memory)
            if line is not None:
                lines.append(line)
    except BadRecord:
        lines.append(BAD_RECORD)
    return lines


def main():
    """Prints the lines of the script on standard input."""
    for line in replay(sys.stdin.buffer.read(), new_memory()):
        print(line)


if __name__ == "__main__":
    main()
