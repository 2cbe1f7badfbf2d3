"""The programs on emulated processors of several makers and ages, compared with the model.

compare REPLAY LISTING  runs both programs on each processor; it needs qemu-x86_64, of Debian's package qemu-user
"""

import contextlib
import io
import shutil
import sys

import files
import scripts
import windows
from commands import compared_on, dispatch

EMULATOR = "qemu-x86_64"

# one of the least; Intel, from 2006 to 2015; AMD, from 2003 to 2017; one with all that the emulator has
PROCESSORS = ("qemu64", "Conroe", "Nehalem", "SandyBridge", "Haswell", "Skylake-Client",
              "Opteron_G1", "Opteron_G3", "EPYC", "max")

SEED, CALLS = 1, 20000


def on(processor, program):
    """The command that runs a program on a processor, less the instructions that the emulator lacks."""
    return "%s -cpu %s,check=off %s" % (EMULATOR, processor, program)


def runs(replay, listing):
    """What is run on each processor: a function of the processor, 0 if it agrees, else 1."""
    window_script, window_lines = windows.script_and_lines()
    maker = scripts.made(SEED, CALLS)
    listed = files.with_listings(files.stored_files())
    return (
        lambda processor: compared_on(on(processor, replay), window_script, window_lines, "windows"),
        lambda processor: compared_on(on(processor, replay), b"".join(maker.records), maker.lines, "lines"),
        lambda processor: files.compared_in_pieces(on(processor, listing), listed),
    )


def agrees(processor, made_runs):
    """Whether a processor agrees in each run; says so in a line, or shows the first few differences."""
    said = io.StringIO()
    with contextlib.redirect_stdout(said):
        differing = [run for run in made_runs if run(processor) != 0]
    if differing:
        print("%s differs\n%s" % (processor, said.getvalue()), end="", flush=True)
    else:
        print("%s: %s" % (processor, ", ".join(said.getvalue().splitlines())), flush=True)
    return not differing


def compare(replay, listing):
    """Runs both programs on each processor; 0 if all agree, 1 if not, 2 without the emulator."""
    if not shutil.which(EMULATOR):
        print("%s is not installed: it is in Debian's package qemu-user" % EMULATOR, file=sys.stderr)
        return 2
    made_runs = runs(replay, listing)
    agreeing = sum(agrees(processor, made_runs) for processor in PROCESSORS)
    print("%d of %d processors agree" % (agreeing, len(PROCESSORS)))
    return 0 if agreeing == len(PROCESSORS) else 1


if __name__ == "__main__":
    dispatch(__doc__, compare)
