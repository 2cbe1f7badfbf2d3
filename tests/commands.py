"""The command line of the tests: programs run on bytes, and what they write compared."""

import inspect
import shlex
import subprocess
import sys

SHOWN = 5


def printed_by(program, data):
    """The lines that a program prints for the bytes on its standard input."""
    run = subprocess.run(shlex.split(program), input=data, stdout=subprocess.PIPE)
    return run.stdout.decode("ascii", "replace").splitlines()


def feed(program, data, size, output, errors=None):
    """Runs a program whose input comes through a pipe in pieces of a size; what it writes goes to files."""
    run = subprocess.Popen(shlex.split(program), stdin=subprocess.PIPE, stdout=output, stderr=errors, bufsize=0)
    try:
        for at in range(0, len(data), size):
            run.stdin.write(data[at:at + size])
    except BrokenPipeError:
        pass  # a program that has refused need not read on
    run.stdin.close()
    run.wait()


def compared(expected, printed, things):
    """Shows the first few differences and says how many agree: 0 if all and no more, else 1."""
    differing = [n for n, (wanted, line) in enumerate(zip(expected, printed)) if wanted != line]
    for n in differing[:SHOWN]:
        print("%d\n  expected %s\n  printed  %s" % (n + 1, expected[n], printed[n]))
    if len(expected) != len(printed):
        print("%d lines expected, %d printed" % (len(expected), len(printed)))
    agreed = min(len(expected), len(printed)) - len(differing)
    print("%d of %d %s agree" % (agreed, len(expected), things))
    return 0 if agreed == len(expected) == len(printed) else 1


def compared_on(program, data, expected, things):
    """Runs a program on bytes and compares the lines that it prints: 0 if all agree, else 1."""
    return compared(expected, printed_by(program, data), things)


def tallied(outcomes, saying):
    """Shows the first few that fail and says how many do not: 0 if none fails, else 1. An outcome is whether it holds,
    and what is shown where it does not."""
    tried = 0
    failing = 0
    for holds, shown in outcomes:
        tried += 1
        if not holds:
            failing += 1
            if failing <= SHOWN:
                print(shown)
    print(saying % (tried - failing, tried))
    return 0 if failing == 0 else 1


def dispatch(usage, *commands):
    """Runs the command that the command line names; what it answers is the exit status."""
    named = {command.__name__: command for command in commands}
    name, *arguments = sys.argv[1:] or [""]
    try:
        inspect.signature(named[name]).bind(*arguments)
    except (KeyError, TypeError):
        sys.exit(usage)
    sys.exit(named[name](*arguments))
