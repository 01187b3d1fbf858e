"""Runs the program on scripts, and tells the processor time and the memory that it takes. PVPSIM names a program to be run in place of
./pvpsim.
"""
import os
import subprocess
import sys
import tempfile
from typing import NamedTuple

ROOT = os.path.dirname(os.path.dirname(os.path.abspath(__file__)))
SETUP = os.path.join(ROOT, "examples", "first", "setup.json")


class Taken(NamedTuple):
    """What a run took."""

    seconds: float  # of processors, the least of several runs
    megabytes: float  # at most at once. What is less than this Python takes is told as that


def program():
    """The program itself, so that what ./pvpsim takes to find it is not counted."""
    if "PVPSIM" in os.environ:
        return os.environ["PVPSIM"]
    found = subprocess.run([os.path.join(ROOT, ".ci", "program"), "path"], stdout=subprocess.PIPE, text=True)
    if found.returncode:
        sys.exit("no program can be had; PVPSIM may name one")
    return found.stdout.strip()


PROGRAM = program()


def once(*words):
    """What one run of the program takes, and the last line that it prints."""
    with tempfile.TemporaryFile() as output:
        started = subprocess.Popen([PROGRAM, *words], stdin=subprocess.DEVNULL, stdout=output)
        _, status, usage = os.wait4(started.pid, 0)
        started.returncode = os.waitstatus_to_exitcode(status)
        if started.returncode:
            sys.exit(f"{words[0]} ended with {started.returncode}")
        output.seek(0)
        last = output.read().rstrip(b"\n").rpartition(b"\n")[2].decode()
    return Taken(usage.ru_utime + usage.ru_stime, usage.ru_maxrss / 1024), last


def taken(request, rows, runs, setup=SETUP):
    """What a script takes, the least of several runs."""
    with tempfile.NamedTemporaryFile("w", suffix=".txt") as script:
        script.write("".join(row + "\n" for row in rows))
        script.flush()
        each = [once(request, setup, script.name)[0] for _ in range(runs)]
    return Taken(*map(min, zip(*each)))


def ratio(one, other):
    """How many times as much the one is; the times of short runs are too coarse for it."""
    return f"{one / other:.2f}" if other > 0.002 else "-"


def tell_growth(name, took, counts):
    """Prints what scripts of growing length take, with the ratio of each time to that of the one before, if that is half as long."""
    before = {}
    for count in counts:
        it = before[count] = took(count)
        beside = f", {ratio(it.seconds, before[count // 2].seconds)} times that of {count // 2}" if count // 2 in before else ""
        print(f"{name} {count}: {it.seconds:.3f} s, {it.megabytes:.0f} MB, {1e6 * it.seconds / count:.2f} us each{beside}", flush=True)
