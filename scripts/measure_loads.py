#!/usr/bin/env python3
"""Measures two programs on the loads of docs/LIMITS.md.

Usage: scripts/measure_loads.py PROGRAM OTHER

For each load and command the script prints: the processor time and the memory of PROGRAM, those of OTHER, the ratios of
PROGRAM to OTHER, and whether both answered the same. Each time is the least of seven runs, and each memory the most. The
programs run in turns, so that both find the same machine, and each run with `--write` has a folder of its own. The script
leaves nothing behind.
"""
import os
import resource
import shutil
import sys
import tempfile

from measure_families import plain_source

RUNS = 7
SOURCE_BYTES = 1_040_000


def unit_text(number, size):
    """A plain source of this size that uses a value of the unit before it."""
    before = f"U{number - 1:04}.base" if number else "0"
    return plain_source(size).replace("let base = 0", f"let base = {before}", 1)


def make_units(folder, units, size):
    for number in range(units):
        with open(os.path.join(folder, f"u{number:04}.ml"), "w", encoding="utf-8") as it:
            it.write(unit_text(number, size))


def make_versions(folder, units, size):
    """Two lists of sources: those of the folder, and the same with another name for one value of each."""
    make_units(folder, units, size)
    with open(os.path.join(folder, "old.list"), "w", encoding="utf-8") as old, \
            open(os.path.join(folder, "new.list"), "w", encoding="utf-8") as new:
        for number in range(units):
            name = f"u{number:04}.ml"
            old.write(f"{name} {name}\n")
            new.write(f"{name} u{number:04}.new\n")
            with open(os.path.join(folder, name), encoding="utf-8") as it:
                text = it.read().replace("base", "root")
            with open(os.path.join(folder, f"u{number:04}.new"), "w", encoding="utf-8") as it:
                it.write(text)


def make_source(folder):
    with open(os.path.join(folder, "a.ml"), "w", encoding="utf-8") as it:
        it.write(plain_source(SOURCE_BYTES))


LOADS = [
    ("one source, 1 MB", make_source, [
        ["check"], ["footprint", "A.base"], ["rename", "A.base", "root"], ["rename", "A.base", "root", "--write"]]),
    ("1,000 sources, 4 MB", lambda folder: make_units(folder, 1_000, 4_000), [
        ["check"], ["footprint", "U0000.base"], ["rename", "U0000.base", "root"]]),
    ("2,000 sources, 8 MB", lambda folder: make_units(folder, 2_000, 4_000), [
        ["check"], ["rename", "U0000.base", "root"], ["rename", "U0000.base", "root", "--write"]]),
    ("two versions of 1,000 sources", lambda folder: make_versions(folder, 1_000, 4_000), [
        ["verify", "old.list", "new.list"]]),
    ("none", lambda folder: None, [["sample", "500"]]),
]


def run(program, words, folder, output):
    """The seconds of the processor, the MB of memory, and the status with the output."""
    child = os.fork()
    if child == 0:
        os.chdir(folder)
        os.dup2(os.open(output, os.O_WRONLY | os.O_CREAT | os.O_TRUNC), 1)
        os.dup2(os.open("/dev/null", os.O_WRONLY), 2)
        os.execv(program, [program, *words])
    _, status, used = os.wait4(child, 0)
    with open(output, "rb") as it:
        return used.ru_utime + used.ru_stime, used.ru_maxrss / 1024, (os.waitstatus_to_exitcode(status), it.read())


def measure(programs, words, folder, top):
    """The least time and the most memory of each program, and whether they answered the same."""
    times, memory, answers = [[], []], [0, 0], [None, None]
    for _ in range(RUNS):
        for at, program in enumerate(programs):
            place = folder
            if "--write" in words:
                place = os.path.join(top, "copy")
                shutil.rmtree(place, ignore_errors=True)
                shutil.copytree(folder, place)
            seconds, used, answers[at] = run(program, words, place, os.path.join(top, "output"))
            times[at].append(seconds)
            memory[at] = max(memory[at], used)
    return [min(them) for them in times], memory, answers[0] == answers[1], answers[0][0]


def main():
    if len(sys.argv) != 3:
        sys.exit(__doc__)
    programs = [os.path.abspath(word) for word in sys.argv[1:]]
    for name, make, commands in LOADS:
        with tempfile.TemporaryDirectory() as top:
            folder = os.path.join(top, "folder")
            os.mkdir(folder)
            make(folder)
            for words in commands:
                (one, other), (used, others), same, status = measure(programs, words, folder, top)
                print(
                    f"{name} | {' '.join(words)} | {one:.3f} s, {used:.0f} MB | {other:.3f} s, {others:.0f} MB | "
                    f"{one / other:.2f} of the time, {used / others:.2f} of the memory | status {status}, {'same' if same else 'DIFFERENT'}",
                    flush=True)


if __name__ == "__main__":
    main()
