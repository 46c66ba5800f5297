#!/usr/bin/env python3
"""Measures what the writes of a renaming cost on this disk.

Usage: scripts/measure_writes.py PROGRAM [FOLDER]

For 1, 100 and 1,000 sources, all of which change, the script prints the seconds of `rename` without --write, with --write
to a name of the same length and to a longer one, and of a plain program that only opens, writes and syncs the same files
once and twice. The sources are in a folder of their own inside FOLDER (the system's folder for temporary files), which is
removed. Each figure is the least of three runs.
"""
import os
import shutil
import subprocess
import sys
import tempfile
import time

COUNTS = (1, 100, 1_000)
RUNS = 3


def make(top, count):
    shutil.rmtree(top, ignore_errors=True)
    os.makedirs(top)
    with open(os.path.join(top, "a.ml"), "w", encoding="utf-8") as it:
        it.write("let x = 1\n")
    for number in range(count - 1):
        with open(os.path.join(top, f"u{number}.ml"), "w", encoding="utf-8") as it:
            it.write("let v = A.x\n")
    os.sync()


def seconds(call):
    begun = time.time()
    call()
    return time.time() - begun


def run(program, top, words):
    subprocess.run([program, *words], cwd=top, stdout=subprocess.DEVNULL, check=True)


def sync_files(top, times):
    for name in os.listdir(top):
        with open(os.path.join(top, name), "r+b", buffering=0) as it:
            text = it.read()
            for _ in range(times):
                it.seek(0)
                it.write(text)
                os.fsync(it.fileno())


def least(top, count, call):
    found = []
    for _ in range(RUNS):
        make(top, count)
        found.append(seconds(call))
    return min(found)


def main():
    if len(sys.argv) not in (2, 3):
        sys.exit(__doc__)
    program = os.path.abspath(sys.argv[1])
    with tempfile.TemporaryDirectory(dir=sys.argv[2] if sys.argv[2:] else None) as made:
        top = os.path.join(made, "sources")
        print("files | plan alone | same length | longer name | 1 sync a file | 2 syncs a file")
        for count in COUNTS:
            figures = [
                least(top, count, lambda: run(program, top, ["rename", "A.x", "y"])),
                least(top, count, lambda: run(program, top, ["rename", "A.x", "y", "--write"])),
                least(top, count, lambda: run(program, top, ["rename", "A.x", "longer", "--write"])),
                least(top, count, lambda: sync_files(top, 1)),
                least(top, count, lambda: sync_files(top, 2)),
            ]
            print(" | ".join([str(count), *(f"{figure:.3f} s" for figure in figures)]), flush=True)


if __name__ == "__main__":
    main()
