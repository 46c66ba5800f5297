#!/usr/bin/env python3
"""Writes docs/wrong_bodies.txt, the list of the wrong bodies, from their files, or with --check says whether it differs.

Usage: scripts/body_table.py [--check]

A line has the crate, what tries the body (the gate, or scripts/try_plants.sh), the name of its file in words, and the file
that it changes.
"""
import glob
import os
import re
import sys

PAGE = "docs/wrong_bodies.txt"
TRIED_BY = {"must-fail": "gate", "plants": "plants"}


def read(path):
    with open(path, encoding="utf-8") as it:
        return it.read()


def body(path, crate, tried_by):
    words = os.path.basename(path).removesuffix(".edit").replace("_", " ")
    changed = ", ".join(re.findall(r"^file: (.*)$", read(path), re.M))
    return crate, tried_by, words, changed


def bodies():
    for path in glob.glob("crates/*/must-fail/*.edit"):
        yield body(path, path.split("/")[1], TRIED_BY["must-fail"])
    for path in glob.glob("plants/*/*.edit"):
        yield body(path, path.split("/")[1], TRIED_BY["plants"])


def table():
    rows = [("crate", "tried by", "wrong body", "file"), *sorted(bodies())]
    widths = [max(len(row[at]) for row in rows) for at in range(4)]
    lines = ["  ".join(cell.ljust(width) for cell, width in zip(row, widths)).rstrip() for row in rows]
    return "\n".join(["Wrong bodies that the prover has to refuse; scripts/body_table.py writes this list.", "", *lines]) + "\n"


def main():
    os.chdir(os.path.dirname(os.path.dirname(os.path.abspath(__file__))))
    written = table()
    if os.path.exists(PAGE) and read(PAGE) == written:
        return 0
    if "--check" in sys.argv:
        print(f"{PAGE}: the list differs from the files: run scripts/body_table.py")
        return 1
    with open(PAGE, "w", encoding="utf-8") as it:
        it.write(written)
    return 0


sys.exit(main())
