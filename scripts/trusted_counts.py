#!/usr/bin/env python3
"""Writes the counts of lines in docs/TRUSTED.md, or with --check says whether one differs.

Usage: scripts/trusted_counts.py [--check]

The definitions that the contract of `rotor` rests on are the files of specs/ that its definitions reach by their `use`
lines. The table of the page has to list each of them, with its number of lines. A file of lexeme_laws may be listed too,
since a reader can take it in place of the lexer's definitions.
"""
import glob
import os
import re
import sys

PAGE = "docs/TRUSTED.md"
# the definitions that the clauses of `rotor` and the law of one reply name
ROOTS = [f"crates/command_replies/specs/{name}.antt" for name in ("Said", "Done", "Table", "Laws", "Writing", "Status")]
IN_PLACE_OF_OTHERS = "crates/lexeme_laws/"
USE = re.compile(r"^(?:pub )?use Rattle\.(\w+)\.specs\.([\w.]+)", re.M)


def read(path):
    with open(path, encoding="utf-8") as it:
        return it.read()


def lines_of(path):
    return read(path).count("\n")


def bare_lines_of(path):
    """The lines that are neither empty nor a comment nor `use`."""
    lines = [line.strip() for line in read(path).splitlines()]
    return sum(1 for line in lines if line and not line.startswith(("--", "use ", "pub use ")))


def used_files(path):
    for crate, module in USE.findall(read(path)):
        parts = module.rstrip(".").split(".")
        for end in range(len(parts), 0, -1):
            used = f"crates/{crate}/specs/{'/'.join(parts[:end])}.antt"
            if os.path.exists(used):
                yield used
                break


def reached():
    found, waiting = set(), list(ROOTS)
    while waiting:
        path = waiting.pop()
        if path not in found:
            found.add(path)
            waiting.extend(used_files(path))
    return found


def with_counts(row, listed):
    """A row of the table with the lines of each file and their sum."""
    cells = row.split(" | ")
    total, parts = 0, []
    for part in cells[0].removeprefix("| ").split("; "):
        crate, names = part.split(": ")
        counted = []
        for name in re.findall(r"`(\w+)`", names):
            path = f"crates/{crate}/specs/{name}.antt"
            listed.add(path)
            total += lines_of(path)
            counted.append(f"`{name}` {lines_of(path)}")
        parts.append(f"{crate}: {', '.join(counted)}")
    return " | ".join(["| " + "; ".join(parts), f"{total:,}", *cells[2:]])


def counted_page(page, listed):
    page = re.sub(r"^\| \w+: `.*$", lambda row: with_counts(row[0], listed), page, flags=re.M)
    files = reached()
    page = re.sub(
        r"that is \d+ files of `specs/`, [\d,]+ lines with comments and `use` lines, [\d,]+ without",
        f"that is {len(files)} files of `specs/`, {sum(map(lines_of, files)):,} lines with comments and `use` lines, "
        f"{sum(map(bare_lines_of, files)):,} without",
        page,
    )
    all_lines = {part: sum(map(lines_of, glob.glob(f"crates/*/{part}/**/*.antt", recursive=True))) for part in ("specs", "proofs")}
    return re.sub(
        r"has [\d,]+ lines of `specs/` and [\d,]+ lines of `proofs/`",
        f"has {all_lines['specs']:,} lines of `specs/` and {all_lines['proofs']:,} lines of `proofs/`",
        page,
    )


def main():
    os.chdir(os.path.dirname(os.path.dirname(os.path.abspath(__file__))))
    page, listed = read(PAGE), set()
    written = counted_page(page, listed)
    status = 0
    for path in sorted(reached() ^ {it for it in listed if not it.startswith(IN_PLACE_OF_OTHERS)}):
        print(f"{PAGE}: {path} is {'listed and not used' if path in listed else 'not listed'}")
        status = 1
    if written != page and "--check" in sys.argv:
        print(f"{PAGE}: the counts differ from the files: run scripts/trusted_counts.py")
        status = 1
    elif written != page:
        with open(PAGE, "w", encoding="utf-8") as it:
            it.write(written)
    return status


sys.exit(main())
