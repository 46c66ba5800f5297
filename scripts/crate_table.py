#!/usr/bin/env python3
"""Writes the list of crates in docs/CRATES.md and the table of laws in docs/PROVED.md from the crates themselves,
or with --check says whether they differ.

Usage: scripts/crate_table.py [--check]

A line of the list has the crate's name, the first sentence of its root's comment, and its laws: the functions of
src/laws.rt, or if they are many their number. The order is that of crates.txt, without the crates of tests. A row of the
table has a law of a crate that has nothing but laws of renamings, and the comment of its function.
"""
import os
import re
import sys

# The most laws of a crate that a line of the list names.
MOST_LAWS = 3
# Laws of these crates that only other laws rest on: the table has no row for them.
LESSER_LAWS = {"changes_are_listed", "kept_runs_go_on", "undos_have_places", "good_repeats_none", "unused_names_are_apart"}
LIST_PAGE, TABLE_PAGE = "docs/CRATES.md", "docs/PROVED.md"
LIST_MARKS = ("<!-- crates: written by scripts/crate_table.py -->\n", "<!-- end of crates -->\n")
TABLE_MARKS = ("<!-- laws: written by scripts/crate_table.py -->\n", "<!-- end of laws -->\n")
# The crates whose laws the table has, in its order.
LAW_CRATES = [
    "rename_laws", "reply_laws", "answer_laws", "command_answers", "accepted_renamings", "verified_renamings",
    "verified_respellings", "verified_refusals", "unused_names", "unused_renamings", "open_world", "token_laws", "batch_laws", "sample_counts", "changed_names", "facts_laws",
    "run_laws",
]


def read(path):
    with open(path, encoding="utf-8") as it:
        return it.read()


def product_crates():
    """The crates of crates.txt, up to the heading of the tests."""
    for line in read("crates.txt").splitlines():
        if line.startswith("# tests"):
            return
        if found := re.match(r"(\w+):", line):
            yield found[1]


def first_sentence(crate):
    root = next(it for it in (f"crates/{crate}/src/lib.rt", f"crates/{crate}/src/main.rt") if os.path.exists(it))
    comment = " ".join(re.findall(r"^//! ?(.*)$", read(root), re.M))
    comment = re.sub(r"\[(`[^`]*`)\]", r"\1", comment)
    return re.match(r"(.*?\.)(?:\s|$)", comment)[1]


def laws(crate):
    path = f"crates/{crate}/src/laws.rt"
    return re.findall(r"^pub fn (\w+)", read(path), re.M) if os.path.exists(path) else []


def crate_list():
    rows = []
    for crate in product_crates():
        names = laws(crate)
        if len(names) > MOST_LAWS:
            told = f" ([{len(names)} laws](../crates/{crate}/src/laws.rt))"
        else:
            told = f" ({', '.join(f'`{it}`' for it in names)})" if names else ""
        rows.append(f"- **{crate}**: {first_sentence(crate)}{told}")
    return "\n".join(rows) + "\n"


def law_table():
    rows = ["| law | crate | it says |", "|---|---|---|"]
    for crate in LAW_CRATES:
        path = f"crates/{crate}/src/laws.rt"
        if not os.path.exists(path):
            continue
        for comment, name in re.findall(r"((?:^///.*\n)+)pub fn (\w+)", read(path), re.M):
            if name in LESSER_LAWS:
                continue
            said = " ".join(it[3:].strip() for it in comment.splitlines())
            rows.append(f"| `{name}` | {crate} | {said} |")
    return "\n".join(rows) + "\n"


def rewritten(page, marks, text):
    """The page with this text between its marks."""
    before, rest = page.split(marks[0])
    return before + marks[0] + text + marks[1] + rest.split(marks[1])[1]


def main():
    os.chdir(os.path.dirname(os.path.dirname(os.path.abspath(__file__))))
    differs = False
    for path, marks, text in [(LIST_PAGE, LIST_MARKS, crate_list()), (TABLE_PAGE, TABLE_MARKS, law_table())]:
        page = read(path)
        written = rewritten(page, marks, text)
        if written == page:
            continue
        if "--check" in sys.argv:
            print(f"{path}: a list differs from the crates: run scripts/crate_table.py")
            differs = True
            continue
        with open(path, "w", encoding="utf-8") as it:
            it.write(written)
    return 1 if differs else 0


sys.exit(main())
