#!/usr/bin/env python3
"""Prints what the documents have wrong, and ends with 1 if there is anything.

Usage: scripts/check_docs.py [TOP]

Links and anchors that lead nowhere; names and paths in back quotes that the repository lacks; counts that differ from the
files; crates that crates.txt lacks; pages and sentences that are too long; lists that their scripts would write otherwise.
"""
import collections
import glob
import os
import re
import subprocess
import sys

# the most words of a page, or of several together
MOST_WORDS = {
    ("README.md",): 1500,
    ("docs/PROVED.md",): 2000,
    ("docs/USING.md",): 1500,
    ("docs/REFUSALS.md",): 2000,
    ("docs/LANGUAGE.md",): 700,
    ("docs/ARCHITECTURE.md",): 1400,
    ("docs/DECISIONS.md",): 2500,
    ("docs/TESTING.md", "docs/LIMITS.md", "docs/BUILD.md"): 2600,
}
# the most words of a sentence, or of a part of it up to a colon or a semicolon
MOST_SENTENCE_WORDS = 25
# the most part by which a size of the README may differ
MOST_DIFFERENCE = 0.02
# names that no file of a crate has
OTHER_NAMES = {"examples", "stdout", "stdin"}
# the scripts that write a list, and compare it with --check
WRITERS = ["crate_table.py", "body_table.py", "trusted_counts.py"]
# what the crates write in a page: its sentences are those of the crates
WRITTEN = re.compile(r"<!-- crates: .*?<!-- end of crates -->", re.S)

found = []


def read(path):
    with open(path, encoding="utf-8", errors="replace") as it:
        return it.read()


def anchor(heading):
    """The anchor of a heading, as code hosts make it."""
    return re.sub(r"[^\w\- ]", "", heading.lower()).replace(" ", "-")


def prose_of(text):
    return re.sub(r"```.*?```", "", text, flags=re.S)


def check_links(texts):
    anchors = {page: {anchor(it) for it in re.findall(r"^#+ (.*)$", text, re.M)} for page, text in texts.items()}
    for page, text in texts.items():
        for path, place in re.findall(r"\]\(([^)#\s]*)(#[^)]*)?\)", text):
            if path.startswith("http"):
                continue
            target = os.path.normpath(os.path.join(os.path.dirname(page), path)) if path else page
            if not os.path.exists(target):
                found.append(f"{page}: a dead link: {path}")
            elif place and target in anchors and place[1:] not in anchors[target]:
                found.append(f"{page}: a dead anchor: {path}{place}")
        for name, path in re.findall(r"\[(\w+\.md)\]\(([^)#\s]*)", text):
            if os.path.basename(path) not in (name, ""):
                found.append(f"{page}: a link to {path} that is called {name}")


def known_names():
    """Every word of the crates' files, and the names of crates and of the examples' files."""
    names = set(OTHER_NAMES) | {os.path.basename(it) for it in glob.glob("crates/*")}
    for path in glob.glob("crates/**/*", recursive=True):
        if os.path.isfile(path) and "/out/" not in path:
            names |= set(re.findall(r"[A-Za-z_][\w\-']*", read(path)))
    for path in glob.glob("examples/**/*", recursive=True):
        names |= set(re.findall(r"[A-Za-z_]\w*", os.path.basename(path)))
    return names


def check_names(texts):
    known = known_names()
    for page, text in texts.items():
        prose = prose_of(text)
        for name in sorted(set(re.findall(r"`([A-Za-z]\w{3,})`", prose)) - known):
            found.append(f"{page}: no crate has the name {name}")
        for path in sorted(set(re.findall(r"`((?:crates|scripts|docs|plants|examples)/[\w./*-]+)`", prose))):
            if "NAME" not in path and not path.startswith("crates/rotor/out/") and not glob.glob(path):
                found.append(f"{page}: no file {path}")


def lines_of(patterns):
    return sum(read(path).count("\n") for pattern in patterns for path in glob.glob(pattern, recursive=True))


def product_crates():
    """The crates of crates.txt, up to the heading of the tests."""
    return re.findall(r"^(\w+):", read("crates.txt").split("# tests")[0], re.M)


def check_count(page, text, pattern, there, what):
    for count in re.findall(pattern, text, re.M):
        if int(count.replace(",", "")) != there:
            found.append(f"{page}: {count} {what}, and there are {there}")


def rows_by_kind(file):
    """The lines of a file of crates/rows, by the kind that the line `rows KIND` before them names."""
    pieces = re.split(r"^rows (\w+)\n", read(f"crates/rows/{file}"), flags=re.M)
    return dict(zip(pieces[1::2], pieces[2::2]))


def counts_of_pieces(kinds):
    """For each first piece of a row of these kinds, the pattern of its count, its number of rows, and what these are."""
    rows = rows_by_kind("stdin")
    for kind in kinds:
        for piece, count in collections.Counter(row.split("|")[0] for row in rows[kind].splitlines()).items():
            yield rf"^\| `{kind}`, \w+ \| .*?([\d,]+) (?:rows )?`{piece}`", count, f"rows of the kind {piece}"


def crates_of(program):
    """The crates that a program is made of."""
    uses = {name: rest.split() for name, rest in re.findall(r"^(\w+):(.*)$", read("crates.txt"), re.M)}
    taken, waiting = set(), [program]
    while waiting:
        name = waiting.pop()
        if name in uses and name not in taken:
            taken.add(name)
            waiting.extend(uses[name])
    return taken


def rows_with(pattern):
    """The number of rows of the kind `commands` that have such a line."""
    rows = re.split(r"^run$", rows_by_kind("stdin")["commands"], flags=re.M)[:-1]
    return sum(1 for row in rows if re.search(pattern, row, re.M))


def check_counts(texts):
    edits = len(glob.glob("crates/*/must-fail/*.edit"))
    plants = len(glob.glob("plants/*/*.edit"))
    for page, text in texts.items():
        check_count(page, text, r"([\d,]+) (?:wrong versions|changes of the code|such changes)", edits, "edits")
        check_count(page, text, r"`plants/NAME/\*\.edit` has ([\d,]+)", plants, "plants")
    readme = texts["README.md"]
    check_count("README.md", readme, r"the program's ([\d,]+) crates", len(crates_of("rotor")), "crates of rotor")
    check_count("README.md", readme, r"all ([\d,]+) crates", len(glob.glob("crates/*")), "crates")
    page = "docs/TESTING.md"
    faults = rows_with(r"^(?:call|put|room) ")
    check_count(page, texts[page], r"([\d,]+) of them have calls that fail", faults, "rows with faults")
    check_count(page, texts[page], r"([\d,]+) are of `verify`", rows_with(r"^word verify$"), "rows of verify")
    rows = rows_by_kind("stdin")
    resolutions = rows["resolutions"]
    requests = len(re.findall(r"^(?:facts|looks|fault|respell)\b", resolutions, re.M))
    for pattern, there, what in [
        (r"^\| `commands`, \w+ \| ([\d,]+) rows", len(re.findall(r"^run$", rows["commands"], re.M)), "rows"),
        (r"^\| `resolutions`, \w+ \| ([\d,]+) folders", len(re.findall(r"^end$", resolutions, re.M)), "folders"),
        (r"^\| `resolutions`, \w+ \| .* with ([\d,]+) requests", requests, "requests"),
        (r"^\| `trees`, \w+ \| ([\d,]+) rows", rows_by_kind("stdout")["trees"].count("\n"), "rows of trees"),
        (r"^\| `calls`, \w+ \| ([\d,]+) rows", rows["calls"].count("\n"), "rows of calls"),
        *counts_of_pieces(["texts", "folders"]),
    ]:
        if not re.search(pattern, texts[page], re.M):
            found.append(f"{page}: no count of {what}")
        check_count(page, texts[page], pattern, there, what)
    for crate, count in re.findall(r"^\| (tests_\w+) \| (\d+) \|", texts[page], re.M):
        there = sum(read(it).count("#[test]") for it in glob.glob(f"crates/{crate}/src/**/*.rt", recursive=True))
        if int(count) != there:
            found.append(f"{page}: {count} tests of {crate}, and there are {there}")


def check_sizes(texts):
    """The lines of code, definitions and proofs, which the README rounds."""
    parts = {"code in": ("src", "rt"), "definitions": ("specs", "antt"), "proofs": ("proofs", "antt")}
    for what, (part, ending) in parts.items():
        there = lines_of([f"crates/{crate}/{part}/**/*.{ending}" for crate in product_crates()])
        for count in re.findall(rf"([\d,]+) (?:lines )?of {what}", texts["README.md"]):
            if abs(int(count.replace(",", "")) - there) > MOST_DIFFERENCE * there:
                found.append(f"README.md: {count} lines of {part}/, and there are {there}")


def check_lengths(texts):
    for pages, most in MOST_WORDS.items():
        words = sum(len(texts[page].split()) for page in pages)
        if words > most:
            found.append(f"{' and '.join(pages)}: {words} words, and {most} are the most")


def sentences_of(text):
    for line in WRITTEN.sub("", prose_of(text)).splitlines():
        if line.startswith(("#", ">", "    ", "|--")):
            continue
        for cell in line.strip("|").split("|") if line.startswith("|") else [line]:
            plain = re.sub(r"`[^`]*`", "X", cell)
            plain = re.sub(r"\[([^\]]*)\]\([^)]*\)", r"\1", plain)
            yield from re.split(r"(?<=[.?!:;])\s+", re.sub(r"^\s*(?:-|\d+\.)\s", "", plain).replace("**", ""))


def check_sentences(texts):
    for page, text in texts.items():
        for sentence in sentences_of(text):
            words = len(re.findall(r"[\w'’]+", sentence))
            if words > MOST_SENTENCE_WORDS:
                found.append(f"{page}: {words} words in a sentence: {sentence.strip()}")


def check_crates():
    listed = set(re.findall(r"^(\w+):", read("crates.txt"), re.M))
    there = {os.path.basename(it) for it in glob.glob("crates/*")}
    for crate in sorted(listed ^ there):
        found.append(f"crates.txt: {crate} is {'listed and not there' if crate in listed else 'not listed'}")


def check_sources():
    """Each file of specs/ names its source in its first lines."""
    for path in glob.glob("crates/*/specs/**/*.antt", recursive=True):
        head = re.match(r"(?:--.*\n)*", read(path))[0].replace("\n-- ", " ")
        if os.path.basename(path) != "Lib.antt" and not re.search(r"\bown\b|manual|Unicode|GNU|Protocol|POSIX|RFC", head):
            found.append(f"{path}: no source in the first lines")


def check_writers():
    for script in WRITERS:
        ran = subprocess.run([sys.executable, f"scripts/{script}", "--check"], capture_output=True, text=True, check=False)
        found.extend(ran.stdout.splitlines() or ([f"scripts/{script} failed"] if ran.returncode else []))


def main():
    os.chdir(sys.argv[1] if len(sys.argv) > 1 else os.path.dirname(os.path.dirname(os.path.abspath(__file__))))
    pages = ["README.md", "CHANGELOG.md", "CONTRIBUTING.md", *sorted(glob.glob("docs/*.md"))]
    texts = {page: read(page) for page in pages}
    check_links(texts)
    check_names(texts)
    check_counts(texts)
    check_sizes(texts)
    check_lengths(texts)
    check_sentences(texts)
    check_crates()
    check_sources()
    check_writers()
    for it in found:
        print(it)
    for page, text in texts.items():
        print(f"{len(text.split()):6} {page}")
    print(f"{len(texts)} documents, {sum(len(it.split()) for it in texts.values())} words, {len(found)} found")
    return 1 if found else 0


sys.exit(main())
