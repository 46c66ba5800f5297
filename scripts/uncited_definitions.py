#!/usr/bin/env python3
"""Lists the definitions of specs/ that only proofs need, with the files of proofs/ that import them.

Usage: scripts/uncited_definitions.py [LAYER]

A definition is needed if a file of src/ imports it, or if the body of a needed definition has its name. All others could
be in proofs/. LAYER is a heading of crates.txt; without one, the crates of all layers are listed. A file that imports a
whole module under another name counts as one that needs all of it. A `do` needs `◌>>=◌`, which its text lacks.
"""
import collections
import glob
import os
import re
import sys

WORD = re.compile(r"[^\s(){}\[\],;.]+")
COMMENT = re.compile(r"(?:^|(?<=\s))--\s.*")
DECLARED = re.compile(r"(abbrev |unfoldable |opaque )?(pub )?(record |data )?([^\s(){}\[\],;.:]+)")
INNER = re.compile(r"\s+(?:abbrev |unfoldable )?(?:pub )?(?:record |data )?([^\s(){}\[\],;.:]+) :")
IMPORT = re.compile(r"^\s*(?:ghost |pub )*use Rattle\.(\w+\.specs\.[\w.]*\w)(?:\.\{([^}]*)\}| as \w+|\.([^\s.{};]+))?;?$", re.M)


def read(path):
    with open(path, encoding="utf-8") as it:
        return COMMENT.sub("", it.read())


def layers():
    """The layer of each crate, in the order of crates.txt."""
    found, layer = {}, None
    with open("crates.txt", encoding="utf-8") as lines:
        for line in lines:
            if line.startswith("# "):
                layer = line[2:].strip()
            elif crate := re.match(r"(\w+):", line):
                found[crate[1]] = layer
    return found


def module_of(path):
    crate, name = re.match(r"crates/(\w+)/specs/(.*)\.antt", path).groups()
    return f"{crate}.specs.{name.replace('/', '.')}"


def definitions_of(text):
    """The words of each definition of a file, its public definitions, and the block that an inner definition is in.

    The definitions in a block (`mutual`, `module`) count as one.
    """
    words, public, block_of, name = {}, set(), {}, None
    for number, line in enumerate(text.splitlines()):
        if re.match(r"(?:pub )?use ", line):
            continue
        if line and not line[0].isspace():
            declared = DECLARED.match(line)
            if re.match(r"(?:abbrev |unfoldable )?(?:mutual|module)\b", line):
                name = f"block {number}"
                words[name] = set()
            elif declared and (any(declared.groups()[:3]) or re.match(r"\S+ :", line)):
                name = declared[4]
                words.setdefault(name, set())
                if declared[2]:
                    public.add(name)
            elif line.split()[0] in words:
                name = line.split()[0]
        elif name and name.startswith("block ") and (inner := INNER.match(line)):
            block_of[inner[1]] = name
        if name:
            words[name] |= set(WORD.findall(line))
    return words, public, block_of


def imports_of(text):
    """Each imported module with the pairs of a name and the word that it has here, or None for all of its names."""
    for module, names, name in IMPORT.findall(text):
        if names:
            pairs = [it.split(" as ") for it in names.split(",")]
            yield module, [(it[0].strip(), it[-1].strip()) for it in pairs]
        elif name:
            yield module, [(name, name)]
        else:
            yield module, None


def needed_definitions(specs, sources):
    paths = {module_of(path): path for path in specs}
    needed, waiting = set(), []

    def need(path, names):
        words, _, block_of, _ = specs[path]
        for name in names:
            name = block_of.get(name, name)
            if name in words and (path, name) not in needed:
                needed.add((path, name))
                waiting.append((path, name))

    for text in sources:
        for module, pairs in imports_of(text):
            if module in paths:
                need(paths[module], specs[paths[module]][0] if pairs is None else [it[0] for it in pairs])
    imports = {path: list(imports_of(text)) for path, (*_, text) in specs.items()}
    while waiting:
        path, name = waiting.pop()
        words = specs[path][0][name]
        need(path, words)
        for module, pairs in imports[path]:
            if module in paths:
                need(paths[module], words if pairs is None else [it for it, here in pairs if here in words])
    return needed


def main():
    os.chdir(os.path.dirname(os.path.dirname(os.path.abspath(__file__))))
    layer_of = layers()
    files = [path for path in glob.glob("crates/*/specs/**/*.antt", recursive=True) if not path.endswith("/Lib.antt")]
    specs = {path: (*definitions_of(read(path)), read(path)) for path in files}
    needed = needed_definitions(specs, [read(path) for path in glob.glob("crates/*/src/**/*.rt", recursive=True)])
    importers = collections.defaultdict(list)
    for path in glob.glob("crates/*/proofs/**/*.antt", recursive=True):
        for module, pairs in imports_of(read(path)):
            for name, _ in pairs or []:
                importers[module, name].append(path)
    order = list(layer_of)
    for path in sorted(specs, key=lambda it: (order.index(it.split("/")[1]), it)):
        if len(sys.argv) > 1 and layer_of[path.split("/")[1]] != sys.argv[1]:
            continue
        for name in sorted(specs[path][1]):
            if (path, name) not in needed:
                print(f"{path}: {name}: {' '.join(sorted(importers[module_of(path), name])) or 'no proof'}")


main()
