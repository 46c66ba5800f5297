#!/usr/bin/env python3
"""Measures a built program on sources that may cost more than their size.

Usage: scripts/measure_families.py PROGRAM [OTHER] [NAME..]

For each family, or those whose names begin with a NAME, and each of its sizes the script prints: the processor time, the
memory and the status of PROGRAM; the time of OTHER in the same run; the ratio to a plain source of as many bytes; the
exponent from the size before; and whether both programs answered the same. LIMIT=N in the environment ends a run after N
seconds of the processor (60). On a busy machine only the ratios count. The script leaves nothing behind.
"""
import math
import os
import random
import resource
import shutil
import string
import sys
import tempfile

MEMORY_LIMIT = 6 << 30
MAX_FILE_BYTES = 1_048_576
# Below this a time is mostly that of the start.
LEAST_SECONDS = 0.005

FAMILIES = {}


def family(name, sizes, words=("check",)):
    """Registers a function from a size to the files of a folder."""
    def add(make):
        FAMILIES[name] = (make, sizes, list(words))
        return make
    return add


def name_of(number):
    """A short value name for a number."""
    letters = ""
    while True:
        letters = string.ascii_lowercase[number % 26] + letters
        number //= 26
        if number == 0:
            return "v" + letters


def values(count, body="1"):
    """Declarations of as many values."""
    return "".join(f"let {name_of(number)}={body}\n" for number in range(count))


def filled(piece, size, before="", after=""):
    """A source of about this size, of a piece that is repeated between two texts."""
    return before + piece * ((size - len(before) - len(after)) // len(piece)) + after


def one(text):
    return {"a.ml": text}


def plain_source(size):
    """A source of functions with `match`, local functions and a functor."""
    parts = ["module type S = sig val v : int val w : int -> int end\nlet base = 0\n"]
    left, number = size - len(parts[0]), 0
    while True:
        part = (
            f"let f{number} x =\n  let g y z = match y with\n    | Some a -> a + z\n"
            "    | None -> if z > 0 then base else z * 2 in\n"
            "  let h = List.map (fun a -> a + x) [ x; 1; 2 ] in\n"
            "  match h with\n  | [] -> g None x\n  | a :: _ -> base + x + g (Some a) 3\n"
        )
        if left - len(part) < 200:
            break
        parts.append(part)
        left, number = left - len(part), number + 1
    parts.append("module Make (X : S) = struct\n  let v = X.v + base\n  let w n = X.w n + f0 n\nend\n")
    return "".join(parts)


@family("items that end in ;", [12_000, 24_000, 48_000])
def _(count):
    return one("let _ = 1; " * 100 + ";;" + ("let _ = 1; " * 100 + ";;") * (count // 2_400))


@family("items that end in ; and no ;;", [5_000, 10_000, 20_000])
def _(count):
    return one("let _ = 1; " * count)


@family("modules of one value", [2_000, 4_000, 8_000])
def _(count):
    modules = "".join(f"module M{number} : S = struct let f = 1 end\n" for number in range(count))
    return one("module type S = sig val f : int end\n" + modules)


@family("functions that end in ;", [100, 200, 400])
def _(count):
    body = "(match x with A -> if y then (let z = 1 in z + y) else 2 | B (p, q) -> p q | _ -> f (f x y) (f y x)) + 1; "
    return one(f"let f x y = {body}" * count)


@family("steps inside 250 if", [262_144, 524_288, 1_048_570])
def _(size):
    return one(filled("a;", size, "let z = " + "if " * 250, "a" + " then ()" * 250))


@family("steps inside 250 (", [262_144, 524_288, 1_048_570])
def _(size):
    return one(filled("a;", size, "let z = " + "(" * 250, "a" + ")" * 250))


@family("a list", [262_144, 524_288, 1_048_570])
def _(size):
    return one(filled("a;", size, "let x = [", "a]"))


@family("cases", [262_144, 524_288, 1_048_570])
def _(size):
    return one(filled("|A->b", size, "let z = function A->b"))


@family("n declarations use x: rename", [8_000, 16_000, 32_000, 64_000], ("rename", "A.x", "fresh"))
def _(count):
    return one("let x = 1\n" + values(count, "x"))


@family("n values in M, n uses of M.x: rename", [8_000, 16_000, 32_000], ("rename", "A.M.x", "fresh"))
def _(count):
    return one("module M = struct let x = 1 " + values(count) + "end let _ = " + "M.x;" * count + "1")


@family("or-pattern of n, then n uses: rename", [500, 1_000, 2_000, 4_000], ("rename", "A.x", "fresh"))
def _(count):
    return one("let (A x" + "|A x" * count + ") = e\n" + values(count, "x"))


@family("footprint of n modules, n values use it: rename", [400, 800, 1_600, 3_200], ("rename", "A.S.f", "fresh"))
def _(count):
    modules = "".join(f"module M{number} : S = struct let f = 1 end\n" for number in range(count))
    return one(
        "module type S = sig val f : int end\n" + modules
        + "let f = 0\nmodule Z : S = struct let f = f end include Z " + values(count, "f")
    )


@family("or-pattern of n: rename", [30_000, 60_000, 120_000], ("rename", "A.x", "fresh"))
def _(count):
    return one("let (A x" + "|A x" * count + ") = e")


@family("k units that open 60,000 values 60 times", [1, 2, 4, 64])
def _(count):
    return {"a.ml": values(60_000)} | {f"b{number}.ml": "open A\n" * 60 for number in range(count)}


@family("64 openings of 1,000 values, and n uses", [4_000, 16_000, 64_000])
def _(count):
    uses = "".join(f"let _ = {name_of(number % 1_000)}\n" for number in range(count))
    return {"a.ml": values(1_000), "b.ml": "open A\n" * 64 + uses}


@family("k openings of 1,000 values", [64, 256, 1_024, 4_096])
def _(count):
    return {"a.ml": values(1_000), "b.ml": "open A\n" * count}


@family("a signature of n values, matched once: rename", [4_000, 8_000, 16_000], ("rename", "A.S.x", "fresh"))
def _(count):
    return one(
        "module type S = sig " + "val x:t " * count + "end\nmodule A = struct "
        + values(count) + "let x = 1 end\nmodule B : S = A\n"
    )


@family("let rec of n: rename", [8_000, 16_000, 32_000], ("rename", "A.x", "fresh"))
def _(count):
    return one("let rec x=1 and " + " and ".join(f"{name_of(number)}=x" for number in range(count)))


@family("x shadowed n times: rename", [8_000, 16_000, 32_000], ("rename", "a.ml#2", "fresh"))
def _(count):
    return one("let x = 1\n" + "let x=x\n" * count)


@family("a batch of k steps over 256 KiB", [2, 4, 8], ("batch", "steps"))
def _(count):
    steps = "".join(f"A.f{number} g{number}\n" for number in range(count))
    return one(plain_source(262_144)) | {"steps": steps}


@family("a batch of k steps over 100 sources", [2, 4, 8], ("batch", "steps"))
def _(count):
    steps = "".join(f"U{number}.f0 g{number}\n" for number in range(count))
    return {f"u{number}.ml": plain_source(10_000) for number in range(100)} | {"steps": steps}


@family("2,000 units with long names", [50, 100, 200])
def _(length):
    return {f"M{'a' * length}{number:04}.ml": "let x = 1" for number in range(2_000)}


@family("a plain source: check", [131_072, 524_288, 1_048_576])
def _(size):
    return one(plain_source(size))


@family("a plain source: rename", [131_072, 524_288, 1_048_576], ("rename", "A.base", "fresh"))
def _(size):
    return one(plain_source(size))


class Runs:
    """Runs of programs in a folder that is made for each."""

    def __init__(self, top, limit):
        self.top, self.limit, self.plain = top, limit, {}

    def folder(self, files):
        made = os.path.join(self.top, "folder")
        shutil.rmtree(made, ignore_errors=True)
        os.makedirs(made)
        for name, text in files.items():
            with open(os.path.join(made, name), "w", encoding="utf-8") as it:
                it.write(text)
        return made

    def run(self, program, words, files):
        """The seconds of the processor, the MB of memory, the status and the output."""
        folder, output = self.folder(files), os.path.join(self.top, "output")
        child = os.fork()
        if child == 0:
            resource.setrlimit(resource.RLIMIT_CPU, (self.limit, self.limit))
            resource.setrlimit(resource.RLIMIT_AS, (MEMORY_LIMIT, MEMORY_LIMIT))
            os.chdir(folder)
            os.dup2(os.open("/dev/null", os.O_RDONLY), 0)
            os.dup2(os.open(output, os.O_WRONLY | os.O_CREAT | os.O_TRUNC), 1)
            os.dup2(os.open("/dev/null", os.O_WRONLY), 2)
            os.execv(program, [program, *words])
        _, status, used = os.wait4(child, 0)
        with open(output, "rb") as it:
            answer = it.read()
        return used.ru_utime + used.ru_stime, used.ru_maxrss / 1024, os.waitstatus_to_exitcode(status), answer

    def plain_seconds(self, program, size, command):
        """What a plain source of this size would take, by one of at least 128 KiB."""
        measured = min(max(131_072, 1 << size.bit_length()), MAX_FILE_BYTES)
        key = measured, command
        if key not in self.plain:
            words = ["rename", "A.base", "fresh"] if command == "rename" else ["check"]
            self.plain[key] = self.run(program, words, one(plain_source(measured)))[0] / measured
        return self.plain[key] * size

    def measure(self, name, programs):
        make, sizes, words = FAMILIES[name]
        before = None
        for size in sizes:
            files = make(size)
            total = sum(map(len, files.values()))
            runs = [self.run(program, words, files) for program in programs]
            seconds, memory, status, _ = runs[0]
            plain = max(self.plain_seconds(programs[0], total, words[0]), LEAST_SECONDS)
            parts = [name, f"{size}", f"{total} B", f"{seconds:.2f} s", f"{memory:.0f} MB", f"status {status}"]
            parts.append(f"{seconds / plain:.1f} times a plain source")
            if before:
                growth = max(seconds, LEAST_SECONDS) / max(before[0], LEAST_SECONDS)
                parts.append(f"exponent {math.log(growth) / math.log(size / before[1]):.2f}")
            if runs[1:]:
                other = runs[1][0]
                same = "same" if runs[0][2:] == runs[1][2:] else "DIFFERENT"
                parts.append(f"other {other:.2f} s, {seconds / max(other, LEAST_SECONDS):.2f} of it, {same}")
            print(" | ".join(parts), flush=True)
            before = seconds, size
            if status < 0:
                break


def main():
    programs = [os.path.abspath(word) for word in sys.argv[1:] if os.path.isfile(word)]
    wanted = [word for word in sys.argv[1:] if not os.path.isfile(word)]
    if not programs:
        sys.exit(__doc__)
    with tempfile.TemporaryDirectory() as top:
        runs = Runs(top, int(os.environ.get("LIMIT", "60")))
        for name in FAMILIES:
            if not wanted or any(name.startswith(word) for word in wanted):
                runs.measure(name, programs[:2])


if __name__ == "__main__":
    main()
