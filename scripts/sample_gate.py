#!/usr/bin/env python3
"""Samples the checks of a gate that runs, and prints docs/build_costs.txt: what each crate costs.

Usage: scripts/sample_gate.py LOG COSTS

Start it in the top folder just before `.ci/run`, whose output goes to LOG. It reads the prover's processes in /proc every
two seconds, and writes COSTS once LOG ends with the line of the gate's verdict. Seconds are of the processor.
"""
import os
import re
import sys
import time

TICKS = os.sysconf("SC_CLK_TCK")
END = re.compile(r"^\d+ passed, \d+ failed")
HEAD = """Seconds of one core and memory in GB for each crate, in the run of BUILD.md from nothing: the proof of the crate, the
proof of its tests, all its edits, and the largest of these processes. 'functions' counts those in the sources; the prover
also proves those that `derive` generates. scripts/sample_gate.py wrote this. A process that ended within two seconds is
not in it.
"""


def read_processes():
    """The prover's processes: (pid, start): (crate, kind, seconds, peak in KB)."""
    found = {}
    for pid in filter(str.isdigit, os.listdir("/proc")):
        try:
            with open(f"/proc/{pid}/cmdline", "rb") as file:
                words = file.read().decode(errors="replace").split("\0")
            if os.path.basename(words[0]) != "rattle" or "--crate-name" not in words:
                continue
            folder = os.readlink(f"/proc/{pid}/cwd")
            with open(f"/proc/{pid}/stat") as file:
                fields = file.read().rsplit(")", 1)[1].split()
            with open(f"/proc/{pid}/status") as file:
                peak = next((int(line.split()[1]) for line in file if line.startswith("VmHWM")), 0)
        except (OSError, IndexError):
            continue
        name = words[words.index("--crate-name") + 1]
        kind = "edits" if "/rt-edit-" in folder else "tests" if "--test" in words else "proof"
        found[pid, fields[19]] = (name, kind, (int(fields[11]) + int(fields[12])) / TICKS, peak)
    return found


def has_ended(log):
    try:
        with open(log, errors="replace") as file:
            return any(END.match(line) for line in file.readlines()[-3:])
    except OSError:
        return False


def count_functions(crate):
    count = 0
    for at, _, names in os.walk(f"crates/{crate}/src"):
        for name in names:
            if name.endswith(".rt"):
                with open(f"{at}/{name}") as file:
                    count += sum(bool(re.match(r"\s*(pub(\([a-z]+\))? )?fn ", line)) for line in file)
    return count


def count_proof(crate):
    count = 0
    for at, _, names in os.walk(f"crates/{crate}/proofs"):
        for name in names:
            with open(f"{at}/{name}") as file:
                count += sum(1 for _ in file)
    return count


def count_edits(crate):
    folder = f"crates/{crate}/must-fail"
    return sum(name.endswith(".edit") for name in os.listdir(folder)) if os.path.isdir(folder) else 0


def table(seen):
    rows, sums = [], {}
    for name, kind, seconds, peak in seen.values():
        row = sums.setdefault(name, {"proof": 0, "tests": 0, "edits": 0, "peak": 0})
        row[kind] += seconds
        row["peak"] = max(row["peak"], peak)
    with open("crates.txt") as file:
        crates = [line.split(":")[0].split()[0] for line in file if re.match(r"[a-z]", line)]
    shown = lambda seconds: f"{seconds:,.0f}" if seconds else ""
    total = [0] * 6
    for crate in crates:
        row = sums.get(crate, {"proof": 0, "tests": 0, "edits": 0, "peak": 0})
        numbers = [count_functions(crate), count_proof(crate), count_edits(crate), row["proof"], row["tests"], row["edits"]]
        total = [a + b for a, b in zip(total, numbers)]
        rows.append([crate, *map(lambda n: f"{n:,}", numbers[:3]), *map(shown, numbers[3:]), f"{row['peak'] / 1e6:.1f}" if row["peak"] else ""])
    rows.append(["all", *map(lambda n: f"{n:,}", total[:3]), *map(shown, total[3:]), ""])
    heads = ["crate", "functions", "lines of proof", "edits", "proof", "tests", "the edits", "memory"]
    widths = [max(len(row[i]) for row in [heads, *rows]) for i in range(len(heads))]
    lines = ["  ".join(heads[i].ljust(widths[i]) for i in range(len(heads))), "  ".join("-" * width for width in widths)]
    lines += ["  ".join([row[0].ljust(widths[0]), *(row[i].rjust(widths[i]) for i in range(1, len(heads)))]) for row in rows]
    return HEAD + "\n" + "\n".join(line.rstrip() for line in lines) + "\n"


def main():
    log, costs = sys.argv[1:]
    seen = {}
    while not has_ended(log):
        for key, row in read_processes().items():
            before = seen.get(key)
            seen[key] = row if not before else (*row[:3], max(row[3], before[3]))
        time.sleep(2)
    with open(costs, "w") as file:
        file.write(table(seen))


if __name__ == "__main__":
    main()
