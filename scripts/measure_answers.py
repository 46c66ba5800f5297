#!/usr/bin/env python3
"""Measures the answers for people and for editors beside those of the program.

Usage: scripts/measure_answers.py ROTOR ROTOR_EXPLAIN [ROTOR_LSP]

For each folder the script prints the processor time of ROTOR for `check`, `footprint` and a dry `rename`, and the ratio of
ROTOR_EXPLAIN to it; of 1,000 sources for `verify` of two versions too. Of ROTOR_LSP it prints the time of a first rename
request, of a second one for the same bytes, and their ratios to the dry `rename`. Each time is the least of five runs, and
the two programs run in turn, so that both find the same machine. The last line has the greatest ratio of ROTOR_EXPLAIN.
The script leaves nothing behind.
"""
import json
import os
import resource
import subprocess
import sys
import tempfile
import time

RUNS = 5
# Of a folder of so many sources two versions are verified too.
VERSIONS = 1_000


def unit_text(number, lines):
    """A unit that uses one value of the unit before it."""
    before = f"U{number - 1}.shared" if number else "1"
    text = [f"let shared = {before}\n"]
    for line in range(lines):
        text.append(f"let step_{line} first second = match first with | 0 -> second + first | n -> let next = n - 1 in next * second\n")
    return "".join(text)


def make_folder(folder, units, lines):
    for number in range(units):
        with open(os.path.join(folder, f"u{number}.ml"), "w", encoding="utf-8") as it:
            it.write(unit_text(number, lines))


def make_versions(folder, units):
    """Two lists of sources: those of the folder, and the same after a renaming."""
    with open(os.path.join(folder, "old.list"), "w", encoding="utf-8") as old, open(os.path.join(folder, "new.list"), "w", encoding="utf-8") as new:
        for number in range(units):
            name = f"u{number}.ml"
            old.write(f"{name} {name}\n")
            new.write(f"{name} u{number}.new\n")
            with open(os.path.join(folder, name), encoding="utf-8") as it:
                text = it.read().replace("shared", "common_value")
            with open(os.path.join(folder, f"u{number}.new"), "w", encoding="utf-8") as it:
                it.write(text)


def run_once(words, folder):
    """The processor time of a run, and the status."""
    before = resource.getrusage(resource.RUSAGE_CHILDREN)
    status = subprocess.run(words, cwd=folder, stdout=subprocess.DEVNULL).returncode
    after = resource.getrusage(resource.RUSAGE_CHILDREN)
    return after.ru_utime + after.ru_stime - before.ru_utime - before.ru_stime, status


def in_turn(programs, words, folder):
    """The least processor time of each program over some runs in turn, and their statuses."""
    least, statuses = [float("inf")] * len(programs), [None] * len(programs)
    for _ in range(RUNS):
        for index, program in enumerate(programs):
            seconds, statuses[index] = run_once([program] + words, folder)
            least[index] = min(least[index], seconds)
    return least, statuses


class Server:
    """A language server that is asked one request after another."""

    def __init__(self, program):
        self.process = subprocess.Popen([program], stdin=subprocess.PIPE, stdout=subprocess.PIPE)
        self.number = 0
        self.ask("initialize", {"capabilities": {}})

    def spent(self):
        with open(f"/proc/{self.process.pid}/stat", encoding="utf-8") as it:
            fields = it.read().rsplit(")", 1)[1].split()
        return (int(fields[11]) + int(fields[12])) / os.sysconf("SC_CLK_TCK")

    def ask(self, method, parameters):
        self.number += 1
        body = json.dumps({"jsonrpc": "2.0", "id": self.number, "method": method, "params": parameters}).encode()
        self.process.stdin.write(b"Content-Length: %d\r\n\r\n" % len(body) + body)
        self.process.stdin.flush()
        length = 0
        while (line := self.process.stdout.readline().strip()):
            name, value = line.split(b":")
            if name.lower() == b"content-length":
                length = int(value)
        return json.loads(self.process.stdout.read(length))

    def timed_rename(self, path):
        before = self.spent()
        answer = self.ask("textDocument/rename", {
            "textDocument": {"uri": "file://" + path}, "position": {"line": 0, "character": 5}, "newName": "common_value"})
        return self.spent() - before, "result" in answer

    def end(self):
        self.ask("shutdown", None)
        self.process.stdin.close()
        self.process.wait()


def measure(programs, units, lines):
    rotor, explain, server = (programs + [None])[:3]
    with tempfile.TemporaryDirectory() as folder:
        make_folder(folder, units, lines)
        size = sum(os.path.getsize(os.path.join(folder, name)) for name in os.listdir(folder))
        print(f"{units} sources, {size / 1e6:.1f} MB")
        dry, greatest = None, 0.0
        commands = [["check"], ["footprint", "U0.shared"], ["rename", "U0.shared", "common_value"]]
        if units == VERSIONS:
            make_versions(folder, units)
            commands.append(["verify", "old.list", "new.list"])
        for words in commands:
            (one, other), (status, other_status) = in_turn([rotor, explain], words, folder)
            same = "" if status == other_status else f" (status {status} and {other_status})"
            print(f"  {words[0]:10} {one:.3f} s, explained {other:.3f} s: {other / one:.2f}{same}")
            greatest = max(greatest, other / one)
            if words[0] == "rename":
                dry = one
        if server:
            it = Server(server)
            for order in ("first", "second"):
                spent, done = it.timed_rename(os.path.join(folder, "u0.ml"))
                print(f"  {order} request to rename {spent:.2f} s: {spent / dry:.2f}" + ("" if done else " (an error)"))
            it.end()
    return greatest


def main():
    if len(sys.argv) not in (3, 4):
        sys.exit(__doc__)
    programs = [os.path.abspath(it) for it in sys.argv[1:]]
    print(time.strftime("%Y-%m-%d"), os.uname().machine)
    loads = ((1, 8_000), (100, 100), (VERSIONS, 35), (2_000, 35))
    greatest = max([measure(programs, units, lines) for units, lines in loads])
    print(f"greatest ratio of the explanations: {greatest:.2f}")


main()
