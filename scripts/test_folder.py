#!/usr/bin/env python3
"""Tests a built program over real folders: links, full disks, limits, several runs and stops.

Usage: scripts/test_folder.py PROGRAM [--stops N]

Each case makes a folder, runs the program in it, and compares the status and every byte of the folder. A case that needs
the rights of root (a disk of its own, another owner) is skipped without them. --stops N kills so many runs at a random
time (100). The script leaves nothing behind. The status is 1 if a case failed.
"""
import argparse
import os
import random
import resource
import signal
import subprocess
import sys
import tempfile
import time

OLD = {"a.ml": b"let x = 1\nlet y = x + x\n", "b.ml": b"let z = A.x\n"}
NEW = {"a.ml": b"let total = 1\nlet y = total + total\n", "b.ml": b"let z = A.total\n"}
RENAME = ["rename", "A.x", "total", "--write"]
SAFE = ["rename", "A.x", "total", "--safe"]
DONE, REFUSED, FAULT = 0, 1, 4
NOBODY = 65_534

cases = []


def case(title, needs_root=False):
    def add(run):
        cases.append((title, needs_root, run))
        return run
    return add


class Folder:
    """A folder of sources, and a place outside it."""

    def __init__(self, program, top, files=None):
        self.program, self.top = program, top
        self.path = os.path.join(top, "folder")
        os.makedirs(self.path)
        self.write(OLD if files is None else files)
        self.outside = os.path.join(top, "outside")
        with open(self.outside, "wb") as it:
            it.write(b"precious\n")

    def write(self, files):
        for name, text in files.items():
            with open(self.at(name), "wb") as it:
                it.write(text)

    def at(self, name):
        return os.path.join(self.path, name)

    def bytes_of(self):
        found = {}
        for name in sorted(os.listdir(self.path)):
            if os.path.isfile(self.at(name)):
                with open(self.at(name), "rb") as it:
                    found[name] = it.read()
        return found

    def start(self, words, before=None):
        def prepare():
            signal.signal(signal.SIGXFSZ, signal.SIG_IGN)
            if before:
                before()
        return subprocess.Popen(
            [self.program, *words], cwd=self.path, stdin=subprocess.DEVNULL, stdout=subprocess.PIPE,
            stderr=subprocess.DEVNULL, preexec_fn=prepare,
        )

    def run(self, words, before=None):
        started = self.start(words, before)
        try:
            started.communicate(timeout=20)
        except subprocess.TimeoutExpired:
            started.kill()
            started.communicate()
            return "no end"
        return started.returncode

    def expect(self, words, status, before=None):
        """Runs the words, and expects this status and a folder whose bytes stay."""
        held = self.bytes_of()
        ended = self.run(words, before)
        assert ended == status, f"status {ended}, not {status}"
        assert self.bytes_of() == held, f"the folder has {self.bytes_of()}"
        with open(self.outside, "rb") as it:
            assert it.read() == b"precious\n", "the file outside has changed"


@case("a renaming, and its undo")
def _(folder):
    assert folder.run(RENAME) == DONE and folder.bytes_of() == NEW
    assert folder.run(["rename", "A.total", "x", "--write"]) == DONE and folder.bytes_of() == OLD


@case("rotor.plan is a symbolic link")
def _(folder):
    os.symlink(folder.outside, folder.at("rotor.plan"))
    folder.expect(SAFE, FAULT)


@case("rotor.gate is a symbolic link")
def _(folder):
    os.symlink(folder.outside, folder.at("rotor.gate"))
    folder.expect(SAFE, FAULT)


@case("rotor.gate is a second name of a source")
def _(folder):
    os.link(folder.at("a.ml"), folder.at("rotor.gate"))
    folder.expect(SAFE, FAULT)


@case("a source is a symbolic link to a file outside")
def _(folder):
    with open(folder.outside, "wb") as it:
        it.write(b"precious\n")
    os.remove(folder.at("b.ml"))
    other = os.path.join(folder.top, "other.ml")
    with open(other, "wb") as it:
        it.write(OLD["b.ml"])
    os.symlink(other, folder.at("b.ml"))
    folder.expect(RENAME, FAULT)
    folder.expect(["check"], DONE)


@case("recover with a plan that names a linked source")
def _(folder):
    folder.write({"rotor.gate": b"open\n", "rotor.plan": b"rotor-plan 1\nfiles 1\na.ml 5\nlet q\nend\n"})
    os.remove(folder.at("a.ml"))
    os.symlink(folder.outside, folder.at("a.ml"))
    folder.expect(["recover"], FAULT)


@case("two sources are one file, by a symbolic link")
def _(folder):
    os.symlink("a.ml", folder.at("c.ml"))
    folder.expect(["rename", "C.x", "total", "--write"], FAULT)
    folder.expect(["check"], DONE)


@case("two sources are one file, by a hard link")
def _(folder):
    os.link(folder.at("a.ml"), folder.at("c.ml"))
    folder.expect(["rename", "C.x", "total", "--write"], FAULT)
    folder.expect(["check"], DONE)


@case("the second source cannot be written", needs_root=True)
def _(folder):
    os.chmod(folder.at("b.ml"), 0o444)
    os.chown(folder.at("a.ml"), NOBODY, NOBODY)
    os.chown(folder.path, NOBODY, NOBODY)
    os.chmod(folder.top, 0o755)
    folder.expect(RENAME, FAULT, lambda: os.setuid(NOBODY))
    folder.expect(SAFE, FAULT, lambda: os.setuid(NOBODY))


@case("the disk is full", needs_root=True)
def _(folder):
    subprocess.run(["mount", "-t", "tmpfs", "-o", "size=24k", "none", folder.path], check=True)
    try:
        text = b"let x = 1\n" + b"let y = x\n" * 800
        folder.write({"a.ml": text})
        with open(folder.at("rest"), "wb", buffering=0) as it:
            try:
                while it.write(b"r" * 512):
                    pass
            except OSError:
                pass
        folder.expect(["rename", "A.x", "a_name_that_is_much_longer", "--write"], FAULT)
    finally:
        subprocess.run(["umount", folder.path], check=True)


@case("a limit on the sizes of files")
def _(folder):
    folder.expect(RENAME, FAULT, lambda: resource.setrlimit(resource.RLIMIT_FSIZE, (0, 0)))


@case("a FIFO, a folder and a link that leads nowhere have names of sources")
def _(folder):
    os.mkfifo(folder.at("c.ml"))
    folder.expect(["check"], FAULT)
    os.remove(folder.at("c.ml"))
    os.mkdir(folder.at("c.ml"))
    folder.expect(["check"], FAULT)
    os.rmdir(folder.at("c.ml"))
    os.symlink("nowhere", folder.at("c.ml"))
    folder.expect(["check"], FAULT)


@case("rotor.gate is a FIFO")
def _(folder):
    os.mkfifo(folder.at("rotor.gate"))
    folder.expect(RENAME, FAULT)


@case("the folder was removed")
def _(folder):
    for name in OLD:
        os.remove(folder.at(name))
    gone = lambda: os.rmdir(folder.path)
    assert folder.run(["check"], gone) == FAULT
    os.makedirs(folder.path)


def many():
    """Sources that take some time to write."""
    files = {"a.ml": b"let x = 1\n" + b"let y = 2\n" * 2_000}
    for number in range(60):
        files[f"u{number}.ml"] = b"let v = A.x\n" * 400
    return files


def renamed(files):
    return {name: text.replace(b"let x = 1", b"let total = 1").replace(b"A.x", b"A.total") for name, text in files.items()}


@case("six runs at once")
def _(folder):
    files = many()
    folder.write({"b.ml": b""} | files)
    os.remove(folder.at("b.ml"))
    runs = [folder.start(RENAME) for _ in range(6)]
    ended = []
    for run in runs:
        run.communicate()
        ended.append(run.returncode)
    # A run that begins when another has ended finds the new sources, and is refused.
    assert ended.count(DONE) == 1 and set(ended) <= {DONE, REFUSED, FAULT}, f"statuses {ended}"
    assert folder.bytes_of() == renamed(files), "the folder is mixed"


def is_stopped(old, new, text):
    """Whether a stop can leave this text: the old one, the new one, or a front of the new one before the old rest."""
    if text in (old, new):
        return True
    if len(new) > len(old) and text[:len(old)] == old and new[len(old):].startswith(text[len(old):]):
        return True
    rest = new[len(old):] if len(new) > len(old) else b""
    return any(text == new[:at] + old[at:] + rest for at in range(len(old) + 1))


def stop(folder, words, latest):
    started = folder.start(words)
    time.sleep(random.random() * latest)
    started.kill()
    started.communicate()
    return started.returncode


def stops(folder, count):
    """Kills runs at random times: of --write, and of --safe with a recovery behind it."""
    files = many()
    os.remove(folder.at("b.ml"))
    new = renamed(files)
    begun = time.time()
    folder.write(files)
    assert folder.run(RENAME) == DONE
    latest = (time.time() - begun) * 1.2
    mixed = half = 0
    for number in range(count):
        for name in list(folder.bytes_of()):
            os.remove(folder.at(name))
        folder.write(files)
        if number % 2 == 0:
            stop(folder, RENAME, latest)
            held = folder.bytes_of()
            assert set(held) == set(files), f"files {set(held) ^ set(files)}"
            for name, text in held.items():
                assert is_stopped(files[name], new[name], text), f"{name} has other bytes"
            mixed += held not in (files, new)
        else:
            stop(folder, SAFE, latest)
            held = {name: text for name, text in folder.bytes_of().items() if name in files}
            half += held not in (files, new)
            status = folder.run(["recover"])
            assert status in (DONE, REFUSED), f"recover ended with {status}"
            held = {name: text for name, text in folder.bytes_of().items() if name in files}
            assert held in (files, new), "recover left a mixed project"
    print(f"     {count} stops: {mixed} left a mixed folder by --write; {half} by --safe, which recover repaired")


def main():
    parser = argparse.ArgumentParser(description=__doc__, formatter_class=argparse.RawDescriptionHelpFormatter)
    parser.add_argument("program")
    parser.add_argument("--stops", type=int, default=100)
    words = parser.parse_args()
    program = os.path.abspath(words.program)
    cases.append(("stops at random times", False, lambda folder: stops(folder, words.stops)))
    failed = 0
    for title, needs_root, run in cases:
        if needs_root and os.geteuid() != 0:
            print(f"skip {title}")
            continue
        with tempfile.TemporaryDirectory() as top:
            try:
                run(Folder(program, top))
                print(f"ok   {title}", flush=True)
            except (AssertionError, OSError, subprocess.SubprocessError) as error:
                failed += 1
                print(f"FAIL {title}: {error}", flush=True)
    print(f"{len(cases) - failed} of {len(cases)} cases passed or were skipped")
    sys.exit(1 if failed else 0)


if __name__ == "__main__":
    main()
