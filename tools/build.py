#!/usr/bin/env python3
"""Proves the crates that the program stands on, where their sources changed, and builds it.

    tools/build.py LANES

Crates that do not stand on each other are proved side by side, by LANES processes in all: a crate
gets those that no other one waits for. rt lets one run at a time into a crate and into those below
it, so crates are proved in copies of the repository, out/proving/N, to which their kept work goes
and from which it comes back. Tells on standard error how far it is. The exit status is 1 where a
proof failed; what rt said of it is printed then.
"""
import argparse
import concurrent.futures
import fcntl
import os
import pathlib
import re
import shutil
import subprocess
import sys
import threading
import time

TOP = pathlib.Path(__file__).resolve().parent.parent
PROVING = TOP / "out/proving"
SOURCES = ("src", "specs", "proofs")
COUNT = re.compile(r"^checked .*, (\d+ of \d+)$")


def read_crates():
    """The crates that the program stands on, lowest first, with those that each names."""
    named = {}
    for line in (TOP / "crates.txt").read_text().splitlines():
        if line and not line.startswith("#"):
            name, below = line.split(":")
            named[name.split()[0]] = below.split()
    found = {}

    def visit(name):
        if name not in found:
            below = [it for it in named[name] if it in named]
            for it in below:
                visit(it)
            found[name] = below

    visit("msc")
    return found


def newest(paths):
    """When a file below these paths, or a folder, was last changed."""
    return max(it.stat().st_ctime for path in paths for it in [path, *path.rglob("*")])


def is_proved(name, below):
    """Whether the library of a crate is newer than all sources that it is made from."""
    stamp = TOP / "crates" / name / "out/rlib/stamp"
    folders = [TOP / "crates" / it / part for it in [name, *below] for part in SOURCES]
    paths = [TOP / "crates.txt", *filter(pathlib.Path.is_dir, folders)]
    return stamp.is_file() and newest(paths) < stamp.stat().st_mtime


def all_below(crates, name):
    """Every crate that a crate stands on."""
    return {it for lower in crates[name] for it in [lower, *all_below(crates, lower)]}


def lay_out(room, name, below):
    """Puts into a copy what it lacks: a crate, without what it kept, and the libraries of those
    that it stands on."""
    room.mkdir(parents=True, exist_ok=True)
    shutil.copy(TOP / "HANDLES", room)
    for crate in [name, *below]:
        # a link to a source would change its time
        parts = [(part, shutil.copy) for part in SOURCES]
        parts += [("out/rlib", os.link)] if crate != name else []
        for part, copy in parts:
            there, here = TOP / "crates" / crate / part, room / "crates" / crate / part
            if there.is_dir() and not here.exists():
                shutil.copytree(there, here, copy_function=copy)
    lines = (TOP / "crates.txt").read_text().splitlines(keepends=True)
    here = [it for it in lines if (room / "crates" / re.split("[ :]", it)[0]).is_dir()]
    (room / "crates.txt").write_text("".join(here))


class Progress:
    """What is said on standard error of the crates that are being proved."""

    def __init__(self, total):
        self.total, self.done, self.start = total, 0, time.monotonic()
        self.counts, self.lock = {}, threading.Lock()

    def show(self, name, count):
        """Shows on a terminal how many functions of each crate were checked so far."""
        with self.lock:
            self.counts[name] = count
            if sys.stderr.isatty():
                line = ", ".join(f"{it} {count}" for it, count in self.counts.items())
                print(f"\r\033[Kmsc: proving {line}", end="", file=sys.stderr, flush=True)

    def end(self, name):
        with self.lock:
            self.counts.pop(name, None)
            self.done += 1
            seconds = int(time.monotonic() - self.start)
            clear = "\r\033[K" if sys.stderr.isatty() else ""
            said = f"msc: proved {name}, {self.done} of {self.total}, {seconds} seconds"
            print(f"{clear}{said}", file=sys.stderr, flush=True)


class Calls:
    """The commands that run, which end together."""

    def __init__(self, tell):
        self.running, self.lock, self.is_over, self.tell = set(), threading.Lock(), False, tell

    def call(self, words, folder, name):
        """Runs a command for a crate, and tells each count of checked functions; answers what it
        said, and whether it ended well."""
        with self.lock:
            if self.is_over:
                return "", False
            process = subprocess.Popen(
                words, cwd=folder, stdin=subprocess.DEVNULL, stdout=subprocess.PIPE,
                stderr=subprocess.STDOUT, text=True, errors="replace"
            )
            self.running.add(process)
        said = []
        with process:
            for line in process.stdout:
                said.append(line)
                count = COUNT.match(line)
                if count:
                    self.tell(name, count[1])
        with self.lock:
            self.running.discard(process)
        return "".join(said), process.returncode == 0

    def end(self):
        with self.lock:
            self.is_over = True
            for it in self.running:
                it.terminate()


def prove(crates, name, jobs, room, calls):
    """Proves a crate in a copy of the repository and makes its library, or builds the program;
    answers what rt said if it failed."""
    crate, inside = TOP / "crates" / name, room / "crates" / name
    steps = [["rt", "check", "--jobs", str(jobs)], ["rt", "lib"]]
    if name == "msc":
        steps = [["rt", "run", "--", "--version"]]
    held = os.open(crate, os.O_RDONLY)
    try:
        # as rt does, so that nobody else works in the crate meanwhile
        fcntl.flock(held, fcntl.LOCK_EX)
        lay_out(room, name, sorted(all_below(crates, name)))
        if (crate / "out").is_dir():
            os.rename(crate / "out", inside / "out")
        for words in steps:
            said, is_well = calls.call(words, inside, name)
            if not is_well:
                return said
        return None
    finally:
        if (inside / "out").is_dir():
            shutil.rmtree(crate / "out", ignore_errors=True)
            os.rename(inside / "out", crate / "out")
        os.close(held)


def build(lanes):
    """Proves what changed, each crate once those below it are; answers the first that failed, and
    what rt said of it."""
    crates = read_crates()
    proved = {it for it in crates if it != "msc" and is_proved(it, all_below(crates, it))}
    left = [it for it in crates if it not in proved]
    rooms = [PROVING / str(at) for at in range(lanes)]
    progress, running = Progress(len(left)), {}
    calls = Calls(progress.show)
    with concurrent.futures.ThreadPoolExecutor(lanes) as pool:
        while left or running:
            ready = [it for it in left if proved.issuperset(crates[it])]
            for at, name in enumerate(ready):
                idle = lanes - sum(jobs for _, jobs, _ in running.values())
                if idle > 0:
                    left.remove(name)
                    jobs, room = max(1, idle // (len(ready) - at)), rooms.pop()
                    ran = pool.submit(prove, crates, name, jobs, room, calls)
                    running[ran] = name, jobs, room
            for it in concurrent.futures.wait(running, return_when="FIRST_COMPLETED").done:
                name, _, room = running.pop(it)
                if it.result() is not None:
                    calls.end()
                    return name, it.result()
                proved.add(name)
                rooms.append(room)
                progress.end(name)
    return None


def main():
    style = argparse.RawDescriptionHelpFormatter
    words = argparse.ArgumentParser(description=__doc__, formatter_class=style)
    words.add_argument("lanes", type=int, metavar="LANES")
    lanes = words.parse_args().lanes
    shutil.rmtree(PROVING, ignore_errors=True)
    try:
        failed = build(lanes)
    finally:
        shutil.rmtree(PROVING, ignore_errors=True)
    if failed:
        name, said = failed
        print(said, end="")
        print(f"build: {name} is not proved", file=sys.stderr)
    return int(bool(failed))


if __name__ == "__main__":
    sys.exit(main())
