#!/usr/bin/env python3
"""Runs a command that proves crates, mostly the gate, and prints where its processor time went.

    tools/gate_cost.py [--table FILE] ./test

For each crate the table has the processor seconds (user and system) of its proof, of its tests and
of its must-fail edits, and how many edits it has; a second one has the dearest edits. They go to
FILE, or to standard error, once the command has ended, whose exit status is passed on. What is
counted are the processes `rattle` below the command, by looking at /proc twice in a second, so each
of them may lack its last half second; the last line tells what the command took beside them. The
time of edits includes the checks of the unchanged crate with which the gate begins and ends them.
"""
import argparse
import collections
import os
import pathlib
import resource
import subprocess
import sys
import time

CRATES = pathlib.Path(__file__).resolve().parent.parent / "crates"
TICK = os.sysconf("SC_CLK_TCK")
PARTS = ("proof", "tests", "edits")


def processes():
    """Of each process its parent, when it started, and its time with that of the children that
    ended."""
    found = {}
    for pid in filter(str.isdigit, os.listdir("/proc")):
        try:
            stat = pathlib.Path("/proc", pid, "stat").read_text()
        except OSError:
            continue
        name = stat[stat.index("(") + 1 : stat.rindex(")")]
        words = stat[stat.rindex(")") + 2 :].split()
        found[int(pid)] = name, int(words[1]), int(words[19]), sum(map(int, words[11:15])) / TICK
    return found


def what(pid):
    """The crate that a process `rattle` works for, the part of the gate, and the number of the
    edit, where it tries one."""
    words = pathlib.Path("/proc", str(pid), "cmdline").read_bytes().decode().split("\0")
    room = os.path.basename(os.readlink(f"/proc/{pid}/cwd"))
    part = "edits" if room.startswith("rt-edit-") else "tests" if "--test" in words else "proof"
    # the gate tries an edit over a folder that is named by its number, and checks the unchanged
    # crate over others
    over = words[words.index("--incremental") + 1] if "--incremental" in words else ""
    number = os.path.basename(over) if part == "edits" else ""
    return words[words.index("--crate-name") + 1], part, int(number) if number.isdigit() else None


class Cost:
    """What was seen of each run of `rattle`, by its number and its start; copies that a run makes
    of itself count as the run."""

    def __init__(self, command):
        self.command, self.whats, self.seconds = command, {}, {}

    def look(self):
        found = processes()
        now = collections.Counter()
        for pid, (name, parent, start, spent) in found.items():
            if name != "rattle":
                continue
            while found.get(parent, ("",))[0] == "rattle":
                pid, parent, start = parent, found[parent][1], found[parent][2]
            if (pid, start) in self.whats or self.is_ours(parent, found):
                now[pid, start] += spent
        for run, spent in now.items():
            try:
                self.whats[run] = self.whats.get(run) or what(run[0])
            except (OSError, ValueError):
                continue
            self.seconds[run] = max(spent, self.seconds.get(run, 0))

    def is_ours(self, pid, found):
        while pid in found and pid != self.command:
            pid = found[pid][1]
        return pid == self.command

    def table(self, whole):
        spent = collections.defaultdict(collections.Counter)
        tried = collections.Counter()
        for run, seconds in self.seconds.items():
            crate, part, number = self.whats[run]
            spent[crate][part] += seconds
            if number is not None:
                tried[crate, number] += seconds
        yield "| crate | proof | tests | edits | all | number of edits |"
        yield "| --- | ---: | ---: | ---: | ---: | ---: |"
        edits = {crate: edits_of(crate) for crate in spent}
        for crate in sorted(spent, key=lambda it: -sum(spent[it].values())):
            yield row(crate, spent[crate], len(edits[crate]))
        every = sum(spent.values(), collections.Counter())
        yield row("all crates", every, sum(map(len, edits.values())))
        yield ""
        yield "| edit | seconds |"
        yield "| --- | ---: |"
        for (crate, number), seconds in tried.most_common(20):
            # the gate numbers a crate's edits in the order of their names, from 0
            yield f"| `{crate}`: {edits[crate][number]} | {seconds:.0f} |"
        yield ""
        seen = sum(self.seconds.values())
        yield (
            f"{whole:.0f} processor seconds in all, "
            f"{whole - seen:.0f} of them beside the crates' checks."
        )


def edits_of(crate):
    """The names of a crate's edits; with `--all` those of tools/more_edits are tried too."""
    found = [*CRATES.glob(f"{crate}/must-fail/*.edit")]
    if "--all" in sys.argv:
        found += CRATES.parent.glob(f"tools/more_edits/{crate}/*.edit")
    return sorted(it.stem for it in found)


def row(name, spent, edits):
    figures = [f"{spent[part]:.0f}" for part in PARTS] + [f"{sum(spent.values()):.0f}", str(edits)]
    return f"| {name} | " + " | ".join(figures) + " |"


def main():
    style = argparse.RawDescriptionHelpFormatter
    words = argparse.ArgumentParser(description=__doc__, formatter_class=style)
    words.add_argument("--table", metavar="FILE")
    words.add_argument("command", nargs=argparse.REMAINDER, metavar="COMMAND")
    options = words.parse_args()
    if not options.command:
        words.error("a command is missing")
    command = subprocess.Popen(options.command)
    cost = Cost(command.pid)
    while command.poll() is None:
        cost.look()
        time.sleep(0.5)
    used = resource.getrusage(resource.RUSAGE_CHILDREN)
    with open(options.table, "w") if options.table else sys.stderr as file:
        for line in cost.table(used.ru_utime + used.ru_stime):
            print(line, file=file)
    return command.returncode if command.returncode >= 0 else 128 - command.returncode


if __name__ == "__main__":
    sys.exit(main())
