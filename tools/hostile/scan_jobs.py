#!/usr/bin/env python3
"""Scans many files with different numbers of jobs, and looks whether all answers are the same.

    scan_jobs.py [--files N] [--sample K] [--seed S] PROGRAM

The files are N random charts, diagrams, pages of Markdown and other texts (1,000 if it is not
given), faulty ones among them, in folders. In each form, under one and under all architectures,
`--jobs` 1, 2, 7 and 64, on all processors and on one, has to print the same bytes, with the same
status. One scan of all files, and scans of K random ones (60 if it is not given) in a random order,
are compared with tools/naive/models/scan.py.

So are the answers to charts whose blocks have more than 4 MiB, for which memory may not grow; and
to the largest charts and diagrams with stacks of 128 KiB. Prints what differs, and last `N passed,
M failed`.
"""
import contextlib
import hashlib
import os
import pathlib
import random
import sys
import tempfile
import time
from subprocess import Popen
from typing import NamedTuple

from limits import SMALL, of_events
from load import INSTANCES, MESSAGES, drawn
from program import MOST_SECONDS, Count, arguments, run
from generators.imports import at_the_limits
from generators.scans import text_for
from models import scan

JOBS = (1, 2, 7, 64)
# options of a scan, and a PATH for standard input
SCANS = [
    [], ["--show=2", "--again"], ["--queues=all"], ["-q"], ["--only-races", "--no-accept"],
    ["--format=text", "--closest"], ["--format=text", "--queues=all", "--show=0"],
    ["--format=count"], ["--format=count", "--queues=all"], ["--format=lines", "--places"],
    ["--format=count", "-"],
]
ENDINGS = ["msc"] * 4 + ["mmd", "mmd", "mermaid", "md", "md", "markdown"]
# how many charts have blocks of more than 4 MiB, and their messages
LARGE, LARGE_MESSAGES = 24, 512
# the bytes of memory that a scan of them may take, and those for each job
MOST_MEMORY, MOST_OF_JOB = 16 * 2 ** 20, 10 * 2 ** 20


class Scan(NamedTuple):
    """What a scan prints, shortened to a digest, its status, and the peak of its memory."""
    digest: str
    length: int
    error: bytes
    status: int
    memory: int


def make_files(pick, folder, number):
    """Makes random files in a folder, and in folders below it; their names."""
    names = []
    for n in range(number):
        place = "/".join(f"d{pick.randrange(5)}" for _ in range(pick.choice([0, 1, 1, 2, 3])))
        name = f"{place and place + '/'}{n}.{pick.choice(ENDINGS)}"
        (folder / name).parent.mkdir(parents=True, exist_ok=True)
        (folder / name).write_bytes(text_for(pick, name))
        names.append(name)
    os.symlink("nothing", folder / "lost.msc")
    (folder / "empty").mkdir()
    return names


@contextlib.contextmanager
def on(processors):
    """Runs begin on these processors."""
    every = os.sched_getaffinity(0)
    os.sched_setaffinity(0, processors)
    try:
        yield
    finally:
        os.sched_setaffinity(0, every)


def random_files(count, program, pick, options):
    """Compares scans of random files by different numbers of jobs, and with the model."""
    every = os.sched_getaffinity(0)
    with tempfile.TemporaryDirectory() as name:
        folder = pathlib.Path(name)
        names = make_files(pick, folder, options.files)
        stdin = text_for(pick, "a.md")
        for words in SCANS:
            answers = {}
            for processors in (every, {min(every)}):
                with on(processors):
                    for jobs in (*([f"--jobs={n}"] for n in JOBS), []):
                        told = *jobs, *words, f"{len(processors)} processors"
                        got = run([program, "scan", *jobs, *words, "."], stdin, cwd=folder)
                        answers[told] = got
            first, wanted = next(iter(answers.items()))
            is_right = wanted.status in (0, 1, 2, 4) and not wanted.error
            count.add(is_right, *first, wanted.status, wanted.error)
            for told, got in answers.items():
                count.add(got == wanted, *told, "is another answer than", *first)
        with contextlib.chdir(folder):
            count.compare(run([program, "scan", "."]), scan.answer(["."]), "all files")
            some = pick.sample(names, min(options.sample, len(names)))
            for words in SCANS:
                words = [*words, *some]
                count.compare(run([program, "scan", *words], stdin), scan.answer(words, stdin),
                              *words)


def memory_of(pid):
    """The peak of the memory of a process, in bytes; 0 if it has ended."""
    with contextlib.suppress(OSError):
        for line in pathlib.Path(f"/proc/{pid}/status").read_text().splitlines():
            if line.startswith("VmHWM:"):
                return int(line.split()[1]) * 1024
    return 0


def measured(words, folder):
    """Runs words whose output is long."""
    with open(folder / "output", "wb") as output, open(folder / "error", "wb") as error:
        process, most = Popen(words, stdout=output, stderr=error), 0
    ends = time.monotonic() + 2 * MOST_SECONDS
    while process.poll() is None:
        most = max(most, memory_of(process.pid))
        time.sleep(0.01)
        if time.monotonic() > ends:
            process.kill()
    held = (folder / "output").read_bytes()
    digest, error = hashlib.sha256(held).hexdigest(), (folder / "error").read_bytes()
    return Scan(digest, len(held), error, process.returncode, most)


def large_blocks(count, program):
    """Scans charts with long blocks; all blocks together would take more memory than they may."""
    text = of_events(LARGE_MESSAGES, step=-1)
    with tempfile.TemporaryDirectory() as name:
        folder = pathlib.Path(name)
        (folder / "some").mkdir()
        for number in range(LARGE):
            (folder / f"some/{number}.msc").write_bytes(text)
        words = ["--format=text", "--show=0", "--queues=pair"]
        one = measured([program, "scan", "--jobs=1", *words, str(folder / "some")], folder)
        is_long = one.length > LARGE * 4 * 2 ** 20 and one.status == 1
        count.add(is_long and not one.error, "blocks of more than 4 MiB", one)
        for jobs in JOBS:
            told = f"--jobs={jobs}", *words
            got = measured([program, "scan", *told, str(folder / "some")], folder)
            count.add(got[:4] == one[:4], *told, got, one)
            is_small = got.memory < MOST_MEMORY + MOST_OF_JOB * min(jobs, LARGE)
            count.add(is_small, *told, "takes too much memory", got)


def stacks(count, program):
    """Scans the largest charts and diagrams with small stacks."""
    charts = [of_events(1024, 1024), of_events(1024, step=-1),
              drawn(random.Random(1), INSTANCES, MESSAGES)]
    with tempfile.TemporaryDirectory() as name:
        folder = pathlib.Path(name)
        for number, text in enumerate(charts):
            (folder / f"{number}.msc").write_bytes(text)
        for number, (text, _) in enumerate(at_the_limits()):
            (folder / f"{number}.mmd").write_text(text)
        for jobs in JOBS:
            for words in (["--show=1"], ["--format=count", "--queues=all", "--limit=4096"]):
                words = [program, "scan", f"--jobs={jobs}", *words, "."]
                full, small = (run(words, cwd=folder, **how) for how in ({}, SMALL))
                count.add(small == full, *words[1:], "with small stacks", small[1:])


def main():
    words = arguments(__doc__)
    words.add_argument("--files", type=int, default=1000, metavar="N")
    words.add_argument("--sample", type=int, default=60, metavar="K")
    words.add_argument("--seed", type=int, default=1, metavar="S")
    options = words.parse_args()
    program, count = str(pathlib.Path(options.program).resolve()), Count()
    random_files(count, program, random.Random(options.seed), options)
    large_blocks(count, program)
    stacks(count, program)
    return count.end()


if __name__ == "__main__":
    sys.exit(main())
