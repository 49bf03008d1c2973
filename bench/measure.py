"""What the benchmarks share: building the plain programs, and measuring runs of a program."""
import math
import os
import pathlib
import re
import shutil
import subprocess
import sys
import time

HERE = pathlib.Path(__file__).resolve().parent


def build_plain(name="plain"):
    """Builds the plain programs; answers the path of the one of this name."""
    words = ["cargo", "build", "--release", "--offline", "--quiet", "--target-dir", "out"]
    subprocess.run(words, cwd=HERE / "plain", check=True)
    return str(HERE / "plain/out/release" / name)


def answer(words, file):
    """The exit status, the output and what standard error says."""
    with open(file, "rb") as text:
        done = subprocess.run(words, stdin=text, capture_output=True)
    return done.returncode, done.stdout, done.stderr


def printed(words, file):
    """The output of a run that answers; one that is refused or fails ends the benchmark."""
    status, output, said = answer(words, file)
    if status > 1:
        sys.exit(f"{' '.join(words)}: status {status}, {said.decode(errors='replace')}")
    return output


def times(words, file):
    """The wall time and the processor time (user and system) of one run, in seconds."""
    with open(file, "rb") as text, open(os.devnull, "wb") as nowhere:
        streams = [(os.POSIX_SPAWN_DUP2, text.fileno(), 0)]
        streams += [(os.POSIX_SPAWN_DUP2, nowhere.fileno(), stream) for stream in (1, 2)]
        start = time.perf_counter()
        child = os.posix_spawn(words[0], words, os.environ, file_actions=streams)
        used = os.wait4(child, 0)[2]
        wall = time.perf_counter() - start
    return wall, used.ru_utime + used.ru_stime


def processor_time(words, file):
    """The user and system time of one run, in seconds."""
    return times(words, file)[1]


def reported(tool, words, file, pattern):
    """The number that a measuring tool writes about a run; None where there is no such tool."""
    if not shutil.which(tool[0]):
        return None
    with open(file, "rb") as text:
        nowhere = subprocess.DEVNULL
        done = subprocess.run(tool + words, stdin=text, stdout=nowhere, stderr=subprocess.PIPE)
    found = re.search(pattern, done.stderr)
    return int(found[1]) if found else None


def peak_memory(words, file):
    """The peak of a run's resident memory, in bytes. A child takes over the peak of the process
    that starts it, so it is started by a small program and not by this one."""
    kilobytes = reported(["time", "-f", "peak %M"], words, file, rb"peak (\d+)")
    return kilobytes and kilobytes * 1024


def instructions(words, file):
    """The instructions of a run."""
    tool = ["valgrind", "--tool=callgrind", "--callgrind-out-file=/dev/null"]
    return reported(tool, words, file, rb"Collected : (\d+)")


def beside(pair, unit):
    """Both figures and their ratio."""
    if not all(pair):
        return "-"
    return f"{pair[0] / unit:.1f} / {pair[1] / unit:.1f} = {pair[0] / pair[1]:.2f}"


def show(cells):
    """Prints a row of a table."""
    print("| " + " | ".join(cells) + " |", flush=True)


class Compared:
    """What msc and the plain program did with one text; each figure is the pair of msc's and the
    plain one's."""

    def __init__(self, name, file, programs, options):
        self.name = name
        answers = [answer(words, file)[:2] for words in programs]
        self.differ = answers[0] != answers[1]
        self.status, self.printed = answers[1][0], len(answers[1][1])
        times = [[processor_time(words, file) for words in programs] for _ in range(options.runs)]
        self.time = [min(each) for each in zip(*times)]
        self.memory = [peak_memory(words, file) for words in programs]
        self.count = [None if options.quick else instructions(words, file) for words in programs]

    def figures(self):
        """Processor time, memory, instructions, and how the runs ended."""
        ends = "DIFFER" if self.differ else f"status {self.status}"
        return [beside(self.time, 1e-3), beside(self.memory, 1e6), beside(self.count, 1e6), ends]


def summarise(rows):
    """Mean and worst ratios."""
    for what, name in (("time", "processor time"), ("memory", "memory"), ("count", "instructions")):
        ratios = [(pair[0] / pair[1], row.name) for row in rows if all(pair := getattr(row, what))]
        if ratios:
            mean = math.exp(sum(math.log(ratio) for ratio, _ in ratios) / len(ratios))
            most, name_of_most = max(ratios)
            print(f"- {name}: {mean:.2f} times the plain program's in the geometric mean, "
                  f"at most {most:.2f} times ({name_of_most})")
