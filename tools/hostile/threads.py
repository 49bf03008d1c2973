#!/usr/bin/env python3
"""Refuses each thread of `msc run` in turn, and looks at the answer.

    threads.py [--instances N ..] [--limit] PROGRAM

For charts of 1 to 32 instances, or of these numbers alone, with each kind of queues, and with
random rules for links, each thread is refused alone, and with all later ones. Each answer has to be
the fault line of the instance whose thread was refused first, nothing on standard output, and
status 4; the process has to end by itself at once. Two charts are run for each number: in the one
each instance waits for the one before it and the first for the last, so each waits for the one that
is missing; in the other the last instance sends to all others, which act when they have it. A third
chart is run once: two instances wait for the third, and then for each other. With --limit, as root,
no call is refused, but the system itself says no: the program runs as a user that may have 1 to 9
processes and threads, and in a control group that may, where one can be made; else that is said,
and left out. Prints what differs, and last `N passed, M failed`.
"""
import os
import pathlib
import random
import resource
import shutil
import sys
import tempfile
import time

from program import QUEUES, Answer, Count, arguments, mixed, run
from models.links import Given
from refuse import Shim

# the most seconds after which an answer comes at once
SOON = 10
# a user that has no process
NOBODY = 64321


def section(name, events):
    return f"instance i{name};" + "".join(f"{event};" for event in events) + "endinstance;"


def text_of(sections):
    return ("msc t;" + "".join(sections) + "endmsc;").encode()


def ring(count):
    """Each instance waits for the one before it; the first sends, and then waits for the last."""
    last = count - 1
    first = section(0, ["out m0 to i1", f"in m{last} from i{last}"])
    rest = [section(i, [f"in m{i - 1} from i{i - 1}", f"out m{i} to i{(i + 1) % count}"])
            for i in range(1, count)]
    return text_of([first, *rest] if rest else [section(0, ["out m to i0", "in m from i0"])])


def star(count):
    """The last instance sends to all others."""
    last = count - 1
    some = [section(i, [f"in m{i} from i{last}", f"action 'a{i}'"]) for i in range(last)]
    return text_of([*some, section(last, [f"out m{i} to i{i}" for i in range(last)])])


def knot(_):
    """Two instances wait for the third, and then for each other."""
    waiting = [
        section(i, [f"in p{i} from i2", f"out q{i} to i{1 - i}", f"in q{1 - i} from i{1 - i}"])
        for i in range(2)
    ]
    return text_of([*waiting, section(2, ["out p0 to i0", "out p1 to i1"])])


def not_started(instance):
    return Answer(b"", f"run fault 1: instance {instance} could not be started\n".encode(), 4)


def refuse_each(count, program, shim, instances, charts=(ring, star)):
    """Refuses each thread of charts with so many instances."""
    some = mixed(random.Random(instances), [f"i{number}" for number in range(instances)])
    for chart in charts:
        for queues in (*map(Given, QUEUES), some):
            words, text = [program, "run", *queues.words(), "-"], chart(instances)
            answer = run(words, text, env=shim.env())
            is_full = answer.status == 0 and shim.made()[1] == instances
            count.add(is_full, chart.__name__, instances, queues, "in full", shim.made(), answer)
            for instance in range(instances):
                for later in ("", "+"):
                    began = time.monotonic()
                    answer = run(words, text, env=shim.env(REFUSE_THREAD=f"{instance + 1}{later}"))
                    told = chart.__name__, instances, queues, f"thread {instance}{later}"
                    count.compare(answer, not_started(instance), *told)
                    is_soon = time.monotonic() - began < SOON
                    count.add(is_soon, *told, f"has not ended after {SOON} seconds")


def limited(most):
    """What is done in a process before it becomes the program: it may have so many threads and
    processes."""
    return lambda: resource.setrlimit(resource.RLIMIT_NPROC, (most, most))


def grouped(group, most):
    """The same, by a control group."""
    (group / "pids.max").write_text(str(most))
    return lambda: (group / "cgroup.procs").write_text(str(os.getpid()))


def made_group():
    """A new control group that can have a limit of threads, of either version; none where none can
    be made."""
    for line in pathlib.Path("/proc/mounts").read_text().splitlines():
        _, folder, kind, options = line.split(" ")[:4]
        if kind == "cgroup2" or kind == "cgroup" and "pids" in options.split(","):
            group = pathlib.Path(folder) / f"msc-threads-{os.getpid()}"
            try:
                group.mkdir()
            except OSError:
                continue
            if (group / "pids.max").exists():
                return group
            group.rmdir()
    return None


def limit_each(count, words, told, options_of):
    """Runs charts where few threads may be had; the options of a run are made of how many."""
    for threads in range(9):
        for queues in QUEUES:
            # all wait for the last, so no thread ends whose place another could take
            answer = run([*words, "--queues", queues, "-"], star(9), **options_of(threads + 1))
            count.compare(answer, not_started(threads), f"{told}: {threads} threads", queues)


def limit_user(count, program, folder):
    """Runs charts as a user that may have few threads."""
    reachable = pathlib.Path(folder) / "msc"
    shutil.copy(program, reachable)
    os.chmod(folder, 0o755)
    os.chmod(reachable, 0o755)
    limit_each(count, [reachable, "run"], "user",
               lambda most: {"user": NOBODY, "preexec_fn": limited(most), "cwd": "/"})


def limit_group(count, program):
    """Runs charts in a control group that may have few threads."""
    group = made_group()
    if not group:
        print("no control group with a limit of threads can be made here: left out")
        return
    try:
        limit_each(count, [program, "run"], "group",
                   lambda most: {"preexec_fn": grouped(group, most)})
    finally:
        group.rmdir()


def main():
    words = arguments(__doc__)
    words.add_argument("--instances", type=int, nargs="+", default=range(1, 33), metavar="N")
    words.add_argument("--limit", action="store_true")
    options = words.parse_args()
    count = Count()
    with tempfile.TemporaryDirectory() as folder:
        if options.limit:
            limit_user(count, options.program, folder)
            limit_group(count, options.program)
        else:
            refuse_each(count, options.program, Shim(folder), 3, [knot])
            for instances in options.instances:
                refuse_each(count, options.program, Shim(folder), instances)
    return count.end()


if __name__ == "__main__":
    sys.exit(main())
