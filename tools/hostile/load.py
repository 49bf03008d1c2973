#!/usr/bin/env python3
"""Runs charts under load, and looks whether every trace is a whole run of its chart.

    load.py [--beside N] [--times N] [--one-processor] PROGRAM

N runs of `msc run` are started side by side (200 where it is not said), over charts of 2 to 32
instances and the kinds of queues in turn, every second one with rules for links; then charts of 32
instances with 1,024 messages are run N times one after the other (20 where it is not said). With
--one-processor all of it has one processor. Every instance has to finish, the trace has to be a run
in which every event occurs, and the status 0; standard error has to be empty. That is looked at by
whole_runs.py; the model in tools/naive takes too long for charts of this size. Prints what differs,
the longest times, and last `N passed, M failed`.
"""
import os
import random
import subprocess
import sys
import time
from subprocess import PIPE

from program import MOST_SECONDS, QUEUES, Answer, Count, arguments, mixed, run
from whole_runs import Drawn, spoiled
from models.links import Given
from models.own import of_chart

# the messages and instances of the largest charts
MESSAGES, INSTANCES = 1024, 32


def drawn(pick, instances, messages):
    """A chart drawn as a list of events in which each output comes before its input: so it has a
    run. A third of the messages are taken at once, and those that wait are taken in any order;
    coregions stand in it."""
    lines, sent = [[] for _ in range(instances)], []

    def add(line, event):
        above = lines[line]
        if above and pick.random() < 0.05 and not above[-1].startswith("concurrent"):
            event = f"concurrent;{above.pop()}{event}endconcurrent;"
        above.append(event)

    number = 0
    while number < messages or sent:
        if number < messages and (not sent or pick.random() < 0.6):
            sender, receiver = pick.randrange(instances), pick.randrange(instances)
            lines[sender].append(f"out m{number} to i{receiver};")
            sent.append((receiver, f"in m{number} from i{sender};"))
            number += 1
        else:
            add(*sent.pop(0 if pick.random() < 0.5 else pick.randrange(len(sent))))
    sections = (f"instance i{name};{''.join(line)}endinstance;" for name, line in enumerate(lines))
    return f"msc t;{''.join(sections)}endmsc;".encode()


def some_queues(pick, number, text, instances):
    """What is said of the queues of a run: each second one has rules for links; and the
    architecture."""
    given = Given(QUEUES[number % 3])
    if number % 2:
        given = mixed(pick, [f"i{name}" for name in range(instances)])
    return given, of_chart(text, given)


def judge(count, chart, queues, answer, *told):
    is_done = answer.status == 0 and answer.error == b""
    wrong = chart.wrong(queues, answer.output.decode()) if is_done else answer
    count.add(wrong is None, *told, queues, wrong)


def side_by_side(count, program, pick, runs):
    """Starts all of them, then looks at each."""
    sizes = (2, 3, 5, 8, 13, 21, 32)
    texts = [drawn(pick, instances, 8 * instances) for instances in sizes]
    charts, begun = [Drawn(text) for text in texts], []
    for number in range(runs):
        text = texts[number % len(texts)]
        given, queues = some_queues(pick, number, text, sizes[number % len(sizes)])
        words = [program, "run", *given.words(), "-"]
        process = subprocess.Popen(words, stdin=PIPE, stdout=PIPE, stderr=PIPE)
        process.stdin.write(text)
        process.stdin.close()
        process.stdin = None
        begun.append((process, charts[number % len(texts)], queues))
    for number, (process, chart, queues) in enumerate(begun):
        try:
            output, error = process.communicate(timeout=10 * MOST_SECONDS)
            answer = Answer(output, error, process.returncode)
            judge(count, chart, queues, answer, f"run {number} of {runs}")
        except subprocess.TimeoutExpired:
            process.kill()
            count.add(False, f"run {number} of {runs} has not ended")


def one_by_one(count, program, pick, times):
    """Runs charts at the limits; answers the longest time of each usual kind. Of one of them is
    looked whether what is no execution of it would be told."""
    longest = dict.fromkeys(QUEUES, 0)
    for number in range(times):
        if number % 50 == 0:
            text = drawn(pick, INSTANCES, MESSAGES)
            chart = Drawn(text)
        given, queues = some_queues(pick, number, text, INSTANCES)
        began = time.monotonic()
        answer = run([program, "run", *given.words(), "-"], text)
        longest[given.queues] = max(longest[given.queues], time.monotonic() - began)
        judge(count, chart, queues, answer, f"large chart, time {number}")
        if number == 0 and answer.status == 0:
            for wrong in spoiled(answer.output.decode()):
                count.add(chart.wrong(queues, wrong), "a wrong text is taken for an execution")
    return longest


def main():
    words = arguments(__doc__)
    words.add_argument("--beside", type=int, default=200, metavar="N")
    words.add_argument("--times", type=int, default=20, metavar="N")
    words.add_argument("--seed", type=int, default=1, metavar="S")
    words.add_argument("--one-processor", action="store_true")
    options = words.parse_args()
    if options.one_processor:
        os.sched_setaffinity(0, {min(os.sched_getaffinity(0))})
    pick, count = random.Random(options.seed), Count()
    began = time.monotonic()
    side_by_side(count, options.program, pick, options.beside)
    print(f"{options.beside} side by side: {time.monotonic() - began:.1f} seconds")
    longest = one_by_one(count, options.program, pick, options.times)
    told = ", ".join(f"{queues} {seconds:.2f}" for queues, seconds in longest.items())
    print(f"{options.times} large charts; the longest took seconds: {told}")
    return count.end()


if __name__ == "__main__":
    sys.exit(main())
