"""What `msc run` may print for a chart, straight from the definitions of docs/MODEL.md ("Runs",
"Instances", "Executions", "Logs and runs").

    tools/naive/print.py executions [--patience N] [--status S] [RULE]..
                                    pair|mailbox|single|own CHART < PRINTED

prints what is wrong with PRINTED, if anything is; the exit status is 1 then. What `msc run` prints
depends on the schedule of the threads, so no text can be compared with it. But the trace has all
that each instance logged, and much is said of logs, ends and a trace whatever the schedule. Each of
that is a function of its own, written for a reader and not for speed; nothing is shared with the
crates.
"""
import collections
import pathlib
import sys

from harness import parser
from models.chart import Chart
from models.links import add_queues, given_of
from models.own import of_chart

# that of `msc run` without --patience
PATIENCE = 1_000_000_000


class Wrong(Exception):
    """What is wrong first with a printed execution."""


def expect(holds, what):
    if not holds:
        raise Wrong(what)


def read_event(drawn, line):
    """The event of a line of the trace, which has its number, the name of its instance and what it
    does."""
    number = line.partition(" ")[0]
    expect(number.isdecimal() and int(number) in drawn.all, f"no event of the chart: {line}")
    e, event = int(number), drawn.events[int(number)]
    wanted = f"{e} {drawn.names[event.line]} {event.text}"
    expect(line == wanted, f"not as event {e} says: {line}")
    return e


def read(drawn, text):
    """The ends of the instances and the events of the trace, each line being as it has to be."""
    expect(text.endswith("\n"), "the last line has no end")
    lines = iter(text.split("\n")[:-1])
    take = lambda: next(lines, "")
    name, *queues = drawn.head()
    expect(take() == name, "the chart's name is another")
    expect(all(take() == line for line in queues), "the architecture is another")
    ends = []
    for name in drawn.names:
        instance, end = take().rpartition(" ")[::2]
        expect(instance == f"instance {name}", f"no line of instance {name} at its place")
        ends.append(end)
    word, count = take().partition(" ")[::2]
    expect(word == "trace" and count.isdecimal(), "there is no trace")
    trace = [read_event(drawn, line) for line in lines]
    expect(count == str(len(trace)), "the number of the trace's events is another")
    return ends, trace


def on_line(drawn, i, events):
    """Those of the events that are on the line of instance i, in their order."""
    return [e for e in events if drawn.events[e].line == i]


class Past:
    """What has occurred, as a set, and the outputs in each queue whose input has not, in order."""

    def __init__(self, drawn):
        self.drawn, self.events, self.queues = drawn, 0, collections.defaultdict(list)

    def has(self, events):
        """Whether all of a set of events have occurred."""
        return not events & ~self.events

    def allows(self, e):
        """Whether e may come next in a run: it has not occurred; all that is drawn before a
        controlled event has; the message of an input is the first of its queue."""
        if self.has(1 << e):
            return False
        if self.drawn.is_controlled(e):
            return self.has(self.drawn.drawn_before[e])
        return self.queues[self.drawn.queue(e)][:1] == [self.drawn.partner[e]]

    def add(self, e):
        self.events |= 1 << e
        if self.drawn.is_output(e):
            self.queues[self.drawn.queue(e)].append(e)
        elif self.drawn.events[e].is_input:
            self.queues[self.drawn.queue(e)].remove(self.drawn.partner[e])


def follows_its_line(drawn, i, log):
    """A log has events of its line, each once. Outputs and local events are the first of the
    line's, in the order of the text, each after all that is drawn before it."""
    expect(len(set(log)) == len(log), f"an event stands twice: {log}")
    due = [e for e in on_line(drawn, i, drawn.all) if drawn.is_controlled(e)]
    done = [e for e in log if drawn.is_controlled(e)]
    expect(done == due[:len(done)], f"not the first ones in the order of the text: {log}")
    past = 0
    for e in log:
        is_late = not drawn.is_controlled(e) or not drawn.drawn_before[e] & ~past
        expect(is_late, f"{e} before what is drawn before it: {log}")
        past |= 1 << e


def past_of_run(drawn, trace):
    """What has occurred after the trace, each event of which may come next where it stands."""
    past = Past(drawn)
    for place, e in enumerate(trace):
        expect(past.allows(e), f"{e} may not come behind {trace[:place]}")
        past.add(e)
    return past


def sent_earlier(drawn, logs):
    """For each logged output those that come before it in every run with these logs as its lines.
    A queue gives its messages in the order in which they were put: so they are those whose
    messages are taken from its queue before its own, or at all, if its own is not."""
    events, earlier, taken = [e for log in logs for e in log], {}, collections.defaultdict(int)
    for e in events:
        if drawn.events[e].is_input:
            earlier[drawn.partner[e]] = taken[drawn.queue(e)]
            taken[drawn.queue(e)] |= 1 << drawn.partner[e]
    for e in events:
        if drawn.is_output(e):
            earlier.setdefault(e, taken[drawn.queue(e)])
    return earlier


def least_run(drawn, logs):
    """Of the runs that have these logs as their lines the one that is least event by event: what
    comes next is the least event that may come, but for outputs of which others come first in every
    such run. So a list that has all events of the logs in the end is the least of the runs."""
    earlier, past, run, heads = sent_earlier(drawn, logs), Past(drawn), [], [0 for _ in logs]
    while len(run) < sum(map(len, logs)):
        left = [log[head] for log, head in zip(logs, heads) if head < len(log)]
        coming = [e for e in left if past.has(earlier.get(e, 0)) and past.allows(e)]
        expect(coming, f"no run has these logs: {logs}")
        run.append(min(coming))
        past.add(run[-1])
        heads[drawn.events[run[-1]].line] += 1
    return run


def reversals(drawn, trace):
    """The pairs that are drawn in an order, of which the second occurs, and the first not
    earlier."""
    pairs, past = [], 0
    for f in trace:
        missing = drawn.drawn_before[f] & ~past
        pairs += [(e, f) for e in drawn.all if missing >> e & 1]
        past |= 1 << f
    return pairs


def is_hungry(drawn, i, past):
    """The first output or local event of the line that is not logged, if there is one, lacks
    something that is drawn before it."""
    line = on_line(drawn, i, drawn.all)
    due = [e for e in line if drawn.is_controlled(e) and not past.has(1 << e)]
    return not due or not past.has(drawn.drawn_before[due[0]])


def can_starve(drawn, i, past):
    """Whether instance i can have found the end marks of all senders of its queues: all that was
    sent there is taken, and where it sends there itself it has sent everything."""
    line = on_line(drawn, i, drawn.all)
    queues = {drawn.queue(e) for e in line if drawn.events[e].is_input}
    outputs = [e for e in line if drawn.is_output(e)]
    is_sender = any(drawn.queue(e) in queues for e in outputs)
    has_closed = past.has(drawn.set_of(outputs))
    return (has_closed or not is_sender) and not any(past.queues[q] for q in queues)


def ended_so(drawn, i, end, log, past, patience):
    """What the end of an instance says. The program has no gate that could say no."""
    name, is_whole = drawn.names[i], len(log) == len(on_line(drawn, i, drawn.all))
    expect(end in ("finished", "starved", "impatient"), f"{name} cannot end as {end}")
    expect(is_whole == (end == "finished"), f"{name} is {end} with the log {log}")
    expect(is_whole or is_hungry(drawn, i, past), f"{name} ends before what could come: {log}")
    if end == "starved":
        expect(can_starve(drawn, i, past), f"{name} is starved, but some sender has not ended")
    if patience == 0:
        took = not all(drawn.is_controlled(e) for e in log)
        expect(end != "starved" and not took, f"{name} takes with a patience of 0")


def is_execution(drawn, patience, text, status):
    """The ends and the trace of an execution of the chart; raises `Wrong` where the text and the
    exit status are not those of one."""
    ends, trace = read(drawn, text)
    logs = [on_line(drawn, i, trace) for i in range(len(drawn.names))]
    for i, log in enumerate(logs):
        follows_its_line(drawn, i, log)
    past = past_of_run(drawn, trace)
    least = least_run(drawn, logs)
    expect(trace == least, f"a lesser run has these logs: {least}")
    for i, end in enumerate(ends):
        ended_so(drawn, i, end, logs[i], past, patience)
    finished = all(end == "finished" for end in ends)
    # no run of a chart is stuck, so whoever is patient finishes
    expect(finished or patience < PATIENCE, "an instance lost its patience")
    expect(status == (0 if finished else 3), f"the status is {status}")
    return ends, trace


def main(given):
    words = parser(__doc__)
    words.add_argument("--patience", type=int, default=PATIENCE, metavar="N")
    words.add_argument("--status", type=int, default=0, metavar="S")
    add_queues(words, "queues")
    words.add_argument("chart", metavar="CHART", type=pathlib.Path)
    options = words.parse_args(given)
    text = options.chart.read_bytes()
    drawn = Chart(text.decode("latin-1"), of_chart(text, given_of(options)))
    printed = sys.stdin.buffer.read().decode("latin-1")
    try:
        is_execution(drawn, options.patience, printed, options.status)
    except Wrong as wrong:
        print(f"executions: {wrong}")
        return 1
    return 0
