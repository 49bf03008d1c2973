"""Laws of architectures with a kind for each link, on small random charts and diagrams.

By a search over all states of runs an event is enforced before another exactly if no run has the
other one without it. Queues that are coarser, so that messages which share one still do, enforce
whatever the others do; so a chart that passes with `single` passes with all. One kind for all links
is the old rule, by which messages share a queue. What a head lists gives the same kinds again, the
order of rules does not matter, and the chart of a diagram has the queues of the diagram, unless a
check refuses its servers. Each diagram of a text of Markdown has its own. The models agree with the
examples of generators/link_examples.py.
"""
import itertools

from comparisons.links import is_head, rows_of
from generators import link_examples
from generators.charts import crossed_chart, small_chart
from generators.diagram_checks import diagram
from generators.links import page_of, rules, some_queues, with_comments
from harness import Answer, Wrong, want
from models.answers import check_answer, diagram_check_answer, import_answer
from models.chart import QUEUES, Chart, is_enforced
from models.courses import scenarios
from models.links import Architecture, Given, LinkFault, architecture, kinds_of, parted, written
from models.mermaid import one_text, options_of
from models.own import in_diagram, of_chart, of_diagram
from models.reading import Draft
from models.short_runs import State
from models.source import Refused, source_of

NEEDS_PROGRAM = False
OPTIONS = {"number": 100, "messages": 5, "lines": 4}
# the queue of a message, if all links have one kind
OLD = {
    "pair": lambda it: (it.sender, it.receiver),
    "mailbox": lambda it: it.receiver,
    "single": lambda it: it.key,
}
# the kinds, each coarser than those before it
COARSER = ("single", "pair", "mailbox")


def pasts(drawn):
    """What has come in each state that runs reach."""
    start = State(drawn)
    found, left = {start.key()}, [start]
    while left:
        state = left.pop()
        yield state.past
        for later in (state.after(x) for x in drawn.all if state.may_come(x)):
            if later.key() not in found:
                found.add(later.key())
                left.append(later)


def want_enforced(drawn):
    """An event is enforced before another if no run has the other one without it."""
    kept = [sum(1 << f for f in drawn.all if f != e) for e in drawn.all]
    for past in pasts(drawn):
        for e in drawn.all:
            if not past >> e & 1:
                kept[e] &= ~past
    want(kept == drawn.enforced, f"by search {kept}, enforced {drawn.enforced}")


def shared(drawn, queue):
    """The pairs of outputs whose messages share a queue."""
    outputs = filter(drawn.is_output, drawn.all)
    return {(s, t) for s, t in itertools.combinations(outputs, 2) if queue(s) == queue(t)}


def any_kinds(pick, lines, kinds=QUEUES):
    """An architecture with a random kind for each of these links, or for each receiver."""
    links = itertools.product(range(lines), repeat=2)
    if pick.random() < 0.3:
        links = ((None, receiver) for receiver in range(lines))
    return Architecture(pick.choice(QUEUES), {link: pick.choice(kinds) for link in links})


def coarser(pick, queues, lines):
    """An architecture that for each link has its kind, or a coarser one."""
    kinds = {}
    for link in itertools.product(range(lines), repeat=2):
        kinds[link] = pick.choice(COARSER[COARSER.index(queues.kind(*link)):])
    return Architecture(pick.choice(QUEUES), kinds)


def want_coarser(trial, text, fine, coarse):
    """If messages that share a queue still do, what is enforced still is."""
    fine, coarse = Chart(text, fine), Chart(text, coarse)
    if not shared(fine, fine.queue) <= shared(coarse, coarse.queue):
        return False
    trial.noted["coarser queues"] += 1
    want(all(not few & ~more for few, more in zip(fine.enforced, coarse.enforced)),
         f"{coarse.queues} enforces less than {fine.queues}")
    return True


def want_old(pick, text, lines):
    """With one kind for all links messages share a queue as by the old rule."""
    for kind in QUEUES:
        drawn = Chart(text, any_kinds(pick, lines, [kind]))
        wanted = shared(drawn, lambda s: OLD[kind](drawn.events[s]))
        want(shared(drawn, drawn.queue) == wanted, f"{drawn.queues} is not {kind}")
        want(drawn.enforced == Chart(text, kind).enforced, f"{kind} enforces something else")


def every_kind(queues, lines):
    return [queues.kind(*link) for link in itertools.product(range(lines), repeat=2)]


def want_same(pick, text, given, queues):
    """Rules in another order, those that a head lists, and the same in words give the same."""
    names = Chart(text, queues).names
    find = lambda name: names.index(name.decode())
    wanted = every_kind(queues, len(names))
    mixed = [(kind, link.encode()) for kind, link in given.rules]
    pick.shuffle(mixed)
    head = [line.split()[1:] for line in queues.lines(names)]
    listed = [(kind, link.encode()) for link, kind in head[1:]]
    held = "queues " + written(queues.usual, queues.others(names))
    told = text.replace(";", f" comment '{held}';", 1).encode()
    for same in (Architecture(given.queues, kinds_of(mixed, find)),
                 Architecture(head[0][0], kinds_of(listed, find)), of_chart(told, Given("own"))):
        want(every_kind(same, len(names)) == wanted, f"{same} is not {queues}")


def search(trial, text):
    """Looks at a chart with random architectures."""
    pick, lines = trial.pick, len(Draft(text.encode()).instances())
    for given, queues in some_queues(pick, text):
        try:
            want_enforced(Chart(text, queues))
            want_same(pick, text, given, queues)
            some = any_kinds(pick, lines)
            want(want_coarser(trial, text, some, coarser(pick, some, lines)), "not coarser")
            want_coarser(trial, text, some, any_kinds(pick, lines))
            want(want_coarser(trial, text, architecture("single"), some), "not coarser than single")
            want_old(pick, text, lines)
        except Wrong as wrong:
            trial.add(False, f"{text}\n{given}: {wrong}")
        else:
            trial.add(True)


def compare_imported(trial, text):
    """Compares the queues of a diagram with those of its chart, under some more rules."""
    options = options_of([])
    try:
        read = one_text(source_of(text), options).diagram(options)
        course, names = next(scenarios(read, options)), read.names.names
        # other names are those of other lines in the text
        own = [name.decode() for i, name in enumerate(names) if read.names.find(name) == i]
        given = Given("own", rules(trial.pick, own) if own else [])
        wanted = of_diagram(read, given)
    except Refused:
        return
    told = import_answer(text, ["--choose", ",".join(map(str, course.taken)) or "main"]).output
    found = [(it.usual, every_kind(it, len(names))) for it in (of_chart(told, given), wanted)]
    trial.add(found[0] == found[1], text, told, given, *found)
    trial.noted["diagrams that name their queues"] += in_diagram(read) is not None


def heads(text):
    """What a check of diagrams with their own queues prints of each: the lines on its queues, or
    that it is refused."""
    found = []
    for line in diagram_check_answer(text, ["--queues", "own"]).output.decode().splitlines():
        if line.startswith("diagram "):
            found.append([])
        elif line.startswith(("queues ", "link ", "refused")):
            found[-1].append(line)
    return found


def compare_page(trial, texts):
    """Compares the queues of the diagrams of a text with those of each by itself."""
    wanted = [head for text in texts for head in heads(text) or [["refused"]]]
    page = page_of(trial.pick, texts)
    found = heads(page)
    trial.add(found == wanted, page, f"wanted {wanted}", found)
    trial.noted["diagrams of texts with other queues"] += any(head != wanted[0] for head in wanted)


def compare_examples(trial):
    """Compares the examples with what the models say."""
    for text, given, wanted in link_examples.heads():
        if text.startswith(b"sequence"):
            got, place = diagram_check_answer(text, given.words()), link_examples.LINE
        else:
            got, place = check_answer(text, given), link_examples.BYTE
        wanted = wanted.replace("K", str(place)) if isinstance(wanted, str) else wanted
        trial.add(is_head(got, wanted), text, given, f"wanted {wanted}", got)
    for text, words, printed in link_examples.CHECKS:
        wanted = Answer(printed.encode(), b"", int("races" in printed))
        got = check_answer(text.encode(), parted(words)[0])
        trial.add(got == wanted, text, words, wanted, got)
    for text, rows in link_examples.imports():
        got = import_answer(text, [])
        trial.add(rows_of(got.output.decode()) == rows, text, f"wanted {rows}", got)


def compare(trial):
    compare_examples(trial)
    for number in range(trial.options.number):
        made = crossed_chart if number % 2 else small_chart
        search(trial, made(trial.pick, trial.options.lines, trial.options.messages))
        texts = [with_comments(trial.pick, diagram(trial.pick).encode()) for _ in range(2)]
        compare_imported(trial, texts[0])
        compare_page(trial, texts)
