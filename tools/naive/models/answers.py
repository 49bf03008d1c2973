"""What commands answer to a text, by all models: both streams and the status.

The commands are `msc read -`, `msc check --queues QUEUES --show SHOW -`, `msc follow`, `msc draw`
and `msc ready`, each with `--queues QUEUES -`, `check` and `ready` with `--again`, `msc import` and
`msc check --from`, and `check` and `ready` with `--format full`. QUEUES is an architecture, or what
a command line says of queues.
"""
from harness import Answer, joined
from models import full, rounds
from models.chart import Chart
from models.following import answer as follow_lines
from models.links import Given, LinkFault
from models.mermaid import answered
from models.mermaid import options_of as import_options
from models.own import of_chart
from models.picture import chart_picture
from models.reading import Draft, Refused
from models.ready import answer as ready_lines
from models.scenarios import answer as scenarios_answer
from models.scenarios import options_of as check_options

# a run for every race
ALL = 2 ** 32 - 1


def refusal(line):
    return Answer(b"", f"{line}\n".encode(), 2)


def read_answer(text):
    try:
        return Answer(Draft(text).canonical(), b"", 0)
    except Refused as fault:
        return refusal(fault)


def fault_of(text):
    """The fault for which a text has no chart, or None."""
    try:
        return Draft(text).fault()
    except Refused as refused:
        return refused


def lines_answer(lines, status):
    return Answer(joined(lines), b"", status)


def on_chart(text, queues, answered):
    """What is answered of the characters of a chart's text and its architecture, or the fault of
    the text or of the links."""
    fault = fault_of(text)
    if fault:
        return refusal(fault)
    try:
        queues = of_chart(text, queues) if isinstance(queues, Given) else queues
    except LinkFault as link:
        return refusal(link.line(link.at))
    return answered(text.decode("latin-1"), queues)


def check_answer(text, queues, show=ALL):
    def answered(told, queues):
        chart = Chart(told, queues)
        return lines_answer(chart.verdict(show), int(bool(chart.races())))

    return on_chart(text, queues, answered)


def follow_answer(text, queues, words=False, file=None):
    """Of `msc follow`, with `--places` if a file is named; without the notes of a fault."""
    return on_chart(text, queues, lambda told, queues: lines_answer(
        *follow_lines(told, queues, words, file)))


def draw_answer(text, queues):
    return on_chart(text, queues, lambda told, queues: lines_answer(
        chart_picture(Chart(told, queues), True), 0))


def ready_answer(text, queues):
    return on_chart(text, queues, lambda told, queues: lines_answer(*ready_lines(told, queues)))


def again_answer(text, command, queues):
    """Of `msc check --again` or `msc ready --again`."""
    lines_of = rounds.check_answer if command == "check" else rounds.ready_answer

    def answered(told, queues):
        fault = rounds.fault_of_rounds(told, queues)
        return refusal(fault) if fault else lines_answer(*lines_of(told, queues))

    return on_chart(text, queues, answered)


def full_answer(text, command, given, words=()):
    """Of `msc check` or `msc ready` with `--format full`."""
    asked = [command, *words, *given.words()[2:], given.queues, "-"]
    return full.answer(text, full.options_of(asked)).answer()


def import_answer(text, words, listed=False):
    """Of `msc import`, with `--list` if the events are listed."""
    return Answer(*answered(text, import_options([*words, *(["--list", "-"] if listed else [])])))


def diagram_check_answer(text, words, file="-", has_notes=False):
    """Of `msc check --from`, with the notes of faults if these have some."""
    words = words if has_notes else [word for word in words if word != "--places"]
    options = check_options([*words, file])
    options.notes = has_notes
    return Answer(*scenarios_answer(text, options))
