"""What `msc ready --from --format full` prints of a scenario of a diagram that has a chart."""
from models.courses import course_of
from models.diagnostic import page_of
from models.full_diagrams import DiagramSpeech, idents_of, label_of_file
from models.full_ready import Sticks, lines_of
from models.mermaid import choices_of, one_text, options_of
from models.own import of_diagram
from models.scenarios import Scenario
from models.source import source_of


def answer(text, file, words, asked):
    """The lines, and the exit status, for the diagram of a text; `words` choose the scenario, and
    `asked` is what is asked of it: `queues`, `show`, `only`, `again` and `colours`."""
    source, options = source_of(text, file), options_of(words)
    block = one_text(source, options)
    diagram = block.diagram(options)
    course = course_of(diagram, choices_of(options.choose), options)
    queues = of_diagram(diagram, asked.queues)
    scenario, found = Scenario(course, queues, file), Sticks(course.text("t"), queues, asked)
    page = page_of(source)
    speech = DiagramSpeech(diagram, scenario, page)
    label, names = label_of_file(source, block), idents_of(diagram)
    return lines_of(found, speech, page, label, names, asked), found.status
