"""Whether few numbers of rounds show all races of random Mermaid diagrams.

The races of a diagram whose loops go 0 and 2 rounds have to be, by their lines, their arrows and
the ends of these, those with 0 to 3 rounds, and those with 1 and 2 rounds those with 1 to 3.
Diagrams without a loop, or with more than 300 scenarios, are left out. Two of three have rules for
links.
"""
from generators.diagram_checks import diagram
from generators.links import some_words
from models.chart import QUEUES
from models.courses import scenarios
from models.links import given_of
from models.mermaid import one_text
from models.own import of_diagram
from models.scenarios import Scenario, options_of
from models.source import Refused, source_of

NEEDS_PROGRAM = False
OPTIONS = {"number": 400}
# the numbers of rounds that are to show what the others show
ENOUGH = {"0,2": "0,1,2,3", "1,2": "1,2,3"}


def races(text, rounds, words):
    """The races of a diagram by their lines, arrows and ends, or None where it is refused."""
    options = options_of([*words, "--limit", "300", "--rounds", rounds, "-"])
    try:
        read = one_text(source_of(text), options).diagram(options)
        every, queues = list(scenarios(read, options)), of_diagram(read, given_of(options))
    except Refused:
        return None
    every = [Scenario(course, queues, "-") for course in every]
    return {scenario.ends(race) for scenario in every for race in scenario.races}


def compare(trial):
    pick = trial.pick
    for _ in range(trial.options.number):
        text = diagram(pick).encode()
        given = ["--queues", pick.choice(QUEUES), "--self", pick.choice(["action", "message"])]
        given += pick.choice([[], ["--cross", "lost"], ["--cross", "arrives"]])
        given = some_words(pick, text, given)
        for few, many in ENOUGH.items() if b"\nloop" in text else ():
            wanted = races(text, many, given)
            if wanted is not None:
                told = f"{given}: {few} rounds show other races than {many}"
                trial.add(races(text, few, given) == wanted, text.decode(), told)
                trial.noted["verdicts with races"] += bool(wanted)
