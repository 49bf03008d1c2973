"""Runs of the program, for the commands beside this file."""
import pathlib
import sys

sys.dont_write_bytecode = True
TOP = pathlib.Path(__file__).resolve().parent.parent.parent
sys.path += [str(TOP / "tools/naive"), str(TOP / "tools/refuse")]
from harness import MOST_SECONDS, Answer, parser, run
from models.chart import QUEUES
from models.links import Given

# words that are to be LINKs, and are none or name no instance
LINKS = ["", " ", ">", ">a", "a>", "a> ", "a>b>c", "a>>b", ">>", "a,b", "a;b", "'", "A", "-a", "--",
         "a\tb", "\x01>a", "a>\x1b[31m", "\x7f", "\r\n", "\u00e9", "a>\u7528\u6237", "\u202ea",
         "\ufeffa", "\u00a0a", "x" * 65, "a>" + "b" * 100000, ">" * 100000, " " * 100000]
# the commands that are tried
COMMANDS = ["read", "check", "follow", "run", "draw", "reverse", "report", "ready", "import"]


def arguments(about):
    """The words of a command, of which the program is one."""
    words = parser(about)
    words.add_argument("program", metavar="PROGRAM")
    return words


def add_commands(words):
    """Puts the option for the commands that are tried."""
    words.add_argument("--commands", default=COMMANDS, metavar="C,..",
                       type=lambda text: text.split(","))


def queue_words(queues):
    """The words for an architecture, which are one kind, or what a command line says of queues."""
    return (queues if isinstance(queues, Given) else Given(queues)).words()


def check_words(program, queues, show=None):
    shown = [] if show is None else ["--show", str(show)]
    return [program, "check", *queue_words(queues), *shown, "-"]


def mixed(pick, names):
    """A random usual kind, and rules for some of the links to instances of these names."""
    links = [*names, *(f"{pick.choice(names)}>{name}" for name in names)]
    some = pick.sample(links, pick.randint(1, len(links)))
    return Given(pick.choice(QUEUES), [(pick.choice(QUEUES), link) for link in some])


class Count:
    """How many checks passed and failed. What failed is printed, at most so many times."""

    def __init__(self, most=20):
        self.passed = self.failed = 0
        self.most = most

    def add(self, is_right, *told):
        """Counts a check; `told` says what it was."""
        if is_right:
            self.passed += 1
            return
        self.failed += 1
        if self.failed <= self.most:
            print("failed:", *told)

    def compare(self, got, wanted, *told):
        self.add(got == wanted, *told, f"\n  wanted {brief(wanted)}\n  got    {brief(got)}")

    def end(self):
        """Prints the sum; answers the exit status of a command: 1 where one failed, or none was
        tried."""
        print(f"{self.passed} passed, {self.failed} failed")
        return int(self.failed > 0 or self.passed == 0)


def brief(value):
    text = repr(tuple(value) if isinstance(value, tuple) else value)
    return text if len(text) <= 600 else f"{text[:300]} .. {text[-300:]}"
