"""What models and comparisons share: command lines, runs of a program, and counts."""
import argparse
import collections
import random
import subprocess
import sys
from typing import NamedTuple

# the most seconds that a run may take
MOST_SECONDS = 60
# the failures after which a comparison ends
MOST_FAILURES = 5


class Answer(NamedTuple):
    """What a run writes to standard output and to standard error, and its exit status: below 0 if
    a signal ends it, and None if it does not end in time."""
    output: bytes
    error: bytes
    status: int


def run(words, stdin=b"", **options):
    """Runs these words with this standard input, and with options of subprocess."""
    try:
        done = subprocess.run(
            words, input=stdin, capture_output=True, timeout=MOST_SECONDS, **options
        )
    except subprocess.TimeoutExpired as late:
        return Answer(late.stdout or b"", late.stderr or b"", None)
    return Answer(done.stdout, done.stderr, done.returncode)


def joined(lines):
    """The text of these lines, in which a character is a byte."""
    return "".join(f"{line}\n" for line in lines).encode("latin-1")


def parser(about):
    """The parser of a command line; `about` is the docstring of its module."""
    style = argparse.RawDescriptionHelpFormatter
    return argparse.ArgumentParser(description=about, formatter_class=style)


def put(answer):
    """Writes an answer to the standard streams; returns its status."""
    sys.stdout.buffer.write(answer.output)
    sys.stderr.buffer.write(answer.error)
    return answer.status


class Wrong(Exception):
    """What is not as it has to be."""


def want(holds, what):
    """Raises `Wrong` with these words, unless it holds."""
    if not holds:
        raise Wrong(what)


class Enough(Exception):
    """So much failed that the comparison ends."""


class Trial:
    """A run of a comparison: the program, a source of random choices, the options, and counts."""

    def __init__(self, program, seed, options):
        self.program, self.options = program, options
        self.pick = random.Random(seed)
        self.passed = self.failed = 0
        # what else is counted, by its name
        self.noted = collections.Counter()

    def add(self, is_right, *told):
        """Counts a check; `told` says what it was."""
        if is_right:
            self.passed += 1
            return
        self.failed += 1
        print(*told, sep="\n")
        if self.failed == MOST_FAILURES:
            raise Enough

    def compare(self, words, text, wanted, **options):
        """Compares what the program answers with these words to a text on standard input."""
        got = run([self.program, *words], text, **options)
        self.add(got == wanted, shown(text), words, *difference(wanted, got))


def difference(wanted, got):
    """What two answers are, line by line."""
    for name, answer in (("wanted", wanted), ("got", got)):
        yield f"{name}, with status {answer.status},"
        yield from (stream.decode("utf-8", "replace")[:10000] for stream in answer[:2] if stream)


def shown(text):
    """A text as it is shown of a failure."""
    return repr(text[:5000])
