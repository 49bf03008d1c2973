#!/usr/bin/env python3
"""Runs the commands of the transcripts in charts/, and compares what they print.

    tools/transcripts.py [--write] [--of NAME] PROGRAM [FILE ..]

A transcript is a file `charts/**/*.cases`: `charts/relay.cases` has the commands on the chart
`charts/relay.msc`, and charts/commands has those on other subjects. It may begin with lines that
say what it is about. Then come commands, each with what it prints:

    $ msc check --queues pair charts/relay.msc > charts/relay/pair.txt
    = 1

bash runs the line after `$ ` at the top of the repository, with PROGRAM in place of `msc`. Standard
output has to be the bytes of the file after `>`, which is only read, or else the lines below the
command. Lines with `! ` are standard error. `= STATUS` is the exit status, if it is not 0; that of
a pipeline is the last one that is not 0.

Without FILE all transcripts are compared. Then each other file of charts/ has to be named by a
command, and each in the folder of a transcript, such as charts/relay, has to stand after a `>`.
`--of NAME` compares only the commands that have NAME as a word, such as that of a chart. `--write`
stores what is printed: read the difference before you commit it.

Prints each difference, and how many commands were compared. The exit status is 1 if one differs, a
transcript has no command, or a file is named by none.
"""
import argparse
import difflib
import os
import pathlib
import re
import subprocess
import sys
from typing import NamedTuple

ROOT = pathlib.Path(__file__).resolve().parent.parent
CHARTS = ROOT / "charts"
NO_END = "(no end of the last line)"
# a command whose output is in a file
STORED = re.compile(r"(.*) > ([\w./]+)", re.DOTALL)
# a path below charts/ in a command
PATH = re.compile(r"\bcharts/[\w./]+")


class Answer(NamedTuple):
    output: bytes
    error: bytes
    status: int


class Case(NamedTuple):
    """A command, and the lines below it."""
    line: str
    below: list

    @property
    def command(self):
        """What is run."""
        stored = STORED.fullmatch(self.line)
        return stored[1] if stored else self.line

    @property
    def file(self):
        """The file that has its output, or None."""
        stored = STORED.fullmatch(self.line)
        return ROOT / stored[2] if stored else None

    def with_answer(self, answer):
        """This command with the lines of an answer."""
        below = [] if self.file else lines(answer.output)
        below += [f"! {line}" for line in lines(answer.error)]
        return Case(self.line, below + ([f"= {answer.status}"] if answer.status else []))

    def is_answered(self, answer):
        """Whether this answer is stored."""
        if self.file and not self.file.exists():
            return False
        is_output = not self.file or self.file.read_bytes() == answer.output
        return is_output and self.with_answer(answer) == self


def lines(held):
    """The lines of a text; bytes that are no UTF-8 stay as they are."""
    found = held.decode("utf-8", "surrogateescape").split("\n")
    return found[:-1] if not found[-1] else found + [NO_END]


def cases_of(file):
    """The lines before the first command, and the cases."""
    head, cases = [], []
    for line in lines(file.read_bytes()):
        if line.startswith("$ "):
            cases.append(Case(line[2:], []))
        else:
            (cases[-1].below if cases else head).append(line)
    return head, cases


def answer_of(program, case):
    """What a command prints now."""
    words = ["bash", "-c", f'set -o pipefail; msc() {{ "$PROGRAM" "$@"; }}; {case.command}']
    room = {**os.environ, "PROGRAM": program}
    ended = subprocess.run(
        words, cwd=ROOT, env=room, stdin=subprocess.DEVNULL, capture_output=True
    )
    return Answer(ended.stdout, ended.stderr, ended.returncode)


def show(file, case, now):
    """Prints what differs between what is stored and what is printed."""
    print(f"transcripts: {os.path.relpath(file)}: $ {case.line}")
    stored, printed = case.below, case.with_answer(now).below
    if case.file and not case.file.exists():
        print(f"there is no {os.path.relpath(case.file)}")
    elif case.file:
        stored, printed = lines(case.file.read_bytes()) + stored, lines(now.output) + printed
    for line in difflib.unified_diff(stored, printed, "stored", "printed", lineterm=""):
        print(line.encode("utf-8", "surrogateescape").decode("utf-8", "replace"))


def write(file, head, answered):
    """Stores a transcript, and the files of its outputs. A command without an answer stays as it
    is."""
    told = [*head]
    for case, now in answered:
        told += [f"$ {case.line}", *(case.with_answer(now) if now else case).below]
        if now and case.file:
            case.file.parent.mkdir(exist_ok=True)
            case.file.write_bytes(now.output)
    file.write_bytes("".join(f"{it}\n" for it in told).encode("utf-8", "surrogateescape"))


def unnamed(transcripts):
    """The files of charts/ that no command names, or that no command is compared with."""
    cases = [case for file in transcripts for case in cases_of(file)[1]]
    stored = {case.file for case in cases if case.file}
    named = stored | {ROOT / path for case in cases for path in PATH.findall(case.command)}
    for path in sorted(CHARTS.rglob("*")):
        if path.suffix == ".cases" or path.is_dir():
            continue
        is_stored = path.parent.with_suffix(".cases").exists()
        if path not in (stored if is_stored else named):
            yield path


def compare(program, file, options):
    """How many commands of a transcript were compared, and how many differ."""
    head, cases = cases_of(file)
    wanted = [it for it in cases if re.search(rf"\b{options.of}\b", it.line)]
    now = [answer_of(program, it) for it in wanted]
    if options.write and wanted == cases:
        write(file, head, zip(cases, now))
        return 0, 0
    differ = [(case, it) for case, it in zip(wanted, now) if not case.is_answered(it)]
    for case, it in differ:
        show(file, case, it)
    if not cases:
        print(f"transcripts: {os.path.relpath(file)} has no command")
    return len(wanted), len(differ) + (not cases)


def main():
    style = argparse.RawDescriptionHelpFormatter
    words = argparse.ArgumentParser(description=__doc__, formatter_class=style)
    words.add_argument("--write", action="store_true")
    words.add_argument("--of", metavar="NAME", default="", type=re.escape)
    words.add_argument("program", metavar="PROGRAM")
    words.add_argument("files", metavar="FILE", nargs="*", type=pathlib.Path)
    options = words.parse_args()
    program, compared, failed = str(pathlib.Path(options.program).resolve()), 0, 0
    transcripts = sorted(CHARTS.rglob("*.cases"))
    for file in options.files or transcripts:
        more, differ = compare(program, file, options)
        compared, failed = compared + more, failed + differ
    if not options.files and not options.of:
        for path in unnamed(transcripts):
            print(f"transcripts: no command is compared with {path.relative_to(ROOT)}")
            failed += 1
    print(f"transcripts: {compared} compared, {failed} failed")
    return int(failed > 0)


if __name__ == "__main__":
    sys.exit(main())
