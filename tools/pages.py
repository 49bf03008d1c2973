#!/usr/bin/env python3
"""Compares what pages say that a command prints with what it prints.

    tools/pages.py PROGRAM PAGE ..

In a page's blocks between lines of three backquotes a line `$ COMMAND` is run by a shell at the top
of the repository, with PROGRAM in place of `./msc`. The lines below it, up to the next such line or
the end of the block, are what it writes to both streams. What `msc run` prints is up to the
schedule: both what the page says and what is printed have to be an execution's, by the model of executions in naive.
Where more stands behind it in its line, what is printed has to be what the page says.
Prints how many commands were compared. The exit status is 1 where one differs, or a page has none.
"""
import argparse
import pathlib
import shlex
import subprocess
import sys

sys.dont_write_bytecode = True
ROOT = pathlib.Path(__file__).resolve().parent.parent
sys.path.insert(0, str(ROOT / "tools" / "naive"))
from models.chart import Chart
from models.executions import PATIENCE, Wrong, is_execution
from models.links import parted
from models.own import of_chart


def commands(page):
    """Each command of a page, and the lines that stand below it."""
    shown, is_block = None, False
    for line in page.read_text().splitlines():
        if line.startswith("```"):
            is_block, shown = not is_block, None
        elif is_block and line.startswith("$ "):
            shown = []
            yield line[2:], shown
        elif shown is not None:
            shown.append(line)


def printed(program, command):
    """What a command writes, in lines, and its exit status."""
    run = ["bash", "-c", 'msc=$1; eval "$2"', "bash", program, command.replace("./msc ", '"$msc" ')]
    ended = subprocess.run(
        run, cwd=ROOT, stdin=subprocess.DEVNULL, stdout=subprocess.PIPE, stderr=subprocess.STDOUT
    )
    return ended.stdout.decode("latin-1").splitlines(), ended.returncode


def is_run(command, answers):
    """Whether each answer, lines and an exit status, is that of an execution of a command's
    chart."""
    words = shlex.split(command)
    chart = (ROOT / words[-1]).read_bytes()
    drawn = Chart(chart.decode("latin-1"), of_chart(chart, parted(words)[0]))
    try:
        for lines, status in answers:
            is_execution(drawn, PATIENCE, "".join(f"{line}\n" for line in lines), status)
    except Wrong as wrong:
        print(f"pages: {wrong}")
        return False
    return True


def main():
    style = argparse.RawDescriptionHelpFormatter
    words = argparse.ArgumentParser(description=__doc__, formatter_class=style)
    words.add_argument("program", metavar="PROGRAM")
    words.add_argument("pages", metavar="PAGE", nargs="+", type=pathlib.Path)
    options = words.parse_args()
    program = str(pathlib.Path(options.program).resolve())
    compared, failed = 0, 0
    for page in options.pages:
        found = list(commands(page))
        if not found:
            print(f"pages: {page} shows no command")
            failed += 1
        for command, shown in found:
            lines, status = printed(program, command)
            compared += 1
            if lines == shown:
                continue
            answers = [(shown, status), (lines, status)]
            is_alone = command.startswith("./msc run ") and ";" not in command
            if is_alone and is_run(command, answers):
                continue
            print(f"pages: {page}: $ {command}\n" + "\n".join(lines))
            failed += 1
    print(f"pages: {compared} compared, {failed} failed")
    return int(failed > 0)


if __name__ == "__main__":
    sys.exit(main())
