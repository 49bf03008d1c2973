#!/usr/bin/env python3
"""Runs the comparisons of tools/naive/comparisons.

    tools/naive/run.py --list
    tools/naive/run.py [--seed S] [OPTION ..] [NAME ..]
    tools/naive/run.py --program PROGRAM [--seed S] [OPTION ..] [NAME ..]

Some comparisons give the program texts, most of them random ones of tools/naive/generators. What it
prints has to be what a second implementation prints, a model of tools/naive/models. The others need
no program: they compare models with searches over all runs, with each other, and with stored
outputs. `--list` prints all, with their options and defaults. Without NAME those run that compare
the program; without PROGRAM, those that need none.

OPTION is one of these; a comparison that lacks it is refused:

    --number N      try N random texts
    --messages M    with at most M messages in a chart
    --lines L       with at most L instances in a chart
    --events E      search the states only of charts with at most E events
    --plain         PROGRAM is a plain program of bench/plain
    --uniform       give all links of a chart the same kind of queue
    --write         store what the model prints

Each comparison prints what fails, and last a line `NAME: N passed, M failed`, with what else it
counted. It ends after a few failures. The last line of all has the sums. The exit status is 1 if
something failed, or if a comparison checked nothing.
"""
import importlib
import pathlib
import sys
import traceback
from types import SimpleNamespace

sys.dont_write_bytecode = True
from harness import MOST_FAILURES, Enough, Trial, parser

HERE = pathlib.Path(__file__).resolve().parent
SIZES, FLAGS = ("number", "messages", "lines", "events"), ("plain", "uniform", "write")


def comparisons():
    """The comparisons by their names."""
    names = sorted(path.stem for path in (HERE / "comparisons").glob("*.py"))
    return {name: importlib.import_module(f"comparisons.{name}") for name in names}


def arguments(every):
    """The command line; in `chosen` are the comparisons, each with its options."""
    words = parser(__doc__)
    words.add_argument("--list", action="store_true")
    words.add_argument("--program", type=pathlib.Path)
    words.add_argument("--seed", type=int, default=1)
    for size in SIZES:
        words.add_argument(f"--{size}", type=int)
    for flag in FLAGS:
        words.add_argument(f"--{flag}", action="store_true", default=None)
    words.add_argument("names", metavar="NAME", nargs="*")
    given = words.parse_args()
    has_program = given.program is not None
    alike = [name for name, it in every.items() if it.NEEDS_PROGRAM == has_program]
    given.chosen = {}
    for name in given.names or alike:
        if name not in every:
            words.error(f"there is no {name}; --list prints what there is")
        if every[name].NEEDS_PROGRAM and not has_program:
            words.error(f"{name} needs --program")
        more = {it: vars(given)[it] for it in (*SIZES, *FLAGS) if vars(given)[it] is not None}
        for option in more:
            if option not in every[name].OPTIONS:
                words.error(f"{name} has no --{option}")
        given.chosen[name] = SimpleNamespace(**{**every[name].OPTIONS, **more})
    return given


def show(every):
    """Prints the comparisons."""
    for name, it in every.items():
        options = " ".join(
            f"[--{option}]" if value is False else f"[--{option} {value}]"
            for option, value in it.OPTIONS.items()
        )
        program = "--program PROGRAM " if it.NEEDS_PROGRAM else ""
        print(f"{program}{options} {name}".replace("  ", " ").strip())
        print(f"    {it.__doc__.strip().splitlines()[0]}")


def run(name, comparison, trial):
    """Runs a comparison, and prints its counts."""
    try:
        comparison.compare(trial)
    except Enough:
        print(f"{name}: ends after {MOST_FAILURES} failures")
    except Exception:
        traceback.print_exc()
        trial.failed += 1
    if not trial.passed and not trial.failed:
        print(f"{name}: nothing was checked")
        trial.failed += 1
    noted = ", ".join(f"{what} {count}" for what, count in sorted(trial.noted.items()))
    print(f"{name}: {trial.passed} passed, {trial.failed} failed" + (noted and f" ({noted})"))


def main():
    every = comparisons()
    given = arguments(every)
    if given.list:
        show(every)
        return 0
    program = given.program and str(given.program.resolve())
    trials = []
    for name, options in given.chosen.items():
        trials.append(Trial(program, given.seed, options))
        run(name, every[name], trials[-1])
        sys.stdout.flush()
    passed, failed = sum(it.passed for it in trials), sum(it.failed for it in trials)
    print(f"{passed} passed, {failed} failed")
    return int(failed > 0 or passed == 0)


if __name__ == "__main__":
    sys.exit(main())
