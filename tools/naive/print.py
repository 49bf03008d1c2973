#!/usr/bin/env python3
"""Prints what a model says of a text, or of files.

    tools/naive/print.py MODEL [WORD ..] < TEXT

MODEL is a module of tools/naive/models that has a command line; its docstring describes the words.
Expected outputs can be taken from it. For instance

    tools/naive/print.py chart pair < charts/relay.msc
    tools/naive/print.py scan --format text charts

print what `msc check --queues pair` prints of a chart, and `msc scan --format text` of all files in
charts. RULE is `--pair LINK`, `--mailbox LINK` or `--single LINK`; the line of its fault goes to
standard error. The exit status is that of `msc`.
"""
import importlib
import pathlib
import sys

sys.dont_write_bytecode = True
from harness import put
from models.answers import refusal
from models.links import LinkFault

MODELS = pathlib.Path(__file__).resolve().parent / "models"


def main():
    if len(sys.argv) < 2 or not (MODELS / f"{sys.argv[1]}.py").is_file():
        sys.exit(__doc__.strip())
    model = importlib.import_module(f"models.{sys.argv[1]}")
    if not hasattr(model, "main"):
        sys.exit(f"print: {sys.argv[1]} has no command line")
    try:
        return model.main(sys.argv[2:])
    except LinkFault as fault:
        return put(refusal(fault.line(fault.at)))


if __name__ == "__main__":
    sys.exit(main())
