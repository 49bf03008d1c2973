#!/usr/bin/env python3
"""Proves all crates and their tests, and tries the must-fail edits of this run.

    tools/gate.py [--all]

Works on a copy of the repository, in which `rt ci` finds just the edits that are tried. These are
in every run those of the crates in `KNOWN`, and of each crate that changed since `ALL_TRIED`, the
last commit at which a run tried all of them. Of the other crates each run tries a third: those whose
line in crates.txt has, divided by 3, the same rest as the number of commits. A shallow clone does
not know that number, so it tries none of these. `--all` tries all edits, and those of
tools/more_edits too.

The programs and the tests that were built are left in crates/*/out, as `rt ci` leaves them. Prints
what `rt ci` prints; before its last line, `N passed, M failed`, it names the edits that were not
tried. The exit status is that of `rt ci`. `rt ci` passes over an edit that it cannot apply or
compile; here each of them is a failure.
"""
import argparse
import os
import pathlib
import re
import shutil
import subprocess
import sys
import tempfile

TOP = pathlib.Path(__file__).resolve().parent.parent
# crates with wrong bodies that a promise is known by, as `visual_as_enforced` and `take_skips`
KNOWN = ("msc_chart", "msc_fifo", "msc_gather", "msc_instance", "msc_order", "msc_race")
# The last commit at which `./test` had tried all edits below must-fail, and each was refused.
ALL_TRIED = "e851aacf"
LISTED = re.compile(r"(?m)^(\w+)[^:#\n]*:")
THIRDS = 3


def git(*words):
    """What git prints, or None if it fails."""
    done = subprocess.run(["git", *words], cwd=TOP, capture_output=True, text=True)
    return None if done.returncode else done.stdout.strip()


def crates():
    """The crates, in the order of crates.txt."""
    return LISTED.findall((TOP / "crates.txt").read_text())


def changed():
    """The crates that differ from those of `ALL_TRIED`; all of them if that commit is not here."""
    names = git("diff", "--name-only", ALL_TRIED, "--", "crates")
    if names is None:
        return set(crates())
    parts = [name.split("/") for name in names.splitlines()]
    read = ("src", "specs", "proofs", "must-fail")
    return {it[1] for it in parts if len(it) > 3 and it[2] in read}


def turn():
    """Which third of the other crates this run tries; None if the history is not whole."""
    if git("rev-parse", "--is-shallow-repository") != "false":
        return None
    count = git("rev-list", "--count", "HEAD")
    return count and int(count) % THIRDS


def tried():
    """The crates whose edits this run tries."""
    third = turn()
    always = {*KNOWN, *(changed() if third is not None else ())}
    return [
        name for line, name in enumerate(crates()) if name in always or line % THIRDS == third
    ]


def copy(room):
    """Copies the working tree into a room, without what was built."""
    def left_out(folder, names):
        top = pathlib.Path(folder) == TOP
        inside = pathlib.Path(folder).parent == TOP / "crates"
        return [it for it in names if it == ".git" and top or it == "out" and (top or inside)]

    shutil.copytree(TOP, room, symlinks=True, ignore=left_out)
    (room / ".git").mkdir()


def place(room, with_all):
    """Leaves in a room just the edits that are tried; returns how many of which crates are not."""
    names, not_tried = crates() if with_all else tried(), []
    for name in crates():
        edits = room / "crates" / name / "must-fail"
        if name not in names and edits.is_dir():
            not_tried.append((name, len(list(edits.glob("*.edit")))))
            shutil.rmtree(edits)
        if with_all:
            for edit in (TOP / "tools/more_edits" / name).glob("*.edit"):
                edits.mkdir(exist_ok=True)
                shutil.copy(edit, edits)
    return not_tried


def built(top):
    """The programs and tests that were built below a folder."""
    return [it for it in top.glob("crates/*/out/*") if it.is_file() and os.access(it, os.X_OK)]


def keep_built(room):
    """Moves what was built in a room to the repository."""
    for made in built(room):
        to = TOP / made.relative_to(room)
        to.parent.mkdir(exist_ok=True)
        shutil.move(made, to)


def run(room):
    """Runs `rt ci` in a room, and prints what it prints but for the last line; returns that line,
    the exit status, and how many edits it could not apply or compile."""
    last, bad = "", 0
    with subprocess.Popen(
        ["rt", "ci"], cwd=room, text=True, stdout=subprocess.PIPE, errors="replace"
    ) as gate:
        for line in gate.stdout:
            print(last.replace(f"{room}/", ""), end="", flush=True)
            last, bad = line, bad + (": BAD EDIT" in line)
    return last, gate.returncode, bad


def with_bad(last, bad):
    """The last line, `N passed, M failed`, with so many more failures."""
    return re.sub(r"(\d+) failed", lambda found: f"{int(found[1]) + bad} failed", last)


def main():
    style = argparse.RawDescriptionHelpFormatter
    words = argparse.ArgumentParser(description=__doc__, formatter_class=style)
    words.add_argument("--all", action="store_true")
    with_all = words.parse_args().all
    for made in built(TOP):
        made.unlink()
    with tempfile.TemporaryDirectory(prefix="gate-") as folder:
        room = pathlib.Path(folder) / "repository"
        copy(room)
        not_tried = place(room, with_all)
        last, status, bad = run(room)
        keep_built(room)
    for name, count in not_tried:
        print(f"gate: not tried in this run: the {count} edits of {name}")
    if not with_all:
        print("gate: `./test --all` tries all edits, and those of tools/more_edits")
    print(with_bad(last, bad), end="", flush=True)
    return status or int(bad > 0)


if __name__ == "__main__":
    sys.exit(main())
