#!/usr/bin/env python3
"""Refuses each allocation of tests in turn, for calls that no command makes.

    tests.py [TEST ..]

A TEST is the crate, the module and the function, as `program_tests::queues::one_thread`; where
none is given, it is those below. The tests are those that `rt test` or the gate left in
crates/CRATE/out. Each allocation of a test is refused alone, and with all later ones. The test has
to end within a minute by naming the refusal, as want of memory or a thread that was not started.
Where one alone is refused it passes, as it does in full, in two cases: the room for the items of a
section was refused, whose list then grows, once for each section of its charts that has items; and
a refused `settle` is called again on what it handed back. Prints what ends otherwise, and last
`N passed, M failed`.
"""
import collections
import pathlib
import re
import subprocess
import sys
import tempfile

from refuse import MOST, Shim

CRATES = pathlib.Path(__file__).resolve().parent.parent.parent / "crates"
# how a test names a refusal
NAMED = re.compile(rb"(?m)^[a-z ]+: (Memory|AllocError|NotStarted\(\d+\))$")
# the test in which a refused call is made again, of queue and settle
AGAIN = "program_tests::queues::one_thread"
# of each other test, how many sections of its charts have items
ROOMS = {
    "chart_tests::orders::what_is_drawn_is_in_the_visual_order": 4,  # Order::visual
    "chart_tests::races::what_follows_the_queue_rule_is_enforced": 3,  # check
    "chart_tests::runs::reversing_runs": 24,  # reversing_run
    "chart_tests::reasons::reasons_of_enforced_pairs": 27,  # explain
    "chart_tests::reasons::reasons_of_free_pairs": 8,  # explain
}


class Test:
    def __init__(self, name, shim):
        crate, self.function = name.split("::", 1)
        self.program, self.shim = CRATES / crate / "out" / f"{crate}_tests", shim

    def run(self, refused):
        """The status and what was printed of a run that is refused these allocations."""
        done = subprocess.run([self.program, self.function], stdin=subprocess.DEVNULL,
                              stdout=subprocess.PIPE, stderr=subprocess.STDOUT, timeout=MOST,
                              env=self.shim.env(REFUSE_MEMORY=refused))
        return done.returncode, done.stdout

    def end(self, refused):
        """How a run ends: `passed`, `named`, or what it printed."""
        try:
            status, said = self.run(refused)
        except subprocess.TimeoutExpired:
            return f"no end in {MOST} seconds"
        if status == 0:
            return "passed"
        return "named" if NAMED.search(said) else f"status {status}: {said[:200]}"


def refuse_each(name, shim):
    """Refuses each allocation of a test; answers how many runs ended well, and how many did not."""
    test = Test(name, shim)
    if test.end("0") != "passed":
        print(f"{name}: not passed in full")
        return 0, 1
    made, ends, failed = shim.made()[0], collections.Counter(), 0
    for refused in (f"{n}{rest}" for n in range(1, made + 1) for rest in ("", "+")):
        end = test.end(refused)
        ends[end] += 1
        if end != "named" and (end != "passed" or refused.endswith("+")):
            failed += 1
            print(f"{name}: refused {refused}: {end}")
    print(f"{name}: {made} allocations, {ends['passed']} refused runs passed")
    if name == AGAIN and not ends["passed"]:
        print(f"{name}: settle is not called again")
        failed += 1
    if name != AGAIN and ends["passed"] != ROOMS.get(name, 0):
        print(f"{name}: {ROOMS.get(name, 0)} sections have items")
        failed += 1
    return 2 * made - failed, failed


def main():
    if any(word.startswith("-") for word in sys.argv[1:]):
        sys.exit(__doc__)
    passed = failed = 0
    with tempfile.TemporaryDirectory() as folder:
        shim = Shim(folder)
        for name in sys.argv[1:] or (*ROOMS, AGAIN):
            right, wrong = refuse_each(name, shim)
            passed, failed = passed + right, failed + wrong
    print(f"{passed} passed, {failed} failed")
    return int(failed > 0 or passed == 0)


if __name__ == "__main__":
    sys.exit(main())
