#!/usr/bin/env python3
"""Gives the program devices that fail, and looks at each answer.

    devices.py [--commands C,..] PROGRAM

Outputs that are closed, full, or have lost their reader; inputs that are folders, missing, not
permitted, that never end, that come in pieces, or that are removed, cut or grow while they are
read; and, by tools/refuse, reads and writes that are interrupted, that move a byte at a time, and
that fail at each call. Prints what differs, and last `N passed, M failed`. What needs another user
is tried where this is root.
"""
import os
import pathlib
import signal
import subprocess
import sys
import tempfile

from program import MOST_SECONDS, QUEUES, TOP, Answer, Count, add_commands, arguments, run
from models.answers import again_answer, check_answer, diagram_check_answer, import_answer
from models.answers import follow_answer, read_answer
from models.links import Given
from limits import of_events
from refuse import Shim

CHART = (TOP / "charts/two_senders.msc").read_bytes()
# rules for some of its links
RULED = Given("own", [("mailbox", "b"), ("single", "c > b")])
# what is drawn of it, with its file in charts/two_senders: the words before and behind FILE
DRAWN = {
    "draw": (["--queues", "mailbox"], [], "mailbox.drawn.txt"),
    "reverse": (["--queues", "pair", "--svg"], ["1", "2"], "reverse.1.2.pair.svg"),
    "report": (["--queues", "mailbox"], [], "mailbox.report.html"),
    "ready": (["--queues", "pair"], [], "ready.pair.txt"),
}
REFUSED = b"msc t;"
FAULT = Answer(b"", b"device fault\n", 4)
# a text that is longer than a text may be, and the blanks before a text that changes
LONG, BLANK = b" " * 2 ** 21, b" " * 200000
DIAGRAM = (TOP / "charts/import/websocket_chat.mmd").read_bytes()
SILENT = Answer(b"", b"", 4)
# the most calls of read on one input
CALLS = 2097152
# redirections of standard output that let nothing out, and why
CLOSED = {">&-": "Bad file descriptor (os error 9)",
          ">/dev/full": "No space left on device (os error 28)"}
# a user that owns nothing here
NOBODY = 64321


def redirected(words, streams, before="true"):
    """The words under a shell that redirects these streams."""
    return ["sh", "-c", f'{before}; exec "$@" {streams}', "sh", *map(str, words)]


class Commands:
    """The runs of the program on charts that are tried."""
    text = CHART

    def __init__(self, program, wanted):
        self.program, self.wanted = program, wanted

    def answer(self, text):
        """What is printed of a text that is refused."""
        return Answer(*read_answer(text))

    def on(self, file="-", program=None):
        """A run of each command, and what is printed of the text; for `run`, which may print one
        of several traces, None."""
        program = program or self.program
        if "read" in self.wanted:
            yield [program, "read", file], Answer(*read_answer(CHART))
        for queues in QUEUES:
            if "check" in self.wanted:
                words = [program, "check", "--queues", queues, file]
                yield words, Answer(*check_answer(CHART, queues))
            if "run" in self.wanted:
                yield [program, "run", "--queues", queues, file], None
        if "check" in self.wanted:
            words = [program, "check", *RULED.words(), file]
            yield words, Answer(*check_answer(CHART, RULED))
        if "follow" in self.wanted:
            words = [program, "follow", "--queues", "mailbox", file]
            yield words, Answer(*follow_answer(CHART, "mailbox"))
        for command, (before, behind, drawn) in DRAWN.items():
            if command in self.wanted:
                words = [program, command, *before, file, *behind]
                yield words, Answer((TOP / "charts/two_senders" / drawn).read_bytes(), b"", 0)
        for command in ("check", "ready"):
            if command in self.wanted:
                words = [program, command, "--queues", "mailbox", "--again", file]
                yield words, Answer(*again_answer(CHART, command, "mailbox"))


class Imports(Commands):
    """Those on diagrams."""
    text = DIAGRAM

    def answer(self, text):
        return import_answer(text, ["--choose", "main"])

    def on(self, file="-", program=None):
        if "import" in self.wanted:
            words = ["import", "--name", "t", "--choose", "main"]
            wanted = import_answer(self.text, words[1:])
            yield [program or self.program, *words, file], Answer(*wanted)
        if "check" in self.wanted:
            words = ["check", "--from", "any", "--queues", "pair", "--name", "t", "--show", "2"]
            wanted = diagram_check_answer(self.text, words[1:], str(file))
            yield [program or self.program, *words, file], Answer(*wanted)


def outputs(count, commands, folder):
    """Standard output closed, full, not to be written, without a reader; standard error closed and
    full."""
    chart = folder / "chart"
    chart.write_bytes(commands.text)
    for file in ("-", chart):
        for words, wanted in commands.on(file):
            for streams in (">&-", ">/dev/full", f"1<{chart}"):
                count.compare(run(redirected(words, streams), commands.text), FAULT, *words[1:], streams)
                answer = run(redirected(words, f"{streams} 2>&-"), commands.text)
                count.compare(answer, SILENT, *words[1:], streams, "2>&-")
            # a run of two_senders prints one of two traces
            whole = run(redirected(words, "2>&-"), commands.text)
            is_whole = whole == wanted if wanted else whole.status == 0
            count.add(is_whole, *words[1:], "2>&-", whole)
            for streams in ("2>&-", "2>/dev/full"):
                answer = run(redirected(words, streams), REFUSED)
                count.add(file != "-" or answer == Answer(b"", b"", 2), *words[1:], streams, answer)
            without_reader(count, words, commands.text)
    for words in (["--help"], ["--version"]):
        answer = run(redirected([commands.program, *words], ">/dev/full"))
        count.compare(answer, FAULT, *words, ">/dev/full")
    for words in ([], ["read"], ["check", "--queues", "none", "-"]):
        answer = run(redirected([commands.program, *words], "2>/dev/full"))
        count.compare(answer, Answer(b"", b"", 2), *words, "2>/dev/full")


def causes(count, commands):
    """With --places the cause is told, of the stream that failed."""
    for words, _ in commands.on():
        words = [*words[:2], "--places", *words[2:]]
        for streams, cause in CLOSED.items():
            wanted = Answer(b"", FAULT.error + f"output: {cause}\n".encode(), 4)
            got = run(redirected(words, streams), commands.text)
            count.compare(got, wanted, *words[1:], streams)
        wanted = Answer(b"", FAULT.error + f"file -: {CLOSED['>&-']}\n".encode(), 4)
        count.compare(run(redirected(words, "<&-")), wanted, *words[1:], "<&-")


def lines_for_editors(count, commands):
    """With --format lines a fault is told on standard output too, and has gone out before standard
    error tells it; where it cannot go out, that is what is told."""
    for words, text, line in (
        (["check"], b"msc t;", "grammar fault 3 at 6: expected a section"),
        (["check", "--again"], of_events(513), "again fault 1: more than 512 messages"),
        (["check", "--from", "any"], b"pie", "import fault 2 at 1: expected a diagram"),
        (["check", "--single", "d"], CHART, "link fault 2: no instance d"),
        (["check", "--from", "any", "--single", "d"], DIAGRAM, "link fault 2: no instance d"),
        (["check"], None, "device fault"),
    ):
        file = "-" if text else "no/such/file"
        words = [commands.program, *words, "--queues", "pair", "--format", "lines", file]
        both = run(redirected(words, "2>&1"), text)
        lines = both.output.decode().splitlines()
        is_told = lines[-1] == line and lines[0].endswith(f": error: {line}")
        is_told = is_told and sum(line in it for it in lines) == 2
        count.add(is_told and both.status == (2 if text else 4), *words[1:], both)
        for streams in CLOSED:
            answer = run(redirected(words, streams), text)
            count.compare(answer, FAULT, *words[1:], streams)


def without_reader(count, words, text):
    """Standard output is a pipe whose reader has gone: whether or not SIGPIPE is ignored, a device
    fault."""
    for before in ("true", "trap '' PIPE"):
        reader, writer = os.pipe()
        os.close(reader)
        process = begun(redirected(words, "", before), stdin=subprocess.PIPE, stdout=writer)
        error = process.communicate(text, timeout=MOST_SECONDS)[1]
        os.close(writer)
        answer = Answer(b"", error, process.returncode)
        count.compare(answer, FAULT, *words[1:], "no reader", before)


def inputs(count, commands, folder):
    """FILE and standard input of every sort."""
    (folder / "dangling").symlink_to("nothing")
    (folder / "round").symlink_to("round")
    (folder / "denied").write_bytes(commands.text)
    (folder / "denied").chmod(0)
    names = ["dangling", "round", "none", "denied/x"]
    faulty = [folder, *(folder / name for name in names), "", "x" * 5000, "/proc/self/mem"]
    too_long, nothing = commands.answer(LONG), commands.answer(b"")
    endless = [("/dev/zero", too_long), ("/dev/full", too_long)]
    wanted = [*((file, FAULT) for file in faulty), *endless, ("/dev/null", nothing)]
    for file, answer in wanted:
        for words, _ in commands.on(file):
            count.compare(run(words), answer, *words[1:])
    for words, _ in commands.on():
        for streams, answer in (("<&-", FAULT), (f"<{folder}", FAULT), ("0>/dev/null", FAULT),
                                ("</dev/null", nothing), ("</dev/zero", too_long)):
            count.compare(run(redirected(words, streams)), answer, *words[1:], streams)
    empty_pipe(count, commands)
    denied(count, commands, folder)


def empty_pipe(count, commands):
    """Standard input is a pipe that has nothing now and does not wait."""
    reader, writer = os.pipe2(os.O_NONBLOCK)
    for words, _ in commands.on():
        answer = ended(begun(words, stdin=reader))
        count.compare(answer, FAULT, *words[1:], "an empty pipe")
    os.close(reader)
    os.close(writer)


def denied(count, commands, folder):
    """FILE may not be read."""
    if os.geteuid() == 0:
        folder.chmod(0o755)
        reachable = folder / "msc"
        reachable.write_bytes(pathlib.Path(commands.program).read_bytes())
        reachable.chmod(0o755)
        for words, _ in commands.on(folder / "denied", reachable):
            count.compare(run(words, user=NOBODY, cwd="/"), FAULT, *words[1:], "without permission")


def begun(words, stdout=subprocess.PIPE, **options):
    return subprocess.Popen(words, stdout=stdout, stderr=subprocess.PIPE, **options)


def ended(process):
    output, error = process.communicate(timeout=MOST_SECONDS)
    return Answer(output, error, process.returncode)


def pieces(count, commands, folder):
    """FILE is a FIFO, or standard input a pipe, whose bytes come one by one."""
    pipe = folder / "pipe"
    os.mkfifo(pipe)
    for words, wanted in commands.on(pipe):
        process = begun(words)
        with open(pipe, "wb", buffering=0) as file:
            for byte in commands.text:
                file.write(bytes([byte]))
        is_right(count, ended(process), wanted, *words[1:], "a FIFO")
    for words, wanted in commands.on():
        process = begun(words, stdin=subprocess.PIPE, bufsize=0)
        for byte in commands.text:
            process.stdin.write(bytes([byte]))
        is_right(count, ended(process), wanted, *words[1:], "byte by byte")


def is_right(count, answer, wanted, *told):
    """An answer is this; of `run` alone, that it succeeded."""
    count.add(answer == wanted if wanted else answer[1:] == (b"", 0), *told, answer)


def while_read(count, commands, folder, shim):
    """FILE is removed, cut or grows when a part of it has been read."""
    whole = BLANK + commands.text
    too_long = commands.answer(LONG)
    cut, grown = commands.answer(whole[:100000]), commands.answer(whole + b"x")

    def append(file, more):
        with open(file, "ab") as opened:
            opened.write(more)

    for how, change, other in (
        ("removed", lambda file: file.unlink(), None),
        ("cut", lambda file: os.truncate(file, 100000), cut),
        ("grown", lambda file: append(file, b"x"), grown),
        ("grown past the limit", lambda file: append(file, b" " * 2 ** 20), too_long),
    ):
        file = folder / "changing"
        for words, wanted in commands.on(file):
            file.write_bytes(whole)
            process = begun(words, env=shim.env(HOLD_READ="2"))
            os.waitid(os.P_PID, process.pid, os.WSTOPPED)
            change(file)
            process.send_signal(signal.SIGCONT)
            is_right(count, ended(process), other or wanted, *words[1:], how)


def calls(count, commands, shim):
    """Reads and writes are interrupted, move a byte, or fail."""
    for words, wanted in commands.on():
        is_right(count, run(words, commands.text, env=shim.env()), wanted, *words[1:], "in full")
        made = dict(zip(("READ", "WRITE"), shim.made()[2:]))
        narrow = run(words, commands.text, env=shim.env(SHORT="1+"))
        is_right(count, narrow, wanted, *words[1:], "a byte at a time")
        for call, times in made.items():
            for number in range(1, times + 1):
                again = run(words, commands.text, env=shim.env(**{f"INTERRUPT_{call}": str(number)}))
                is_right(count, again, wanted, *words[1:], call, number, "interrupted")
                for later in ("", "+"):
                    rule = {f"REFUSE_{call}": f"{number}{later}"}
                    answer = run(words, commands.text, env=shim.env(**rule))
                    count.add(fails(answer, wanted, call), *words[1:], rule, answer)
        always = run(words, commands.text, env=shim.env(INTERRUPT_READ="1+"))
        count.compare(always, FAULT, *words[1:], "always interrupted")
        count.add(shim.made()[2] == CALLS, *words[1:], "calls of read", shim.made()[2])


def fails(answer, wanted, call):
    """Whether an answer is that a device failed; where it was a write, a beginning was written, and
    nothing can be said of standard error, which is written too."""
    output, error, status = answer
    if call == "READ":
        return answer == FAULT
    is_beginning = not wanted or wanted.output.startswith(output)
    return status == 4 and error in (b"", FAULT.error) and is_beginning


def main():
    words = arguments(__doc__)
    add_commands(words)
    options = words.parse_args()
    program = str(pathlib.Path(options.program).resolve())
    count = Count()
    if "check" in options.commands:
        lines_for_editors(count, Commands(program, options.commands))
    for commands in (Commands(program, options.commands), Imports(program, options.commands)):
        with tempfile.TemporaryDirectory() as name:
            folder = pathlib.Path(name)
            shim = Shim(name)
            outputs(count, commands, folder)
            causes(count, commands)
            inputs(count, commands, folder)
            pieces(count, commands, folder)
            while_read(count, commands, folder, shim)
            calls(count, commands, shim)
    return count.end()


if __name__ == "__main__":
    sys.exit(main())
