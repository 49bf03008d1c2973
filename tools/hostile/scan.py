#!/usr/bin/env python3
"""Gives `msc scan` files, folders and devices that fail, and looks at each answer.

    scan.py [--most N] PROGRAM

Files and folders without rights, links in rings, files that change or vanish while they are
scanned, names with control characters and names that are not UTF-8, outputs that are closed, full
or have lost their reader, and, by tools/refuse, reads and writes that are interrupted, that move a
byte at a time, and that fail at each call. Each allocation is refused, alone and with all later
ones; of more than N allocations (150 if it is not given) only some are. So is each thread. With
less and less address space, and for a user with few threads, answers have to be the same, or a
fault of memory. Prints what differs, and last `N passed, M failed`.

Expected answers are those of tools/naive/models/scan.py, or are written here. scan_jobs.py scans
many files. What needs another user is tried if this is root.
"""
import contextlib
import os
import pathlib
import random
import re
import shutil
import signal
import subprocess
import sys
import tempfile
import threading

from devices import FAULT, NOBODY, SILENT, begun, redirected, without_reader
from file_names import NAMES, is_clean
from memory import in_space, is_unborn
from program import TOP, Answer, Count, arguments, run
from refuse import MOST, Shim
from threads import limited
from models import scan

RACE = (TOP / "charts/two_senders.msc").read_bytes()
REFUSED = (TOP / "charts/refused/deadlock.msc").read_bytes()
DIAGRAM = b"sequenceDiagram\nalt x\nA->>B: a\nelse y\nA->>B: b\nend\nC->>B: c\n"
MARKED = b"sequenceDiagram\n%% queues pair\nA->>B: a\n%% race ok: known\nC->>B: b\n"
PAGE = b"# Page\n\n```mermaid\n" + DIAGRAM + b"```\n\n~~~mermaid\n" + MARKED + b"~~~\n"
# a small folder: its files with their texts
FILES = {
    "a.msc": RACE, "b.msc": REFUSED, "c.mmd": DIAGRAM, "d.md": PAGE, "e.txt": b"",
    "sub/f.msc": (TOP / "charts/handover.msc").read_bytes(), "sub/g.mermaid": b"flowchart TD\n",
    "sub/sub/h.markdown": b"no diagram\n", "z.msc": RACE,
}
# forms of a scan, all of which say why a file failed
FORMS = [[], ["--format=text", "--places", "--queues=all"], ["--format=lines", "--closest"]]
NO_MEMORY, NO_INPUT = b"Cannot allocate memory", b"Input/output error"
# the cause of a failed output, with notes
NO_OUTPUT = b"output: Input/output error (os error 5)\n"
# a refusal of a chart in text, and the notes on it
NOTES = re.compile(rb"(?m)^(chart fault .*\n)(?:(?!file |total ).*\n)*")
# steps of address space, in bytes
STEP = 2 ** 20
CHURNS = 40


def make(folder, files=FILES):
    """Makes a folder with these files."""
    for name, text in files.items():
        (folder / name).parent.mkdir(parents=True, exist_ok=True)
        (folder / name).write_bytes(text)


@contextlib.contextmanager
def made_folder(files=FILES):
    """A new folder, which has these files in the folder `some`."""
    with tempfile.TemporaryDirectory() as name:
        folder = pathlib.Path(name)
        (folder / "some").mkdir()
        make(folder / "some", files)
        yield folder


def modelled(folder, words, stdin=b""):
    """What the model prints of a scan in a folder."""
    with contextlib.chdir(folder):
        return scan.answer(words, stdin)


def compare(count, program, folder, words, *told):
    """Compares a scan in a folder with the model."""
    got = run([program, "scan", *words], cwd=folder)
    count.compare(got, modelled(folder, words), *words, *told)


# Files and folders


def rights(count, program):
    """Files and folders without rights, below a PATH and as PATHs."""
    files = ("a.msc", "denied.msc", "entered/x.msc", "listed/x.msc", "locked/x.msc", "z.msc")
    with made_folder(dict.fromkeys(files, b"msc t; endmsc;")) as folder:
        os.symlink("locked/x.msc", folder / "some/link.msc")
        modes = {"denied.msc": 0, "entered": 0o111, "listed": 0o444, "locked": 0}
        for name, mode in modes.items():
            (folder / "some" / name).chmod(mode)
        folder.chmod(0o755)
        shutil.copy(program, folder / "msc")
        (folder / "msc").chmod(0o755)
        other = {"user": NOBODY} if os.geteuid() == 0 else {}
        lost = ["denied.msc", "entered", "link.msc", "listed/x.msc", "locked"]
        count_lines = ["pass some/a.msc", *(f"failed some/{it}" for it in lost), "pass some/z.msc"]
        blocks = [f"error[device]: cannot read some/{it}: Permission denied\n" for it in lost]
        last = "checked 2 diagrams in 2 files: no races; 5 paths failed"
        paths = ["some/locked", "some/locked/x.msc", "some/denied.msc", "some/entered/x.msc"]
        of_paths = [*(f"failed {it}" for it in paths[:3]), "pass some/entered/x.msc"]
        for words, lines in (
            (["--format=count", "some"], count_lines), (["--queues=pair", "some"], [*blocks, last]),
            (["--format=count", "--jobs=7", "some"], count_lines),
            (["--format=count", *paths], of_paths),
        ):
            got = run(["./msc", "scan", *words], cwd=folder, **other)
            wanted = Answer("".join(f"{it}\n" for it in lines).encode(), b"", 4)
            count.compare(got, wanted, *words, "without rights")
        for name in modes:
            (folder / "some" / name).chmod(0o700)


def rings(count, program):
    """Links in rings, to folders, pipes and nothing, below a PATH and as PATHs."""
    links = {"ring.msc": "ring.msc", "one.msc": "two.msc", "two.msc": "one.msc", "none.mmd": "none",
             "up": "..", "up.msc": ".", "own.md": "../some/d.md", "null.msc": "/dev/null",
             "pipes.mmd": "pipe.mmd", "chain0.msc": "a.msc",
             **{f"chain{n}.msc": f"chain{n - 1}.msc" for n in range(1, 50)}}
    with made_folder() as folder:
        for name, to in links.items():
            os.symlink(to, folder / "some" / name)
        os.mkfifo(folder / "some/pipe.mmd")
        paths = ["some", "some/", "some/up", "some/up/some/sub",
                 *(f"some/{it}" for it in links if it != "pipes.mmd")]
        for form in [*FORMS, ["--format=count"]]:
            for path in paths:
                compare(count, program, folder, [*form, path], "links")
        compare(count, program, folder / "some", [".", "up", "up.msc", "./"], "links")


def changes(folder):
    """What happens to the last file of a folder, or to a folder in it, during a scan."""
    last = folder / "some/z.msc"
    yield "removed", last.unlink
    yield "cut", lambda: last.write_bytes(b"msc t;")
    yield "grown", lambda: last.write_bytes(RACE + b"x")
    yield "too long", lambda: last.write_bytes(b" " * 2 ** 21)

    def ring():
        last.unlink()
        os.symlink("z.msc", last)

    yield "made a ring", ring
    yield "in a folder that is removed", lambda: shutil.rmtree(folder / "some/sub")


def while_scanned(count, program):
    """Files change or vanish after all names were found, and before they are read."""
    files = ("a.msc", "b.msc", "c.mmd", "d.md", "sub/f.msc", "z.msc")
    files = {name: FILES[name] for name in files}
    names = [f"some/{name}" for name in files]
    for jobs in (1, 3):
        for number in range(6):
            with made_folder(files) as folder:
                shim = Shim(folder)
                how, change = [*changes(folder)][number]
                words = [program, "scan", f"--jobs={jobs}", "some"]
                process = begun(words, cwd=folder, env=shim.env(HOLD_READ="1"))
                os.waitid(os.P_PID, process.pid, os.WSTOPPED)
                change()
                process.send_signal(signal.SIGCONT)
                output, error = process.communicate(timeout=MOST)
                # the model does not find names that are gone, so it is given those that were there
                wanted = modelled(folder, names)
                got = Answer(output, error, process.returncode)
                count.compare(got, wanted, f"--jobs={jobs}", how)


def churn(count, program):
    """Files and folders come and go all the time: a scan ends, and its last line says so."""
    pick, is_done = random.Random(1), threading.Event()
    ends = rb"(?:.*\n)*(?:checked \d+ diagrams? in \d+ files?: |nothing was checked).*\n"

    def change(folder):
        while not is_done.is_set():
            place = folder / "some" / pick.choice(["", "x", "x/y"])
            file = place / f"{pick.randrange(30)}.msc"
            with contextlib.suppress(OSError):
                match pick.randrange(6):
                    case 0:
                        shutil.rmtree(folder / "some/x", ignore_errors=True)
                    case 1:
                        file.unlink()
                    case 2:
                        file.symlink_to(f"{pick.randrange(30)}.msc")
                    case 3:
                        file.mkdir()
                    case _:
                        place.mkdir(parents=True, exist_ok=True)
                        file.write_bytes(pick.choice([RACE, REFUSED, b""]))

    with made_folder() as folder:
        changing = threading.Thread(target=change, args=(folder,))
        changing.start()
        try:
            for number in range(CHURNS):
                got = run([program, "scan", f"--jobs={number % 3 + 1}", "some"], cwd=folder)
                is_right = got.status in (0, 1, 2, 4) and not got.error
                is_right = is_right and re.fullmatch(ends, got.output)
                count.add(is_right, "files that come and go", number, got)
        finally:
            is_done.set()
            changing.join()


# Names


def named(pick):
    """Files and folders with names of every sort, and their texts."""
    for name in NAMES:
        stem, ending = name.rsplit(".", 1) if name.endswith(".msc") else (name, "")
        yield name, pick.choice([RACE, REFUSED])
        yield f"{stem}.mmd", pick.choice([DIAGRAM, b"sequenceDiagram\nA=>>B: a\n"])
        yield f"{stem}.md"[-255:], PAGE
        yield f"{stem} folder/a{'.' + ending if ending else '.msc'}", RACE


def names(count, program):
    """Files and folders whose names have control characters, and other ones that are rare."""
    texts = {name: text for name, text in named(random.Random(1)) if len(name) < 250}
    with made_folder(texts) as folder:
        for form in [*FORMS, ["--format=count"], ["--format=text"]]:
            for path in ("some", *(f"some/{name}" for name in texts)):
                words = [*form, path]
                got = run([program, "scan", *words], cwd=folder)
                count.compare(got, modelled(folder, words), *map(repr, words))
                count.add(is_clean(got), "bytes that are not shown", *map(repr, words))
        for name in ("nofile\x1b[31m.msc", "no\n.md", "x" * 300):
            compare(count, program, folder, [name], "names of no file")


def not_unicode(count, program):
    """Names that are not UTF-8: each fails under its folder's name; as a PATH it is refused."""
    with made_folder() as folder:
        for name in (b"n\xff.msc", b"o\xc3.txt", b"sub/\xed\xa0\x80.md", b"sub/.hidden\xff"):
            pathlib.Path(os.fsdecode(os.path.join(os.fsencode(folder / "some"), name))).touch()
        bad = os.fsdecode(os.path.join(os.fsencode(folder / "some"), b"f\xff"))
        os.mkdir(bad)
        pathlib.Path(bad, "a.msc").write_bytes(RACE)
        for path in ("some", "some/", "some/sub"):
            for form in (["--format=count"], ["--format=text"]):
                compare(count, program, folder, [*form, path], "not UTF-8")
        for word in (b"some/n\xff.msc", b"\xff", b"--skip=\xff"):
            got = run([program, "scan", word, "some"], cwd=folder)
            is_refused = got.status == 2 and not got.output and got.error.startswith(b"error: ")
            count.add(is_refused and is_clean(got), "a word that is not UTF-8", word, got)


# Devices


def outputs(count, program):
    """Standard output closed, full and without a reader; standard error closed."""
    with made_folder() as folder:
        for jobs in (1, 3):
            for form in FORMS:
                words = [program, "scan", f"--jobs={jobs}", *form, str(folder / "some")]
                for streams in (">&-", ">/dev/full"):
                    plain = [it for it in words if it != "--places"]
                    count.compare(run(redirected(plain, streams)), FAULT, *plain[1:], streams)
                    got = run(redirected(words, f"{streams} 2>&-"))
                    count.compare(got, SILENT, *words[1:], streams, "2>&-")
                got = run(redirected(words, "2>&-"))
                count.compare(got, run(words), *words[1:], "2>&-")
                without_reader(count, [it for it in words if it != "--places"], b"")


def ends_soon(count, program):
    """The reader of the output leaves in the first round: no further round begins, so the FIFO in a
    later one, which nobody writes, is never opened."""
    texts = {f"{number:03}.msc": RACE for number in range(450)}
    with made_folder(texts) as folder:
        os.mkfifo(folder / "last.msc")
        for jobs in (1, 2):
            words = [program, "scan", f"--jobs={jobs}", "some", "last.msc"]
            process = begun(words, cwd=folder)
            process.stdout.read(100)
            process.stdout.close()
            try:
                status = process.wait(timeout=MOST)
            except subprocess.TimeoutExpired:
                process.kill()
                status = None
            told = process.stderr.read()
            count.compare((told, status), (FAULT.error, 4), f"--jobs={jobs}", "the reader leaves")


def calls(count, program):
    """Reads and writes are interrupted, move a byte, or fail."""
    with made_folder() as folder:
        shim = Shim(folder)
        for form in FORMS:
            words = [program, "scan", "--jobs=1", *form, "some"]
            told = words[1:]
            full = run(words, cwd=folder, env=shim.env())
            made = dict(zip(("READ", "WRITE"), shim.made()[2:]))
            count.compare(full, modelled(folder, words[2:]), *told)
            count.compare(run(words, cwd=folder, env=shim.env(SHORT="1+")), full, *told, "a byte")
            for call, times in made.items():
                for number in range(1, times + 1):
                    rule = {f"INTERRUPT_{call}": str(number)}
                    count.compare(run(words, cwd=folder, env=shim.env(**rule)), full, *told, rule)
                    for later in ("", "+"):
                        rule = {f"REFUSE_{call}": f"{number}{later}"}
                        got = run(words, cwd=folder, env=shim.env(**rule))
                        count.add(fails(got, full, call, later), *told, rule, got)


def fails(got, full, call, later):
    """Whether an answer is that a call failed: of a read, the file is told, and the others are
    checked; of a write, a beginning was written."""
    if call == "WRITE":
        causes = (b"", FAULT.error, FAULT.error + NO_OUTPUT)
        is_begun = got.error in causes and full.output.startswith(got.output)
        return got.status == 4 and is_begun
    told = got.output.count(NO_INPUT)
    return got.status == 4 and not got.error and (told >= 1 if later else told == 1)


# Memory and threads


def is_well(full, got):
    """Whether a run without all of its memory answers as the full run, or with a memory fault after
    a beginning of the answer, or names a folder that could not be opened for want of memory. Notes
    on a refusal may be lost."""
    is_bare = got == full._replace(output=NOTES.sub(rb"\1", full.output))
    is_fault = got.status == 4 and got.error == b"memory fault\n"
    is_told = got.status == 4 and not got.error and NO_MEMORY in got.output
    return got == full or is_bare or is_told or is_fault and full.output.startswith(got.output)


def memory(count, program, most):
    """Each allocation is refused."""
    with made_folder() as folder:
        shim = Shim(folder)
        for jobs in (1, 3):
            for form in FORMS:
                words = [program, "scan", f"--jobs={jobs}", *form, "some", "nofile.msc"]
                full = run(words, cwd=folder, env=shim.env())
                made = shim.made()[0]
                print(f"msc {' '.join(words[1:])}: {made} allocations")
                for number in range(1, made + 1, max(1, made // most)):
                    for later in ("", "+"):
                        rule = {"REFUSE_MEMORY": f"{number}{later}"}
                        got = run(words, cwd=folder, env=shim.env(**rule))
                        count.add(is_well(full, got), *words[1:], rule, got)


def space(count, program):
    """Less and less address space."""
    with made_folder() as folder:
        for jobs, step in ((1, STEP), (4, 8 * STEP)):
            words = [program, "scan", f"--jobs={jobs}", "some"]
            full, limits, refused = run(words, cwd=folder), 0, 0
            for most in range(step, 64 * step, step):
                got = run(words, cwd=folder, preexec_fn=in_space(most))
                if not is_unborn(got):
                    limits, refused = limits + 1, refused + (got.status == 4)
                    count.add(is_well(full, got), *words[1:], f"{most} bytes", got)
            count.add(limits > refused, *words[1:], "all limits are too small")


def threads(count, program):
    """Each thread is refused, alone and with all later ones; and a user may have few."""
    with made_folder() as folder:
        shim = Shim(folder)
        for jobs in (2, 3, 7, 64):
            words = [program, "scan", f"--jobs={jobs}", "some"]
            full = run(words, cwd=folder, env=shim.env())
            made = shim.made()[1]
            count.add(made > 0, *words[1:], "no thread was started")
            count.compare(full, modelled(folder, words[2:]), *words[1:])
            for number in range(1, made + 1):
                for later in ("", "+"):
                    rule = {"REFUSE_THREAD": f"{number}{later}"}
                    got = run(words, cwd=folder, env=shim.env(**rule))
                    count.compare(got, full, *words[1:], rule)
        if os.geteuid() == 0:
            folder.chmod(0o755)
            shutil.copy(program, folder / "msc")
            (folder / "msc").chmod(0o755)
            for most in range(1, 9):
                words = ["./msc", "scan", "--jobs=7", "some"]
                got = run(words, cwd=folder, user=NOBODY, preexec_fn=limited(most))
                count.compare(got, full, *words[1:], f"a user with {most} threads")


def main():
    words = arguments(__doc__)
    words.add_argument("--most", type=int, default=150, metavar="N")
    options = words.parse_args()
    program, count = str(pathlib.Path(options.program).resolve()), Count()
    for check in (rights, rings, while_scanned, churn, names, not_unicode, outputs, ends_soon,
                  calls, space, threads):
        before = count.passed, count.failed
        check(count, program)
        print(f"{check.__name__}: {count.passed - before[0]} passed, "
              f"{count.failed - before[1]} failed")
        sys.stdout.flush()
    memory(count, program, options.most)
    return count.end()


if __name__ == "__main__":
    sys.exit(main())
