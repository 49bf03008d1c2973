"""What `msc scan` prints of folders with random charts, diagrams and other files.

Some files have mistakes, some are hidden or in folders that are passed over, and some are links.
Several scans of each folder, with random PATHs and options, are compared. First come examples,
folders in 65 levels, many files, which different numbers of workers scan, and the files of this
repository. Names that are no UTF-8 are compared without the cause of their fault. Unless the
superuser compares, some files and folders cannot be read.
"""
import contextlib
import os
import pathlib
import tempfile

from generators.charts import small_chart
from generators.scans import examples, make_tree, text_for, words_of
from harness import difference, run, shown
from models import scan

NEEDS_PROGRAM = True
OPTIONS = {"number": 40}
# the forms that are compared; the program does not have JSON and SARIF yet
WITH_RECORDS = False
FORMS = ("full", "text", "count", "lines", *["json", "sarif"] * WITH_RECORDS)
SCANS, MANY = 4, 150
TOP = pathlib.Path(__file__).resolve().parents[3]
# the files of this repository that are scanned, and the options
OWN = ("README.md", "docs", "charts")
OWN_OPTIONS = ("", "--queues all --closest --show 1 --short")
# the options with which the examples are scanned
EXAMPLES = ("", "--queues all", "--queues single --queues own", "--no-accept --queues pair",
            "--only-races --closest", "-q", "--single b --single nobody --again --short")


def contents(folder):
    """The files of a folder, as they are shown of a failure."""
    for path in sorted(folder.rglob("*")):
        is_read = path.is_file() and os.access(path, os.R_OK)
        text = shown(path.read_bytes()) if is_read else ""
        yield f"{path.relative_to(folder)}: {text}"


def compare_scan(trial, folder, words, stdin=b"", jobs=((),)):
    """Compares a scan in a folder, with each of these words too."""
    with contextlib.chdir(folder):
        wanted = scan.answer(["--version", trial.version, *words], stdin)
        for more in jobs:
            got = run([trial.program, "scan", *more, *words], stdin)
            texts = () if folder == TOP else contents(folder)
            trial.add(got == wanted, *texts, [*more, *words], shown(stdin),
                      *difference(wanted, got))
    trial.noted[f"status {wanted.status}"] += 1


def locked(pick, folder, tree):
    """Takes away the right to read something; what has to be given back."""
    some = [*tree.files, *tree.folders]
    if os.geteuid() == 0 or not some or pick.random() < 0.8:
        return []
    path = folder / pick.choice(some)
    if path.is_symlink():
        return []
    held = path.stat().st_mode
    path.chmod(0)
    return [(path, held)]


def compare_folder(trial):
    """Compares scans of a random folder."""
    pick = trial.pick
    with tempfile.TemporaryDirectory() as name:
        folder = pathlib.Path(name)
        tree = make_tree(pick, folder)
        given_back = locked(pick, folder, tree)
        for _ in range(SCANS):
            words = words_of(pick, tree, FORMS)
            stdin = text_for(pick, pick.choice(["a.msc", "a.mmd", "a.md"]))
            compare_scan(trial, folder, [*words, *tree.paths(pick)], stdin)
        for path, held in given_back:
            path.chmod(held)


def compare_examples(trial):
    """Compares scans of texts on which architectures, marks and queues tell."""
    with tempfile.TemporaryDirectory() as name:
        folder = pathlib.Path(name)
        for file, text in examples():
            (folder / file).write_bytes(text)
        for words in EXAMPLES:
            for form in FORMS:
                compare_scan(trial, folder, [*words.split(), f"--format={form}", "."])


def compare_levels(trial):
    """Compares scans of folders in 64 and in 65 levels."""
    for levels, last in ((64, "a"), (65, "a"), (65, ".a"), (65, "target")):
        with tempfile.TemporaryDirectory() as name:
            top = pathlib.Path(name)
            folder = top.joinpath(*["d"] * (levels - 1))
            (folder / last).mkdir(parents=True)
            for own in (folder, folder / last):
                (own / "t.msc").write_text("msc t; endmsc;")
            for form in FORMS:
                compare_scan(trial, top, ["--places", f"--format={form}", "."])


def compare_workers(trial):
    """Compares scans of many files by different numbers of workers."""
    with tempfile.TemporaryDirectory() as name:
        folder = pathlib.Path(name)
        for number in range(MANY):
            (folder / f"{number}.msc").write_text(small_chart(trial.pick, 3, 2))
        (folder / "0.md").write_text("no diagram\n")
        for form in FORMS:
            jobs = [[f"--jobs={number}"] for number in (1, 2, 7)]
            compare_scan(trial, folder, [f"--format={form}", "."], jobs=jobs)


def compare_repository(trial):
    """Compares scans of the files of this repository."""
    for words in OWN_OPTIONS:
        for form in FORMS:
            compare_scan(trial, TOP, [*words.split(), f"--format={form}", *OWN])


def compare(trial):
    trial.version = run([trial.program, "--version"]).output.decode().split()[1]
    compare_examples(trial)
    compare_levels(trial)
    compare_workers(trial)
    compare_repository(trial)
    for _ in range(trial.options.number):
        compare_folder(trial)
