#!/usr/bin/env python3
"""Prints where a crate's check spent its time, module by module, from the files that it kept.

    cd crates/NAME && rm -rf out && rt check --jobs 1; ../../tools/module_times.py

A check from nothing by one process keeps a file for each module when it ends with it, so the time
from one file to the next is what the module took, with what the check did beside it. The module of
a function that ends in `Lts` is the borrow checker's part of its proof, and the one that ends in
`Proof` has its goals.
"""
import argparse
import pathlib


def module_of(path):
    """The module that a kept file is of."""
    name = path.name.removesuffix(".oantt").removesuffix(".decls")
    return name.partition("-proofs.")[2] or name


def main():
    style = argparse.RawDescriptionHelpFormatter
    words = argparse.ArgumentParser(description=__doc__, formatter_class=style)
    words.add_argument("--most", type=int, default=20, help="how many modules are printed")
    words.add_argument("folder", nargs="?", default="out/incremental", type=pathlib.Path)
    options = words.parse_args()
    kept = sorted((it.stat().st_mtime, it) for it in options.folder.rglob("*") if it.is_file())
    if not kept:
        words.error(f"{options.folder} has no files")
    spent = [(end - start, module_of(it)) for (start, _), (end, it) in zip(kept, kept[1:])]
    for seconds, module in sorted(spent, reverse=True)[: options.most]:
        print(f"{seconds:7.1f} {module}")
    print(f"{kept[-1][0] - kept[0][0]:7.1f} in all")


if __name__ == "__main__":
    main()
