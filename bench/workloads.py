"""The workloads of workloads.txt and later.txt, for bench/run and bench/count.

A line is a name, the crate of its program, and the program's arguments; SEED stands for the seed, SHARE for how much of
the job is done, in thousandths, and so does a last argument of 1000. `<FILE` is what the program reads.
"""
import os
import pathlib

HERE = pathlib.Path(__file__).resolve().parent
WHOLE = "1000"


def workloads(seed, share=WHOLE):
    """Yields the name, the crate, the arguments and the file that is read, of each workload."""
    for file in (HERE / "workloads.txt", HERE / "later.txt"):
        if not file.is_file():
            continue
        for line in filter(str.strip, file.read_text().splitlines()):
            name, crate, *words = line.split()
            given = words.pop()[1:] if words and words[-1].startswith("<") else os.devnull
            words = [{"SEED": str(seed), "SHARE": share, WHOLE: share}.get(word, word) for word in words]
            yield name, crate, words, given


def program(checkout, crate):
    """The program of a crate that `rt run` or `rt ci` built in a checkout, or None."""
    path = pathlib.Path(checkout).resolve() / "crates" / crate / "out" / crate
    return str(path) if path.is_file() else None
