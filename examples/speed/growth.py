#!/usr/bin/env python3
"""Measures how the time of a run grows with the number of methods.

The methods stand in 200 classes, in turn, and each calls the next, so all are entered, and a call's result comes back along
the whole chain. The plain solver goes over all inequalities once for each method on that way: twice as many methods take
at most four times as long. Build the program first (`./world` at the root does), and run this with nothing else on the
machine:

    examples/speed/growth.py

It prints the best time of seven runs for each number of methods, and how much longer that is than for half as many.
"""

import pathlib
import tempfile

from measure import PROGRAM, class_file, timed

CLASSES = 200
SIZES = [250, 500, 1000, 2000]


def name_of(index):
    return b"C%03d" % (index % CLASSES), b"m%d" % (index // CLASSES)


def make(folder, count):
    """A chain of so many methods."""
    classes = folder / "classes"
    (classes / "java/lang").mkdir(parents=True)
    constructor = [(0x01, b"<init>", 1, [])]
    (classes / "java/lang/Object.class").write_bytes(class_file(b"java/lang/Object", b"", constructor))
    for i in range(CLASSES):
        methods = []
        for k in range(i, count, CLASSES):
            calls = [name_of(k + 1)] if k + 1 < count else []
            methods.append((0x09, name_of(k)[1], 0, calls))
        (classes / f"C{i:03d}.class").write_bytes(class_file(b"C%03d" % i, b"java/lang/Object", methods))
    (folder / "roots").write_text("static C000.m0 ()V\n")


def main():
    before = None
    for count in SIZES:
        with tempfile.TemporaryDirectory() as room:
            folder = pathlib.Path(room)
            make(folder, count)
            words = [str(PROGRAM), "--roots", str(folder / "roots"), str(folder / "classes")]
            runs = [timed(words) for _ in range(7)]
        assert f"methods {count}\n".encode() in runs[0][1]
        seconds = min(run[0] for run in runs)
        longer = f", {seconds / before:.1f} times as long" if before else ""
        print(f"{count} methods in {CLASSES} classes: {seconds:.3f} s{longer}")
        before = seconds


if __name__ == "__main__":
    main()
