#!/usr/bin/env python3
"""Measures a run over many classes beside `cat` of the same files.

Each class has some static methods, of which each calls the next, and as many further constants as are asked for, half of
them texts. The root is in one class, so little is solved: the time is that of the walk, of reading, and of making the
system. Build the program first (`./world` at the root does), and run this with nothing else on the machine:

    examples/speed/measure.py
    examples/speed/measure.py --classes 5000 --methods 2 --constants 480
    examples/speed/measure.py --classes 200 --hot

It prints the best time of seven runs of each, in turn, their ratio, and the peak memory for this number of classes and
for half as many; with --hot the functions in which callgrind counts the most instructions instead.
"""

import argparse
import os
import pathlib
import struct
import subprocess
import sys
import tempfile
import time

PROGRAM = pathlib.Path(__file__).resolve().parents[2] / "crates/world/out/world"


def u2(number):
    return struct.pack(">H", number)


def text(name):
    return b"\x01" + u2(len(name)) + name


def constants(count, first):
    """So many constants from a place on: texts and numbers in turn."""
    made = []
    for k in range(count):
        made.append(text(b"constant text %05d" % (first + k)) if k % 2 == 0 else b"\x03" + struct.pack(">I", k))
    return made


def class_file(name, superclass, methods, more=0):
    """Methods are (flags, name, max_locals, calls), and a call is (class, name), all with the descriptor ()V."""
    pool = [text(name), b"\x07" + u2(1), text(superclass), b"\x07" + u2(3), text(b"()V"), text(b"Code")]
    body = u2(0x21) + u2(2) + u2(4 if superclass else 0) + u2(0) + u2(0) + u2(len(methods))
    for flags, method, max_locals, calls in methods:
        code = b""
        pool.append(text(method))
        own = len(pool)
        for owner, callee in calls:
            pool += [text(owner), b"\x07" + u2(len(pool) + 1), text(callee)]
            pool.append(b"\x0c" + u2(len(pool)) + u2(5))
            pool.append(b"\x0a" + u2(len(pool) - 2) + u2(len(pool)))
            code += b"\xb8" + u2(len(pool))
        code += b"\xb1"
        body += u2(flags) + u2(own) + u2(5) + u2(1) + u2(6) + struct.pack(">I", 12 + len(code))
        body += u2(0) + u2(max_locals) + struct.pack(">I", len(code)) + code + u2(0) + u2(0)
    pool += constants(more, len(pool))
    return b"\xca\xfe\xba\xbe" + u2(0) + u2(52) + u2(len(pool) + 1) + b"".join(pool) + body + u2(0)


def make(folder, count, methods_each, more):
    classes = folder / "classes"
    (classes / "java/lang").mkdir(parents=True)
    constructor = [(0x01, b"<init>", 1, [])]
    (classes / "java/lang/Object.class").write_bytes(class_file(b"java/lang/Object", b"", constructor))
    for i in range(count):
        name = b"C%05d" % i
        methods = []
        for k in range(methods_each):
            calls = [(name, b"m%d" % (k + 1))] if k + 1 < methods_each else []
            methods.append((0x09, b"m%d" % k, 0, calls))
        (classes / f"{name.decode()}.class").write_bytes(class_file(name, b"java/lang/Object", methods, more))
    (folder / "roots").write_text("static C00000.m0 ()V\n")
    return sorted(str(path) for path in classes.rglob("*.class"))


def timed(words):
    start = time.perf_counter()
    done = subprocess.run(words, stdout=subprocess.PIPE, check=True)
    return time.perf_counter() - start, done.stdout


def peak(words):
    """The peak memory of a run, in KiB."""
    child = subprocess.Popen(words, stdout=subprocess.DEVNULL, stderr=subprocess.DEVNULL)
    _, status, usage = os.wait4(child.pid, 0)
    child.returncode = os.waitstatus_to_exitcode(status)
    return usage.ru_maxrss


def hot_spots(words, folder):
    """The functions with the most instructions of their own."""
    counts = folder / "counts"
    command = ["valgrind", "--tool=callgrind", f"--callgrind-out-file={counts}", *words]
    subprocess.run(command, stdout=subprocess.DEVNULL, stderr=subprocess.DEVNULL, check=True)
    table = subprocess.run(["callgrind_annotate", str(counts)], stdout=subprocess.PIPE, check=True, text=True).stdout
    rows = [line for line in table.splitlines() if "%)" in line]
    return rows[:16]


def main():
    parser = argparse.ArgumentParser()
    parser.add_argument("--classes", type=int, default=1000)
    parser.add_argument("--methods", type=int, default=30)
    parser.add_argument("--constants", type=int, default=0)
    parser.add_argument("--hot", action="store_true")
    asked = parser.parse_args()
    with tempfile.TemporaryDirectory() as one, tempfile.TemporaryDirectory() as two:
        one, two = pathlib.Path(one), pathlib.Path(two)
        files = make(one, asked.classes, asked.methods, asked.constants)
        words = [str(PROGRAM), "--roots", str(one / "roots"), str(one / "classes")]
        if asked.hot:
            print("\n".join(hot_spots(words, one)))
            return
        make(two, asked.classes // 2, asked.methods, asked.constants)
        smaller = [str(PROGRAM), "--roots", str(two / "roots"), str(two / "classes")]
        times, cats = [], []
        for _ in range(7):
            seconds, report = timed(words)
            times.append(seconds)
            cats.append(timed(["cat", *files])[0])
        assert f"methods {asked.methods}\n".encode() in report
        size = sum(os.path.getsize(path) for path in files)
        print(f"{len(files)} classes, {size} bytes")
        print(f"world {min(times):.3f} s, cat {min(cats):.4f} s, ratio {min(times) / min(cats):.1f}")
        print(f"peak memory {peak(words)} KiB, with half as many classes {peak(smaller)} KiB")


if __name__ == "__main__":
    main()
