#!/usr/bin/env python3
"""Measures the reading of class files that are made to be slow.

Each file is one class, which is read whole before the program answers that it isn't built yet for such classes:

- methods: so many methods, whose names and descriptors are 256 texts each, so that each is one of 256 with its name;
- interfaces: so many interfaces, all of them the class that one text of 65535 bytes names;
- fields: so many fields, all named by one text of 65535 bytes, of different types.

Build the program first (`./world` at the root does), and run this with nothing else on the machine:

    examples/speed/slow_files.py

For each kind it prints the best time of seven runs and the peak memory for so many and for half of them.
"""

import pathlib
import subprocess
import tempfile
import time

from measure import PROGRAM, peak, text, u2

LONG = b"n" * 65535
NOT_BUILT = 10


def class_with(pool, interfaces=b"\0\0", fields=b"\0\0", methods=b"\0\0"):
    """A class `A`, whose own constants stand at the places 1 to 4 before those of the pool."""
    first = [text(b"A"), b"\x07" + u2(1), text(b"java/lang/Object"), b"\x07" + u2(3)]
    head = b"\xca\xfe\xba\xbe" + u2(0) + u2(52) + u2(5 + len(pool)) + b"".join(first + pool)
    return head + u2(0x21) + u2(2) + u2(4) + interfaces + fields + methods + u2(0)


def with_methods(count):
    names = [text(b"m%d" % i) for i in range(256)]
    types = [text(b"()LD%d;" % i) for i in range(256)]
    made = [u2(0x101) + u2(5 + i // 256) + u2(261 + i % 256) + u2(0) for i in range(count)]
    return class_with(names + types, methods=u2(count) + b"".join(made))


def with_interfaces(count):
    return class_with([text(LONG), b"\x07" + u2(5)], interfaces=u2(count) + u2(6) * count)


def with_fields(count):
    types = [text(b"LD%d;" % i) for i in range(count)]
    made = [u2(1) + u2(5) + u2(6 + i) + u2(0) for i in range(count)]
    return class_with([text(LONG)] + types, fields=u2(count) + b"".join(made))


def measured(folder, class_file):
    """The best time of seven runs in seconds, and the peak memory in KiB."""
    (folder / "classes").mkdir(exist_ok=True)
    (folder / "classes/A.class").write_bytes(class_file)
    words = [str(PROGRAM), "--roots", str(folder / "roots"), str(folder / "classes")]
    times = []
    for _ in range(7):
        start = time.perf_counter()
        done = subprocess.run(words, stdout=subprocess.DEVNULL, stderr=subprocess.DEVNULL)
        times.append(time.perf_counter() - start)
        assert done.returncode == NOT_BUILT, done.returncode
    return min(times), peak([*words])


def main():
    kinds = [("methods", with_methods, 65535), ("interfaces", with_interfaces, 32000), ("fields", with_fields, 30000)]
    with tempfile.TemporaryDirectory() as room:
        folder = pathlib.Path(room)
        for kind, make, count in kinds:
            for n in (count // 2, count):
                class_file = make(n)
                seconds, most = measured(folder, class_file)
                print(f"{n} {kind}, {len(class_file)} bytes: {seconds:.3f} s, peak memory {most} KiB")


if __name__ == "__main__":
    main()
