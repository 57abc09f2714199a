#!/usr/bin/env python3
"""Writes the class files of an example byte by byte, from the file `bytes` in its folder, in which each byte stands with
its meaning beside it:

    examples/make.py examples/first

A line `== PATH` begins a file below `classes`; of the other lines the words of hexadecimal digits before the first two
spaces are bytes. The files are those that the example's listing says.
"""

import pathlib
import sys


def files_of(text):
    """The paths of the files with their bytes."""
    files = {}
    for line in text.splitlines():
        if line.startswith("== "):
            found = files.setdefault(line[3:], bytearray())
        elif line.strip():
            for word in line.split("  ")[0].split():
                found += bytes.fromhex(word)
    return files


def main():
    folder = pathlib.Path(sys.argv[1])
    for name, found in files_of((folder / "bytes").read_text()).items():
        path = folder / "classes" / name
        path.parent.mkdir(parents=True, exist_ok=True)
        path.write_bytes(found)


if __name__ == "__main__":
    main()
