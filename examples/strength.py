#!/usr/bin/env python3
"""Prints the table of docs/STRENGTH.md: for each crate its must-fail edits, and what docs/planted says of wrong bodies that
were planted by machine. Run it at the top of the repository."""
import os
import re

planted = {}
with open("docs/planted", encoding="utf-8") as lines:
    for line in lines:
        if line.strip() and not line.startswith("#"):
            name, said = line.split(":", 1)
            planted[name.strip()] = said.strip()

print("| Crate | Edits | Planted by machine |")
print("|---|---|---|")
with open("crates.txt", encoding="utf-8") as lines:
    for line in lines:
        found = re.match(r"([a-z0-9_]+)\b.*:", line)
        if not found or line.startswith("#"):
            continue
        name = found.group(1)
        folder = f"crates/{name}/must-fail"
        edits = len([it for it in os.listdir(folder) if it.endswith(".edit")]) if os.path.isdir(folder) else 0
        print(f"| `{name}` | {edits} | {planted.get(name, 'not run')} |")
