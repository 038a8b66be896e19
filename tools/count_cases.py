#!/usr/bin/env python3
"""Prints what a program that runs files of cases has to print, counted from the files.

    tools/count_cases.py CRATE > crates/CRATE/stdout

For each file that crates/CRATE/args names: a line `NAME: N cases`, and before it a line `NAME:LINE: TEXT` for each line `# tells TEXT`
of a case, where LINE is the first line of its paragraph. So only cases that are wrong on purpose have such lines. It stops at a file
in data/ with the ending .cases that args doesn't name.
"""

import os
import sys


def is_case(lines):
    """Whether the paragraph of these lines is a case: no settings, and not only remarks."""
    return lines[0] != "set" and any(line and not line.startswith("# ") for line in lines)


def told(name, text):
    """What has to be told of a file with this name and text."""
    line, cases = 1, 0
    for paragraph in text.split("\n\n"):
        lines = paragraph.split("\n")
        if is_case(lines):
            cases += 1
            for it in lines:
                if it.startswith("# tells "):
                    yield f"{name}:{line}: {it.removeprefix('# tells ')}"
        line += len(lines) + 1
    yield f"{name}: {cases} cases"


def main():
    crate = f"crates/{sys.argv[1]}"
    with open(f"{crate}/args", encoding="utf-8") as it:
        names = it.read().split("\n")[:-1]
    left = {name for name in os.listdir(f"{crate}/data") if name.endswith(".cases")} - set(names)
    if left:
        sys.exit(f"args doesn't name {' '.join(sorted(left))}")
    for name in names:
        with open(f"{crate}/data/{name}", encoding="utf-8", newline="") as it:
            for line in told(name, it.read()):
                print(line)


main()
