#!/usr/bin/env python3
"""Counts what is long, by crate: lines over 160 characters, files over 500 lines, functions over 40 lines.

    tools/long.py [--names] [CRATE..]        at the top of the repository

Lines are those of .antt files under specs/, of .antt files under proofs/, and of code (.rt); what imports (`use`) is counted apart, since
nothing breaks such a line. Files are all of these. A function's lines are those of its body, from the brace that opens it to the one
that closes it, without its contract. With --names each is printed: a line or a function with its file, its line and its length.
"""

import collections
import re
import sys

from antt import files, text_of

MOST = {"line": 160, "file": 500, "function": 40}
KINDS = ("specs", "proofs", "code", "use", "files", "functions")
FUNCTION = re.compile(r"^( *)(?:pub(?:\(crate\))? )?(?:const |unsafe )*fn (\w+)")


def functions(lines):
    """The functions of a file of code: the line, the name, and how many lines the body has."""
    for at, line in enumerate(lines):
        found = FUNCTION.match(line)
        if not found:
            continue
        opened = next((it for it in range(at, len(lines)) if lines[it].startswith(found[1] + "{") or lines[it].endswith((" {", ";"))), at)
        while opened < len(lines) and re.match(r"\s*(?:ensures|requires|decreases)\b", lines[opened]):
            opened = next((it for it in range(opened + 1, len(lines)) if re.match(found[1] + r"[{}]", lines[it])), len(lines))
        if opened == len(lines) or lines[opened].endswith(";"):
            continue
        closed = next((it for it in range(opened + 1, len(lines)) if lines[it].startswith(found[1] + "}")), opened)
        yield at + 1, found[2], closed - opened - 1


def long_of(path):
    """What is long in a file: its kind, its place and name, and its length."""
    lines = text_of(path).rstrip("\n").split("\n")
    kind = "code" if path.endswith(".rt") else path.split("/")[2]
    for at, line in enumerate(lines, 1):
        if len(line) > MOST["line"]:
            yield "use" if re.match(r"\s*(ghost )?use ", line) else kind, f"{path}:{at}", len(line)
    if len(lines) > MOST["file"]:
        yield "files", path, len(lines)
    for at, name, length in functions(lines) if kind == "code" else ():
        if length > MOST["function"]:
            yield "functions", f"{path}:{at} {name}", length


def main():
    wanted = [it for it in sys.argv[1:] if it != "--names"]
    counts, named = collections.defaultdict(collections.Counter), []
    for path in files("crates/*/specs/**/*.antt") + files("crates/*/proofs/**/*.antt") + files("crates/*/src/**/*.rt"):
        crate = path.split("/")[1]
        for kind, place, length in long_of(path) if not wanted or crate in wanted else ():
            counts[crate][kind] += 1
            named.append((kind, place, length))
    if "--names" in sys.argv:
        for kind, place, length in sorted(named, key=lambda it: (KINDS.index(it[0]), -it[2])):
            print(f"{kind} {place} {length}")
    print(f"{'crate':20}" + "".join(f"{kind:>10}" for kind in KINDS))
    for crate, found in sorted(counts.items(), key=lambda it: -sum(it[1].values())):
        print(f"{crate:20}" + "".join(f"{found[kind]:10}" for kind in KINDS))
    print(f"{'all':20}" + "".join(f"{sum(found[kind] for found in counts.values()):10}" for kind in KINDS))


if __name__ == "__main__":
    main()
