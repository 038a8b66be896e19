#!/usr/bin/env python3
"""Prints the functions whose mechanical part is large: what rattle derives from a body, statement by statement, before any proof.

    tools/costly.py [--over MB] [CRATE..]      of these crates, or of all, each function over 4 MB or the given size, largest first

A crate has to have been checked by `rt check` here, which keeps each part of its proof in out/incremental; of several that it
kept the newest counts. A megabyte costs 1 to 1.5 s of a processor, above 10 MB 2 to 3.4 s. No gate runs this.
"""

import argparse
import os
import re

# Of a function alone, and of one of a cycle: M.F.Lts, M.+CYCLE.Lts-F or +CYCLE.Lts-M-F.
PART = re.compile(r"Rattle-(\w+)-proofs\.(.+)\.Lts(?:-([^.]+))?\.oantt")
MEGABYTE = 1_000_000


def kept_of(crate):
    """The folder with the newest parts of a crate's proof, if there is one."""
    kept = f"crates/{crate}/out/incremental"
    folders = [entry for entry in os.scandir(kept) if entry.is_dir()] if os.path.isdir(kept) else []
    return max(folders, key=lambda entry: entry.stat().st_mtime, default=None)


def parts_of(crate):
    """Each function of a crate with the bytes of its mechanical part."""
    folder = kept_of(crate)
    for entry in os.scandir(folder) if folder else ():
        part = PART.fullmatch(entry.name)
        if part and part[1] == crate:
            path = part[2].split(".") + (part[3].split("-") if part[3] else [])
            yield entry.stat().st_size, "::".join(name for name in path if not name.startswith("+"))


def main():
    words = argparse.ArgumentParser(description=__doc__, formatter_class=argparse.RawDescriptionHelpFormatter)
    words.add_argument("--over", type=float, default=4, metavar="MB")
    words.add_argument("crates", nargs="*", metavar="CRATE")
    given = words.parse_args()
    crates = given.crates or sorted(os.listdir("crates"))
    parts = [(size, crate, name) for crate in crates for size, name in parts_of(crate)]
    for size, crate, name in sorted(parts, reverse=True):
        if size > given.over * MEGABYTE:
            print(f"{size / MEGABYTE:6.1f} MB  {crate} {name}")


if __name__ == "__main__":
    main()
