#!/usr/bin/env python3
"""Tries the wrong changes that no gate tries: those of planted/CRATE/*.edit, which have the form of must-fail edits.

    tools/planted.py            tries the edits of the crates that changed since they were last tried
    tools/planted.py CRATE..    tries the edits of these crates
    tools/planted.py --stale    names the crates that changed since then, and ends with status 1 where there is one

A crate is tried in a copy of the repository in which its planted edits stand in must-fail/, by `rt must-fail CRATE`, which proves
the crate once and then each edit over what was proved: libraries below that are not built are built first. What was refused is
kept in planted/TRIED, which is committed: a line a crate with a sum of its edits and of the code and the definitions of the crate
and of all below it. No gate runs this.
"""

import hashlib
import os
import shutil
import subprocess
import sys
import tempfile

TRIED = "planted/TRIED"


def listed():
    """The crates of crates.txt, each with those that it stands on, lowest first."""
    crates = {}
    with open("crates.txt", encoding="utf-8") as file:
        for line in file:
            name, _, rest = line.partition("#")[0].partition(":")
            if name.strip():
                crates[name.split()[0]] = rest.split()
    return crates


def with_those_below(crates, crate):
    """The names of a crate and of all the repository's crates that it stands on."""
    found, left = set(), [crate]
    while left:
        name = left.pop()
        if name in crates and name not in found:
            found.add(name)
            left += crates[name]
    return sorted(found)


def files_below(folder):
    for at, inside, names in os.walk(folder):
        inside.sort()
        yield from (f"{at}/{name}" for name in sorted(names))


def sum_of(crates, crate):
    """A sum of a crate's planted edits and of what they are tried on."""
    names = with_those_below(crates, crate)
    folders = [f"crates/{name}/{part}" for name in names for part in ("src", "specs")]
    made = hashlib.sha256()
    for path in (path for folder in [*folders, f"planted/{crate}"] for path in files_below(folder)):
        with open(path, "rb") as file:
            made.update(path.encode() + b"\0" + file.read() + b"\0")
    return made.hexdigest()[:16]


def last_tried():
    """The sum of each crate at which its edits were last refused."""
    if not os.path.isfile(TRIED):
        return {}
    with open(TRIED, encoding="utf-8") as file:
        return dict(line.split() for line in file if line.strip())


def are_refused(crate):
    """Whether each planted edit of a crate is refused. The copy shares the libraries that are built, so that none is proved again."""
    with tempfile.TemporaryDirectory(prefix="planted-", dir=os.path.dirname(os.getcwd())) as room:
        unneeded = shutil.ignore_patterns("incremental", "must-fail")
        shutil.copytree("crates", f"{room}/crates", copy_function=os.link, ignore=unneeded)
        shutil.copy("crates.txt", room)
        shutil.copy("HANDLES", room)
        shutil.copytree(f"planted/{crate}", f"{room}/crates/{crate}/must-fail")
        return subprocess.run(["rt", "must-fail", crate], cwd=room, check=False).returncode == 0


def main(words):
    crates, known = listed(), last_tried()
    planted = [name for name in crates if os.path.isdir(f"planted/{name}")]
    stale = [name for name in planted if known.get(name) != sum_of(crates, name)]
    if words == ["--stale"]:
        print(*stale, sep="\n", end="\n" if stale else "")
        return 1 if stale else 0
    failed = []
    for name in words or stale:
        if are_refused(name):
            known[name] = sum_of(crates, name)
        else:
            failed.append(name)
    with open(TRIED, "w", encoding="utf-8") as file:
        file.writelines(f"{name} {known[name]}\n" for name in planted if name in known)
    if failed:
        print("not refused, or not tried:", *failed)
    return 1 if failed else 0


if __name__ == "__main__":
    sys.exit(main(sys.argv[1:]))
