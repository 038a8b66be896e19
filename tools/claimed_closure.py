#!/usr/bin/env python3
"""Prints which definitions a clause unfolds to, by crate; with no other clause named, `answer` of `links_main`.

    tools/claimed_closure.py [--names|--through] [--without NAME,NAME..] [FILE FUNCTION CLAUSE]        at the top of the repository

Counted are abbreviations, functions, records and data families of crates/*/specs that the clause names, or that one of them names
and so on: in its type, its equations, its fields or constructors, or in the parameters of the sections round it. A constructor
counts as its family, a definition once. Counted apart are types of the code (`specs.declared`) that these name; their fields and
models aren't followed, so what only stands in those isn't there. Not counted: what std and the toolchain's crates define, the
methods of traits that a clause calls, and what their contracts say.

With --names each definition is printed with its file and line, and the first one that named it. With --through the fifty through
which alone most others are reached are printed, with how many definitions and types these are. What --without names isn't unfolded
and doesn't count, so what is left is printed where a clause did without it.
"""

import collections
import re
import sys

from antt import Definition, text_of
from naming import named_by, names


def clause_of(path, function, clause):
    """The text of a function's clause."""
    head = re.search(rf"fn {function}\b.*?\n\s*\{{\n", text_of(path), re.S)
    found = head and re.search(rf"ensures {clause} \{{(.*?)\}}\n\s*(?:ensures|requires|\{{)", head[0], re.S)
    if not found:
        sys.exit(f"no clause {clause} of {function} in {path}")
    return found[1]


def closure(path, text, without=()):
    """What a text unfolds to without some names: each definition, and each type of the code, with what first named it."""
    found, waiting = {}, collections.deque(("the clause", it) for word, it in names(path, text)[0])
    while waiting:
        by, it = waiting.popleft()
        if it is None or it in found or it in without or isinstance(it, Definition) and it.name in without:
            continue
        found[it] = by
        if isinstance(it, Definition):
            waiting += [(it.name, other) for word, other in named_by(it)]
    return found


def option(name, words):
    """The words without an option, and what stands behind it, or none."""
    if name not in words:
        return words, None
    at = words.index(name)
    return words[:at] + words[at + 2 :], words[at + 1]


def main():
    words, without = option("--without", sys.argv[1:])
    without = set((without or "").split(","))
    path, function, clause = [it for it in words if not it.startswith("--")] or ("crates/lk_cli/src/top.rt", "links_main", "answer")
    text = clause_of(path, function, clause)
    found, by_crate = closure(path, text, without), collections.defaultdict(lambda: ([], []))
    for it, by in found.items():
        if isinstance(it, Definition):
            by_crate[it.path.split("/")[1]][0].append((it.path, it.line, it.name, by))
        else:
            by_crate[it.split()[0]][1].append((it.split()[1], by))
    if "--through" in words:
        through = {it: len(found) - len(closure(path, text, {*without, it})) for it in found if isinstance(it, Definition)}
        for it in sorted(through, key=through.get, reverse=True)[:50]:
            print(f"{through[it]:5} {it.path.split('/', 1)[1]}:{it.line} {it.name}")
    order = re.findall(r"^(\w+):", text_of("crates.txt"), re.M)
    print(f"{'crate':20} {'definitions':>11} {'types':>6}")
    for crate in sorted(by_crate, key=order.index):
        definitions, types = by_crate[crate]
        print(f"{crate:20} {len(definitions):11} {len(types):6}")
        for file, line, name, by in sorted(definitions) if "--names" in words else ():
            print(f"    {file.split('/', 2)[2]}:{line} {name}, named by {by}")
        for name, by in sorted(types) if "--names" in words else ():
            print(f"    type {name}, named by {by}")
    print(f"{sum(len(it[0]) for it in by_crate.values())} definitions in {sum(bool(it[0]) for it in by_crate.values())} crates, ", end="")
    print(f"{sum(len(it[1]) for it in by_crate.values())} types of the code")


if __name__ == "__main__":
    main()
