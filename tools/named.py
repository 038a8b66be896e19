#!/usr/bin/env python3
"""Says what docs/ARCHITECTURE.md names that isn't there, in its tables.

    tools/named.py        at the top of the repository

It looks whether each file of "The crates", each definition of "Find a rule by construct", and each crate, file, definition,
function, clause and test of "From the language to the code" is in the tree, as it is spelt. No gate runs this.
"""

import os
import re
import sys

FUNCTION = r"\s*(?:pub(?:\(crate\))? )?(?:const )?fn "
# a definition by its name, or a constructor
DEFINITION = r"^\s*(?:(?:abbrev pub|unfoldable pub|opaque pub|abbrev|pub (?:record|data)|pub) {0}(?=[ :\n])|{0} :)"


def text_of(path):
    with open(path, encoding="utf-8") as file:
        return file.read()


def clauses(path, name):
    """The names of a function's clauses, `ensures` where one has none; nothing where there is no such function."""
    lines = text_of(path).split("\n")
    starts = [at for at, line in enumerate(lines) if re.match(FUNCTION + name + r"\b", line)]
    if not starts:
        return None
    found = []
    for line in lines[starts[0] + 1 :]:
        if re.match(r"\s*\{\s*$", line) or re.match(FUNCTION, line):
            break
        clause = re.match(r"\s*ensures\s*(\w+)?\s*\{", line)
        if clause:
            found.append(clause.group(1) or "ensures")
    return found


def missing_definitions(cell):
    """What isn't there of a cell such as: lk_types `Rows` (`with_field`), `Grounding`."""
    crate, path = None, None
    for match in re.finditer(r"(lk_\w+)|\(([^)]*)\)|`(\w+)`", cell):
        if match.group(1):
            crate = match.group(1)
        elif match.group(3):
            path = f"crates/{crate}/specs/{match.group(3)}.antt"
            if not os.path.exists(path):
                yield path
        else:
            for name in re.findall(r"`(\w+)`", match.group(2)):
                if not os.path.exists(path) or not re.search(DEFINITION.format(name), text_of(path), re.M):
                    yield f"{path} {name}"


def missing_functions(functions, clause_names):
    """What isn't there of functions such as: lk_types `ty.rt` `of`; `text.rt` `push`; and of their clauses, in the same order."""
    crate = None
    parts, named = functions.split("; "), clause_names.split("; ")
    told = clause_names != "no clause says so"
    if told and len(parts) != len(named):
        yield f"{len(parts)} functions and {len(named)} groups of clauses: {functions}"
    for part, names in zip(parts, named if told else [""] * len(parts)):
        match = re.match(r"(?:(lk_\w+) )?`(\S+\.rt)` `(\w+)`$", part)
        if not match:
            yield part
            continue
        crate = match.group(1) or crate
        path = f"crates/{crate}/src/{match.group(2)}"
        have = clauses(path, match.group(3)) if os.path.exists(path) else None
        if have is None:
            yield f"{path} {match.group(3)}"
        else:
            yield from (f"{path} {match.group(3)} {name}" for name in re.findall(r"`(\w+)`", names) if name not in have)


def missing_tests(cell):
    """What isn't there of tests such as: cases `check_rows.cases`; unit_tests `texts.rt`; `tools/sqlite.py`."""
    crate = None
    for match in re.finditer(r"(\w+)(?= `)|`(\S+\.(?:rt|py|cases))`", cell):
        if match.group(1):
            crate = match.group(1)
            continue
        name = match.group(2)
        folder = "data" if name.endswith(".cases") else "src"
        path = name if name.startswith("tools/") else f"crates/{crate}/{folder}/{name}"
        if not os.path.exists(path):
            yield path


def missing_files(crate, cell):
    """What isn't there of the files of a crate's specs, such as: `Bag` what a query gives; `formers/` how lists are stored."""
    for name in re.findall(r"`(\w+)/?`", cell):
        if not os.path.exists(f"crates/{crate}/specs/{name}.antt") and not os.path.isdir(f"crates/{crate}/specs/{name}"):
            yield f"crates/{crate}/specs/{name}"


def rows_of(heading, cells):
    """The rows of the table under a heading, which have so many cells, without its head."""
    section = text_of("docs/ARCHITECTURE.md").split(f"\n## {heading}\n")[1].split("\n## ")[0]
    lines = [line for line in section.split("\n") if line.startswith("| ")][1:]
    rows = [[cell.strip() for cell in re.split(r"(?<!\\)\|", line.strip())[1:-1]] for line in lines]
    if any(len(row) != cells for row in rows):
        sys.exit(f"not {cells} cells: {[row for row in rows if len(row) != cells]}")
    return rows


def main():
    crates, constructs, rules = rows_of("The crates", 4), rows_of("Find a rule by construct", 6), rows_of("From the language to the code", 5)
    faults = [it for crate, _, _, files in crates if crate.startswith("lk_") for it in missing_files(crate, files)]
    faults += [it for row in constructs for cell in row[1:] for it in missing_definitions(cell)]
    for _, definition, functions, clause_names, tests in rules:
        faults += [] if definition.startswith("none") else missing_definitions(definition)
        faults += missing_functions(functions, clause_names)
        faults += missing_tests(tests)
    for fault in faults:
        print(fault)
    print(f"{len(crates)} crates, {len(constructs)} constructs, {len(rules)} rules, {len(faults)} names that aren't there")
    sys.exit(bool(faults))


if __name__ == "__main__":
    main()
