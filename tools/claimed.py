#!/usr/bin/env python3
"""Says which public call, which named clause of one, or which conversion of a public type docs/CLAIMS.md doesn't name.

    tools/claimed.py        at the top of the repository

A call is public where its module is, or where the crate's lib.rt hands it, or the type that it belongs to, on. Only names are
compared, each with the section of its crate; whether the words are true is for a reader. No gate runs this.
"""

import os
import re
import sys

HEADING = re.compile(r"^## (\w+)\n(.*?)(?=^## |\Z)", re.S | re.M)
HANDED_ON = re.compile(r"pub use ([\w:]+?)(?:::\{([^}]*)\})?;")
OWNER = re.compile(r"impl(?:<[^>]*>)? (?:.* for )?(\w+)")
CALL = re.compile(r"\s*pub fn (\w+)")
CLAUSE = re.compile(r"\s*(?:ensures|requires)\s+(\w+)\s*\{")
CONVERSION = re.compile(r"^impl From<\w+> for (\w+)", re.M)


def text_of(path):
    with open(path, encoding="utf-8") as file:
        return file.read()


def handed_on(library):
    """The names that a lib.rt hands on."""
    names = set()
    for path, list_of_names in HANDED_ON.findall(library):
        names |= set(re.findall(r"\w+", list_of_names)) if list_of_names else {path.split("::")[-1]}
    return names


def public_calls(source, names):
    """Each public call of a file as its name and the names of its clauses."""
    lines, owner = source.split("\n"), None
    for at, line in enumerate(lines):
        if found := OWNER.match(line):
            owner = found.group(1)
        elif line == "}":
            owner = None
        call = CALL.match(line)
        if call and (owner or call.group(1)) in names:
            yield call.group(1), list(clauses(lines[at + 1 :]))


def clauses(lines):
    """The names of the clauses at the head of these lines, which end where the body begins."""
    for line in lines:
        if re.match(r"\s*[{}]\s*$", line) or re.match(r"\s*(?:pub )?fn ", line):
            return
        if found := CLAUSE.match(line):
            yield found.group(1)


def missing(crate, section):
    """What isn't named in the section of a crate."""
    folder = f"crates/{crate}/src"
    library = text_of(f"{folder}/lib.rt")
    names = handed_on(library)
    files = [f"{at}/{name}" for at, _, found in os.walk(folder) for name in found if name.endswith(".rt")]
    for path in sorted(files):
        for target in CONVERSION.findall(text_of(path)):
            if target in names and not re.search(rf"`From(<\w+>)?`s? of `{target}`", section):
                yield f"{path} From of {target}"
        for call, named in public_calls(text_of(path), names):
            if not re.search(rf"`(\w+::)*{call}`", section):
                yield f"{path} {call}"
            for clause in named:
                if not re.search(rf"\b{clause}\b", section):
                    yield f"{path} {call} {clause}"


def main():
    sections = dict(HEADING.findall(text_of("docs/CLAIMS.md")))
    crates = [name for name in sorted(os.listdir("crates")) if os.path.exists(f"crates/{name}/src/lib.rt")]
    crates = [name for name in crates if not name.endswith("_tests") and name != "case_files"]
    found = [it for crate in crates for it in missing(crate, sections.get(crate, ""))]
    print("\n".join([*found, f"{len(crates)} crates, {len(found)} names that aren't there"]))
    return 1 if found else 0


if __name__ == "__main__":
    sys.exit(main())
