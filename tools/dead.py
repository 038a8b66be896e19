#!/usr/bin/env python3
"""Lists what nothing needs: definitions and lemmas, exports of crates, lines of crates.txt.

    tools/dead.py [definitions|exports|lines] [CRATE..]        at the top of the repository; all three where none is named

Definitions and lemmas of crates/*/specs and proofs are needed where code names them (a `ghost use`, or `using(..)` of a tactic),
where one that a goal asks for does (Answers.antt, Invariants.antt: those have the goals' names), where docs/CLAIMS.md or
docs/ARCHITECTURE.md has the name in backticks, where they stand in formers/ or in samples (Samples/, *Samples.antt), and where what
is needed names them. Any word that is spelt so counts as naming, also one that a text binds itself: what is listed is dead, but more
may be. An import alone names nothing, and goes with what it imports. "edit" is said where an edit of must-fail/ or planted/ of that
crate has the word, "in a circle" where something else that is dead names it.

Exports are what a lib.rt hands on (`pub use`) and no other crate's code names, or only crates of tests do. A type that calls of its
crate give or take is named by nobody who only hands it through; so types are listed apart.

Lines are crates that a crate names in crates.txt and that none of its sources (src, specs, proofs) names.
"""

import re
import sys

from antt import TOKEN, Definition, definitions, files, imports, resolve, text_of, there

PATH = re.compile(r"\b(crate|lk_\w+)::((?:proofs|specs)::[\w:']+)")
TESTS = ("cases", "case_files", "tree_cases", "type_cases", "unit_tests")


def lines_of_crates():
    """The crates of crates.txt in order, each with those that its line names."""
    found = re.findall(r"^(\w+):(.*)$", text_of("crates.txt"), re.M)
    return {crate: below.split() for crate, below in found}


def words(text):
    """The words of a text that may name something, without those of its imports and its comments."""
    text = re.sub(r"^\s*(?:ghost )?use .*$|(?:^|\s)--\s.*$|//.*$", "", text, flags=re.M)
    return set(TOKEN.findall(re.sub(r'"[^"]*"', '""', text))) | set(re.findall(r"[^\s(){};,.]+", text))


def named(path, text):
    """All that a text of a file may name."""
    found = [resolve(path, word) for word in words(text)]
    found += [there(imports(path)[word][0], word) for word in words(text) if word in imports(path) and imports(path)[word][1] == word]
    return {it for it in found if isinstance(it, Definition)}


def named_by_code(path):
    """What a file of code names."""
    found = named(path, text_of(path))
    for crate, inside in PATH.findall(text_of(path)):
        crate = path.split("/")[1] if crate == "crate" else crate
        module, _, name = f"Rattle.{crate}.{inside.replace('::', '.')}".rpartition(".")
        found.add(there(module, name))
    return {it for it in found if isinstance(it, Definition)}


def is_root(it):
    """Whether a definition stands where goals, the toolchain or readers ask for it."""
    if it.path.endswith(("/Answers.antt", "/Invariants.antt")):
        return it.parts[0].lstrip().startswith("pub ") or re.match("(invariant|decreases)-", it.name)
    return "/formers/" in it.path or bool(re.search(r"Samples(/|\.antt$)", it.path))


def alive():
    """All definitions and lemmas, those of them that are needed, and what each names."""
    every = [it for path in files("crates/*/*s/**/*.antt") for it in definitions(path)]
    names = {it: named(it.path, f"{it.sections} {' '.join(it.parts)}") - {it} for it in every}
    told = set(re.findall(r"`([^`\s]+)`", text_of("docs/CLAIMS.md") + text_of("docs/ARCHITECTURE.md")))
    waiting = [it for it in every if is_root(it) or it.name in told]
    for path in files("crates/*/src/**/*.rt"):
        waiting += named_by_code(path)
    found = set(waiting)
    while waiting:
        more = names[waiting.pop()] - found
        found |= more
        waiting += more
    return every, found, names


def dead_definitions(order):
    """A line for each definition or lemma that isn't needed."""
    every, found, names = alive()
    dead = [it for it in every if it not in found]
    circle = {other for it in dead for other in names[it]}
    for it in sorted(dead, key=lambda it: (order.index(it.path.split("/")[1]), it.path, it.line)):
        crate = it.path.split("/")[1]
        edits = files(f"crates/{crate}/must-fail/*.edit") + files(f"planted/{crate}/*.edit")
        edits = any(it.name in words(text_of(path)) for path in edits)
        yield crate, f"{it.path}:{it.line} {it.name}{', edit' if edits else ''}{', in a circle' if it in circle else ''}"


def exports(crate):
    """The names that a crate hands on."""
    for path, group in re.findall(r"^pub use ([\w:]+?)(?:::\{([^}]*)\})?;", text_of(f"crates/{crate}/src/lib.rt"), re.M):
        for name in re.findall(r"[\w ]+", group) if group else [path.split("::")[-1]]:
            yield name.split(" as ")[-1].strip()


def dead_exports(order):
    """A line for each export that no other crate's code names, or only crates of tests."""
    users = {crate: "\n".join(text_of(path) for path in files(f"crates/{crate}/src/**/*.rt")) for crate in order}
    taken = {}
    for user, text in users.items():
        for crate, name in re.findall(r"\b(\w+)::(\w+)", text):
            taken.setdefault((crate, name), set()).add(user)
        for crate, group in re.findall(r"\b(\w+)::\{([^;]*?)\}(?=;)", text):
            for name in re.findall(r"\w+", group):
                taken.setdefault((crate, name), set()).add(user)
    for crate in order:
        for name in exports(crate) if files(f"crates/{crate}/src/lib.rt") and crate not in TESTS else ():
            by = taken.get((crate, name), set()) - {crate}
            if not by - set(TESTS):
                kind = "type" if name[0].isupper() and not name.isupper() else "call"
                yield crate, f"{crate} {name}, a {kind}, by {'tests alone' if by else 'nobody'}"


def dead_lines(below):
    """A line for each name in a line of crates.txt that the crate's sources don't have."""
    for crate, others in below.items():
        folders = ("src/**/*.rt", "specs/**/*.antt", "proofs/**/*.antt")
        text = "\n".join(text_of(path) for folder in folders for path in files(f"crates/{crate}/{folder}"))
        yield from ((crate, f"{crate}: {other}") for other in others if not re.search(rf"\b(Rattle\.{other}\.|{other}::)", text))


def main():
    below = lines_of_crates()
    order = list(below)
    kinds = {"definitions": lambda: dead_definitions(order), "exports": lambda: dead_exports(order), "lines": lambda: dead_lines(below)}
    wanted = [it for it in sys.argv[1:] if it in kinds] or kinds
    crates = [it for it in sys.argv[1:] if it not in kinds] or order
    for kind in wanted:
        found = [line for crate, line in kinds[kind]() if crate in crates]
        print("\n".join([*found, f"{len(found)} {kind} that nothing needs"]))


if __name__ == "__main__":
    main()
