#!/usr/bin/env python3
"""Makes a scratch repository in which crates have their types and definitions, and hardly any code.

    tools/stubs.py TARGET CRATE.. [--whole CRATE].. [--keep CRATE::FUNCTION=BODY].. [--lemmas CRATE.FILE]..

A CRATE is copied with its specs, types, constants and impls of traits; its functions, its inherent impls, its tests and its
proofs are left out. One given with --whole is copied as it is (lk_ast, whose types have proofs of their own). A function given
with --keep stays, with this body: `Err(NoMemory)` meets a contract that leaves want of memory free. A law, which has no body,
gets its clauses as requirements, so that it is proved and only its callers stay open: give it an empty BODY. A lemma file
given with --lemmas comes along with all lemma files that it imports.

Run it at the top of the repository. The TARGET gets a crates.txt and HANDLES; what is checked there is no gate.
"""

import argparse
import os
import re
import shutil

FUNCTION = re.compile(r"(?:pub(?:\(crate\))? )?fn (\w+)")
ITEM = re.compile(r"(?:pub(?:\(crate\))? )?(?:ghost use|use|mod|fn|impl|struct|enum|trait|const|static|type)\b")
IMPORT = re.compile(r"(pub )?use ((?:crate|[a-z]\w*)(?:::\w+)*)::(\{.*\}|\w+);$", re.S)
OTHERS = ("std", "serde", "thiserror", "clap")


def item_end(lines, start):
    """The number of the line behind an item that begins at this one."""
    line = lines[start]
    if FUNCTION.match(line):
        end = start
        while lines[end] not in ("}", "{}") and not (end == start and lines[end].endswith("{}")):
            end += 1
        return end + 1
    end = start
    while True:
        text = lines[end].rstrip()
        closes = text.endswith(";") and not text.startswith(" ")
        one_line = end == start and text.endswith("}") and "{" in text
        if closes or one_line or text.startswith("}"):
            return end + 1
        end += 1


def items(text):
    """The items of a file: the comments and attributes before each, and its lines."""
    lines = text.split("\n")
    before, at = [], 0
    while at < len(lines):
        line = lines[at]
        if line.startswith(("///", "#[", "// ")):
            before.append(line)
            at += 1
        elif ITEM.match(line):
            end = item_end(lines, at)
            yield before, lines[at:end]
            before, at = [], end
        else:
            yield before, [line]
            before, at = [], at + 1


def kept(lines, body):
    """A function with this body, or a law that requires what it ensures."""
    opens = lines.index("{") if "{" in lines else len(lines) - 1
    if body:
        return lines[: opens + 1] + ["    " + body, "}"]
    clauses = [line for line in lines if line.strip().startswith("ensures")]
    return [lines[0]] + [line.replace("ensures", "requires", 1) for line in clauses] + clauses + ["{}"]


def imported(line, names):
    """An import without the functions that are left out, if anything is left of it."""
    found = IMPORT.match(line)
    if not found or found.group(2).split("::")[0] in OTHERS:
        return line
    public, path, last = found.groups()
    words = [word.strip() for word in last.strip("{}").replace("\n", " ").split(",") if word.strip()]
    words = [word for word in words if not word[0].islower() or word in names]
    return f"{public or ''}use {path}::{{{', '.join(words)}}};" if words else None


def cut(text, crate, keep, names):
    """The text of a file without its functions."""
    out = []
    for before, lines in items(text):
        function = FUNCTION.match(lines[0])
        if function:
            body = keep.get((crate, function.group(1)))
            if body is None:
                continue
            lines = kept(lines, body)
            before = [line for line in before if not line.startswith("#[")]
        elif lines[0].startswith("impl") and " for " not in lines[0]:
            continue
        elif re.match(r"mod tests\b", lines[0]):
            continue
        elif re.match(r"(pub )?use ", lines[0]):
            line = imported("\n".join(lines), names)
            if line is None:
                continue
            lines = [line]
        out += before + lines
    return "\n".join(out)


def copy_cut(crate, target, keep, names):
    folder = os.path.join(target, "crates", crate)
    shutil.rmtree(folder, ignore_errors=True)
    left_out = shutil.ignore_patterns("out", "must-fail", "proofs", "tests", "tests.rt")
    shutil.copytree(os.path.join("crates", crate), folder, ignore=left_out)
    for root, _, files in os.walk(os.path.join(folder, "src")):
        for name in files:
            path = os.path.join(root, name)
            with open(path) as file:
                text = cut(file.read(), crate, keep, names)
            with open(path, "w") as file:
                file.write(text)


def copy_lemmas(first, target, whole):
    seen, left = {}, [tuple(name.split(".")) for name in first]
    while left:
        crate, name = left.pop()
        own = os.path.isdir(os.path.join("crates", crate))
        if not own or crate in whole or name in seen.setdefault(crate, set()):
            continue
        seen[crate].add(name)
        source = os.path.join("crates", crate, "proofs", name + ".antt")
        folder = os.path.join(target, "crates", crate, "proofs")
        os.makedirs(folder, exist_ok=True)
        shutil.copy(source, folder)
        with open(source) as file:
            left += re.findall(r"use Rattle\.(\w+)\.proofs\.([A-Z]\w*)", file.read())
    for crate, names in seen.items():
        with open(os.path.join(target, "crates", crate, "proofs", "Lib.antt"), "w") as file:
            file.writelines(f"pub mod {name}\n" for name in sorted(names))


def main():
    reader = argparse.ArgumentParser()
    reader.add_argument("target")
    reader.add_argument("crates", nargs="*")
    reader.add_argument("--whole", action="append", default=[])
    reader.add_argument("--keep", action="append", default=[])
    reader.add_argument("--lemmas", action="append", default=[])
    words = reader.parse_args()
    keep = {}
    for word in words.keep:
        function, body = word.split("=", 1)
        keep[tuple(function.split("::"))] = body
    names = {function for _, function in keep}
    os.makedirs(os.path.join(words.target, "crates"), exist_ok=True)
    for crate in words.crates:
        copy_cut(crate, words.target, keep, names)
    for crate in words.whole:
        folder = os.path.join(words.target, "crates", crate)
        shutil.rmtree(folder, ignore_errors=True)
        shutil.copytree(os.path.join("crates", crate), folder, ignore=shutil.ignore_patterns("out", "must-fail"))
    copy_lemmas(words.lemmas, words.target, words.whole)
    there = set(words.crates) | set(words.whole)
    with open("crates.txt") as file:
        lines = [line for line in file if line.startswith("#") or line.split(":")[0] in there]
    with open(os.path.join(words.target, "crates.txt"), "w") as file:
        file.writelines(lines)
    shutil.copy("HANDLES", words.target)


if __name__ == "__main__":
    main()
