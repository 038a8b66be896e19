#!/usr/bin/env python3
"""Says what the documents show that isn't so.

    tools/documents.py [PROGRAM]        at the top of the repository

It looks whether
- each relative link of a document, and each path to a document, an example or a script that it names, is there,
- each program and tables file that README.md and docs/TUTORIAL.md show is the file that the link above it names,
- each command that they show is a case of crates/cases/data/tutorial.cases, with the same output, and each such case is shown,
- each file of these cases is the file of that name, byte by byte,
- the built PROGRAM, such as crates/links/out/links, prints what they show, where it is given.
That the cases come out as they say is the gate's matter. No gate runs this.
"""

import os
import re
import subprocess
import sys

CASES = "crates/cases/data/tutorial.cases"
SHOWING = ["README.md", "docs/TUTORIAL.md"]
LINK = re.compile(r"\[[^]\n]*\]\(([^)\s]+)\)")
PATH = re.compile(r"(?<![\w/.-])((?:docs|examples|tools)/[\w/.-]*\w\.(?:md|py|links|json|cases))")
BLOCK = re.compile(r"^```(\w*)\n(.*?)^```$", re.S | re.M)


def text_of(path):
    with open(path, encoding="utf-8", newline="") as file:
        return file.read()


def documents():
    listed = subprocess.run(["git", "ls-files", "-co", "--exclude-standard", "*.md"], stdout=subprocess.PIPE, text=True, check=True)
    return [path for path in listed.stdout.split("\n") if os.path.exists(path)]


def anchors(text):
    """The anchors of a document's headings."""
    for heading in re.findall(r"^#+ (.*)$", re.sub(BLOCK, "", text), re.M):
        yield re.sub(r"[^\w -]", "", LINK.sub("", heading).lower()).strip().replace(" ", "-")


def dead(path):
    """The links and paths of a document that lead nowhere."""
    text = BLOCK.sub("", text_of(path))
    for target in LINK.findall(text):
        if re.match(r"[a-z]+:", target):
            continue
        file, _, anchor = target.partition("#")
        at = os.path.normpath(os.path.join(os.path.dirname(path), file)) if file else path
        if not os.path.exists(at):
            yield f"{path}: no {target}"
        elif anchor and anchor not in anchors(text_of(at)):
            yield f"{path}: no heading {target}"
    for target in PATH.findall(text):
        if not os.path.exists(target):
            yield f"{path}: no {target}"


def cases(text):
    """The files, and for each run the words with the lines printed, of cases."""
    files, runs, name = {}, {}, None
    for line in text.split("\n"):
        word, _, rest = line.partition(" ")
        if word == "file":
            name = rest
            files[name] = []
        elif word == "<":
            files[name].append(rest)
        elif word == "$":
            printed = runs.setdefault(rest, [])
        elif word == ">":
            printed.append(rest)
    return {name: "\n".join(lines) for name, lines in files.items()}, runs


def shown(path, runs, seen):
    """What a document shows otherwise than the files and the cases have it. The words of its commands are added to those seen."""
    text = text_of(path)
    for block in BLOCK.finditer(text):
        kind, inside = block.groups()
        line = text.count("\n", 0, block.start()) + 1
        if kind in ("links", "json"):
            above = [target for target in LINK.findall(text[: block.start()]) if target.endswith(f".{kind}")]
            file = os.path.normpath(os.path.join(os.path.dirname(path), above[-1])) if above else None
            if not file or not os.path.exists(file) or text_of(file) != inside:
                yield f"{path}:{line}: not {file}"
        for words, printed in re.findall(r"^\$ \./links (.*)\n((?:(?!\$ ).*\n)*)", inside, re.M):
            seen.add(words)
            # what the script says of a build stands on standard error
            if runs.get(words) != [it for it in printed.split("\n")[:-1] if it != "..." and not it.startswith("links: ")]:
                yield f"{path}:{line}: no case has this output of {words}"


def printed_otherwise(program, runs):
    """Which commands the program prints something else for than the cases say."""
    for words, lines in runs.items():
        ran = subprocess.run([program, *words.split(" ")], stdout=subprocess.PIPE, stderr=subprocess.DEVNULL, text=True)
        if ran.stdout.split("\n")[:-1] != lines:
            yield f"{program} {words} prints\n{ran.stdout}"


def main():
    files, runs = cases(text_of(CASES))
    seen = set()
    faults = [it for path in documents() for it in dead(path)]
    faults += [it for path in SHOWING for it in shown(path, runs, seen)]
    faults += [f"{CASES}: not {name}" for name, text in files.items() if not os.path.exists(name) or text_of(name) != text]
    faults += [f"{CASES}: not shown: {words}" for words in runs if words not in seen]
    faults += [it for program in sys.argv[1:] for it in printed_otherwise(program, runs)]
    print("\n".join([*faults, f"{len(documents())} documents, {len(seen)} commands, {len(faults)} faults"]))
    return 1 if faults else 0


if __name__ == "__main__":
    sys.exit(main())
