#!/usr/bin/env python3
"""Lists lemmas and definitions that stand twice, up to the names of variables: here, or here and in std.

    tools/twice.py [std|lemmas|definitions] [LEAST]        at the top of the repository; all three where none is named

Printed are, apart from each other: lemmas of ours that std has, or a crate of the toolchain on which ours stand, with the name there;
other lemmas that stand in several places here; definitions that do, with that of std where there is one. Statements are the same up
to the names of variables, the order in which these are bound, whether they are implicit, and levels of types; parameters of
sections count where a statement names them. Definitions are the same where their types and equations, fields or constructors are.
Other names are compared by what they are imported as. A statement or definition counts with LEAST letters or more (24 where no
number is given). Facts that differ in the order of premises or in the sides of an equation aren't found. Answers of goals, and
formers/, have names and texts that others give, and are left out. What std has is what `rt lemma` looks through. No gate runs this.
"""

import collections
import os
import re
import subprocess
import sys

from antt import TOKEN, Definition, definitions, files, imports, resolve

CONSTANT = re.compile(r"[^a-z_A-Z]|[A-Z].|.*\.|(?:zero|suc|true|false|inl|inr|refl|tt|pos|negsuc|record)$")
PARAMETERS = re.compile(r"module _ (.*?) ?where")
SAYS = {"≡", "≤", "<", "≢", "⊎", "×", "⊥", "↔"}
TYPES = {"List", "Option", "Bool", "Type", "Result", "FinMap", "ℕ", "Named", "Row", "Label"}


def closes(tokens, at):
    """Where what begins there ends: at its closing bracket, or there."""
    depth = 0
    for place in range(at, len(tokens)):
        depth += (tokens[place] in "({") - (tokens[place] in ")}")
        if depth <= 0:
            return place
    return len(tokens) - 1


def group(tokens, at):
    """The names that a bracket binds, and the words of their type."""
    inside = tokens[at + 1 : closes(tokens, at)] if tokens[at] in ("(", "{") else []
    names = inside[: inside.index(":")] if ":" in inside else []
    return ([], []) if set(names) & set("(){},;=") else (names, inside[len(names) + 1 :])


def telescope(tokens):
    """What a statement binds, as pairs of a name and the words of its type, without a name for a premise; and its conclusion."""
    bound, at = [], 0
    while at < len(tokens):
        names, kind = group(tokens, at)
        end = at
        while end < len(tokens) and tokens[end] not in ("→", ":"):
            end = closes(tokens, end) + 1
        if names:
            bound += [(name, kind) for name in names]
            at = closes(tokens, at) + 1
        elif end < len(tokens):
            bound += [(None, tokens[at:end])] if end > at and "ℓ" not in tokens[at:end] else []
            at = end + 1
        else:
            return bound, tokens[at:]
    return bound, []


def spelling(path, name, token):
    """A word as it is known everywhere: the definition's own name, one of ours with its file, one of std as std names it."""
    found, first, *others = resolve(path, token) if path else None, *token.split(".")
    if token == name or isinstance(found, Definition):
        return "itself" if token == name else f"{found.path}:{token.split('.')[-1]}"
    there = imports(path).get(first) if path else None
    return ".".join([*filter(None, [there[1] and there[1].strip("◌")]), *others]) if there else token


def inner(tokens):
    """The variables that brackets, λ and let bind among these words."""
    found = {name for at in range(len(tokens)) for name in group(tokens, at)[0]}
    for at, token in enumerate(tokens):
        if token in ("λ", "let"):
            end = at + 1 if token == "let" else next((it for it in range(at, len(tokens)) if tokens[it].endswith(".")), at)
            found |= {it.rstrip(".") for it in tokens[at + 1 : end + 1] if not set(tokens[at + 1 : end + 1]) & set("(){}")}
    return found


def numbered(tokens, variables, numbers, path, name):
    """The words, with numbers for variables in the order of these, without levels."""
    for before, token, behind in zip(["", *tokens], tokens, [*tokens[1:], ""]):
        first, *others = token.split(".")
        if first in variables and not (behind == "=" and before in ("{", ";")):
            yield ".".join([f"v{numbers.setdefault(first, len(numbers))}", *others])
        elif before != "Type":
            yield spelling(path, name, token)


def form_of(path, name, around, text, lines=()):
    """A statement, or a definition's type and lines, in a form that is the same for all that say the same."""
    bound, conclusion = telescope(TOKEN.findall(text))
    conclusion += TOKEN.findall(" ".join(f"; {line}" for line in lines))
    has = lambda it: any(it == word.split(".")[0] for words in [conclusion, *(kind for _, kind in bound)] for word in words)
    for it, words in reversed(telescope(TOKEN.findall(around))[0]):
        if has(it):
            bound.insert(0, (it, words))
    types = {it: words for it, words in bound if has(it)}
    core = [word for it, words in bound if it not in types for word in [*words, "→"]] + conclusion
    sides = [it for line in lines if " = " in line for it in TOKEN.findall(line.split(" = ")[0])]
    variables = set(types) | inner(core) | {it for it in sides if not CONSTANT.match(it) and it not in "(){},;" and it != name}
    numbers = {}
    found = list(numbered(core, variables, numbers, path, name))
    for it in [it for it in numbers if it in types]:
        found += [";", *numbered(types[it], variables | inner(types[it]), numbers, path, name)]
    return " ".join(found)


def says(text):
    """Whether the type of a lemma states something, where that of a function only names types."""
    _, conclusion = telescope(TOKEN.findall(text))
    return bool(SAYS & set(conclusion)) or bool(conclusion) and conclusion[0][0].isupper() and conclusion[0] not in TYPES


def of_std():
    """The statements and the definitions of std and of the crates of the toolchain on which ours stand, with their names."""
    sys.path.insert(0, os.path.dirname(subprocess.run(["rt", "doc"], capture_output=True, text=True, check=True).stdout.strip()) + "/bin")
    import rtlib  # pylint: disable=import-outside-toplevel, import-error

    lemmas, defs = {}, {}
    for module, name, text, _, whole in rtlib.known_lemmas({it: f"{rtlib.KIT}/rattle/{it}" for it in ("serde_json", "httparse", "clap")}):
        kind = re.search(rf"^\s*(abbrev|unfoldable|pub record|pub data)(?: pub)? {re.escape(name)}[ :]", whole, re.M)
        if not kind:
            lemmas.setdefault(form_of(None, name, "", text), f"{module} {name}")
        elif lines := rtlib.defined_as(name, whole):
            defs.setdefault(form_of(None, name, "", text, lines), f"{module} {name}")
    return lemmas, defs


def main():
    least = next((int(it) for it in sys.argv[1:] if it.isdigit()), 24)
    wanted = [it for it in sys.argv[1:] if not it.isdigit()] or ["std", "lemmas", "definitions"]
    (in_std, defs_in_std), lemmas, defs = of_std(), collections.defaultdict(list), collections.defaultdict(list)
    for it in (it for path in files("crates/*/*s/**/*.antt") for it in definitions(path)):
        text, around = " ".join(it.parts[0].split()).split(it.name, 1)[1], " ".join(PARAMETERS.findall(it.sections))
        if it.path.endswith(("/Answers.antt", "/Invariants.antt")) or "/formers/" in it.path:
            continue
        if it.kind == "lemma" and len(text) >= least and says(text):
            lemmas[form_of(it.path, it.name, around, text)].append(f"{it.path}:{it.line} {it.name}")
        elif it.kind != "lemma" and sum(map(len, it.parts[1:])) >= least:
            defs[form_of(it.path, it.name, around, text, it.parts[1:])].append(f"{it.path}:{it.line} {it.name}")
    found = {
        "std": {f"{form}\n    std: {in_std[form]}": places for form, places in lemmas.items() if form in in_std},
        "lemmas": {form: places for form, places in lemmas.items() if len(places) > 1 and form not in in_std},
        "definitions": {form: [*places, *(f"std: {it}" for it in [defs_in_std.get(form)] if it)] for form, places in defs.items()},
    }
    found["definitions"] = {form: places for form, places in found["definitions"].items() if len(places) > 1}
    for part in wanted:
        for form, places in sorted(found[part].items(), key=lambda it: (-len(it[1]), it[0])):
            print("\n    ".join([form, *places]))
        print(f"{part}: {len(found[part])} that stand twice, in {sum(map(len, found[part].values()))} places")


if __name__ == "__main__":
    main()
