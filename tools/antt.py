"""Reads .antt files for other scripts here, which import it: what a file defines and imports, and what a word of it is.

A definition is an abbreviation, a function, a record, a data family or a lemma. Words are resolved as files import them
(`use M.{a, b as c}`, `use M as m`): a constructor is its family, a type of the code (`specs.declared`) a text, what is std's nothing.
"""

import collections
import functools
import glob
import re

Definition = collections.namedtuple("Definition", "path line name kind sections parts")


USE = re.compile(r"^\s*(?:ghost )?use ([^\s{;]+?)(?:\.\{([^}]*)\}| as ([^\s;]+));?\s*$", re.M)
HEAD = re.compile(r"^((?:(?:abbrev|unfoldable|opaque|pub|record|data) )*)([^\s(){}:]+)(?=[\s:]|$)")
TOKEN = re.compile(r"[(){};,]|[^\s(){};,]+")
MEMBER = re.compile(r"^\s*(?:pub )?([^\s(){}:]+)(?= [:({])")
COMMENT = re.compile(r"(^|\s)--(\s.*)?$")


class Parts(list):
    """Lines of a definition, which is told from others without them."""

    __hash__ = object.__hash__


@functools.cache
def text_of(path):
    with open(path, encoding="utf-8") as file:
        return file.read()


def files(pattern):
    """The paths of a pattern, in order."""
    return sorted(glob.glob(pattern, recursive=True))


@functools.cache
def imports(path):
    """What each imported name is, as its module and its name there; a module's own alias has no name."""
    found = {}
    for module, names, alias in USE.findall(text_of(path)):
        if alias:
            found[alias] = (module, None)
        for name in filter(None, (name.strip() for name in names.split(","))):
            there, _, here = name.partition(" as ")
            found |= {word: (module, there) for word in spelt(here or there)}
    return found


def spelt(name):
    """How a name is written where it is used: an operator without the places of its operands."""
    return [word for word in name.split("◌") if word]


def states(line):
    """Whether a line has a name's type, and no equation: outside of brackets a colon comes before any `=`."""
    depth = 0
    for token in TOKEN.findall(line):
        depth += (token in "({") - (token in ")}")
        if depth == 0 and token in (":", "="):
            return token == ":"
    return False


@functools.cache
def definitions(path):
    """The definitions and lemmas of a file, each with the lines of the sections round it and its own parts: the head, then each
    equation, field or constructor."""
    found, sections, header = [], [], ""
    for at, full in enumerate(text_of(path).split("\n"), 1):
        line = COMMENT.sub("", full).rstrip()
        indent = len(line) - len(line.lstrip())
        if not line.strip() or re.match(r"use |pub mod ", line):
            continue
        if sections and sections[-1][0] is None and not header:
            sections[-1][0] = indent
        while sections and not header and indent < sections[-1][0]:
            sections.pop()
        if header or re.match(r"\s*(module _ |(\w+ )?mutual$)", line):
            header += line
            if header.endswith(("where", "mutual")):
                sections.append([None, header])
                header = ""
            continue
        inner, last = sections[-1][0] if sections else 0, found[-1] if found else None
        head = HEAD.match(line[inner:]) if indent == inner else None
        if head and (not last or head[1] or head[2] != last.name) and (head[1] or states(line)):
            kind = " ".join(word for word in head[1].split() if word != "pub") or "lemma"
            found.append(Definition(path, at, head[2], kind, " ".join(it[1] for it in sections), Parts([line])))
        elif last and (indent == inner or indent == inner + 2 and last.kind in ("record", "data") and MEMBER.match(line)):
            last.parts.append(line)
        elif last:
            last.parts[-1] += "\n" + line
    return found


@functools.cache
def by_name(path):
    """The definitions of a file by their names, and data also by those of its constructors."""
    found = {}
    for it in definitions(path):
        if it.kind == "data":
            found |= {MEMBER.match(part)[1]: it for part in it.parts[1:] if MEMBER.match(part)}
    return found | {word: it for it in definitions(path) for word in (it.name, *spelt(it.name))}


@functools.cache
def path_of(module):
    """The file of a module Rattle.CRATE.specs.A.B, or of what stands in it; None where there is none in crates/."""
    words = module.replace("+", ".").split(".")[1:]
    for end in range(len(words), 2, -1):
        if paths := files(f"crates/{'/'.join(words[:end])}.antt"):
            return paths[0]
    return None


def there(module, name):
    """What a name of a module is: a definition, a type of the code as text, or None for what is of std, or of a goal."""
    if path := path_of(module):
        return by_name(path).get(name) or by_name(path).get(module.split(".")[-1])
    if found := re.match(r"Rattle\.(\w+)\.specs\.declared\.((?:[a-z]\w*\.)*[A-Z]\w*)", f"{module}.{name}"):
        return f"{found[1]} {found[2]}" if files(f"crates/{found[1]}") else None
    return None


def resolve(path, token):
    """What a word, maybe with points in it, names in a file."""
    words = token.split(".")
    if words[0] in imports(path):
        module, name = imports(path)[words[0]]
        if name is None and len(words) == 1:
            return None
        return there(module, name or words[1])
    return by_name(path).get(words[0]) if path.endswith(".antt") else None
