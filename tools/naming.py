"""Says what a definition of an .antt file names, for other scripts here, which import it.

What a text binds itself names nothing: parameters, what λ or let binds, the variables of an equation's left side. What is bound in
brackets is bound up to their end, and what a binder in brackets binds (`(x : A) → ..`) up to the end of those round it.
"""

import functools
import re

from antt import MEMBER, TOKEN, resolve


def until(tokens, end):
    """The names before a colon, or before the point behind the last variable of a λ; none where there is something else."""
    group = []
    for token in tokens:
        if end == ":" and token == end:
            return group
        if end == "." and token.endswith("."):
            return [*group, token[:-1]]
        if token in ("(", ")", "}", ",", ";", "→", "="):
            return []
        group.append(token)
    return []


def names(path, text, bound=()):
    """What a text of a file takes from outside of itself, as words with what they name, and what it binds outside of brackets."""
    tokens = TOKEN.findall(re.sub(r'"[^"]*"', '""', text))
    levels, binds, found, after = [set(bound)], [], [], 0
    for at, token in enumerate(tokens):
        if at < after:
            continue
        if token in ("(", "{"):
            binds.append(until(tokens[at + 1 :], ":"))
            levels.append(set())
            after = at + 1 + len(binds[-1])
        elif token in (")", "}") and binds:
            levels.pop()
            levels[-1] |= set(binds.pop())
        elif token == ";":
            levels[-1] = set()
        elif token == "λ":
            group = until(tokens[at + 1 :], ".")
            levels[-1] |= set(group)
            after = at + 1 + len(group)
        elif token == "let":
            levels[-1].add(tokens[at + 1])
        elif tokens[at + 1 : at + 2] == ["="] and tokens[at - 1] in ("{", ";") or token[0] in ".,)}":
            continue
        elif not any(token.split(".")[0] in level for level in levels):
            found.append((token, resolve(path, token)))
    return found, levels[0]


def equation(path, text, bound):
    """What an equation names: constructors on its left side, anything on its right one, where the left one's variables are bound."""
    tokens, depth, constructors, variables = TOKEN.findall(text), 0, [], set(bound)
    for at, token in enumerate(tokens):
        depth += (token in "({") - (token in ")}")
        if token == "=" and depth == 0:
            return constructors + names(path, " ".join(tokens[at + 1 :]), variables)[0]
        found = resolve(path, token)
        if isinstance(found, str) or found and (tokens[at - 1] == "(" or "." in token or token[0].isupper()):
            constructors.append((token, found))
        elif at:
            variables.add(token)
    return names(path, text, bound)[0]


@functools.cache
def named_by(it):
    """The words of a definition that name something, each with what it names."""
    found, bound = names(it.path, it.sections)
    head, inside = names(it.path, it.parts[0].split(it.name, 1)[1], bound)
    found = found + head
    if it.kind in ("record", "data"):
        fields = [MEMBER.match(part)[1] for part in it.parts[1:]] if it.kind == "record" else []
        for part in it.parts[1:]:
            found += names(it.path, part[MEMBER.match(part).end() :], inside | set(fields))[0]
    else:
        for part in it.parts[1:]:
            found += equation(it.path, part, bound)
    return [(word, thing) for word, thing in found if thing is not None and thing != it]
