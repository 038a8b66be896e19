#!/usr/bin/env python3
"""Runs the built program on texts that nobody wrote: mutations of the example programs and of tables files, and random bytes.

    tools/mutate.py LINKS [--runs N] [--seed N] [--keep FOLDER]

Each text is given to `check`, `sql` and `source`, the last with a tables file that is mutated too. What is looked for is a
crash, a run of over 20 seconds, more than 2 GiB of memory, a status that docs/LANGUAGE.md's table doesn't have, and output at a status
that prints none or the other way round. Such a text is kept in FOLDER. No gate runs this.
"""

import argparse
import collections
import os
import random
import re
import resource
import subprocess
import sys
import tempfile

TOP = os.path.dirname(os.path.dirname(os.path.abspath(__file__)))
SECONDS = 20
BYTES = 2 << 30

# The statuses, and whether something is printed there.
STATUSES = {0: None, 1: True, 2: True, 3: True, 5: None, 6: True, 8: True, 11: True, 12: True}

# Those with a message on standard error, and the one at which there may be none.
REFUSED = (1, 2, 3, 6, 11)
NO_MEMORY = 5

WORDS = (
    "table with sig fun mutual client server var if else for where switch case query orderby desc insert values update set delete "
    "true false mod print not hd tl empty intToString Int Bool String main t x a n ( ) [ ] { } [| |] , ; : . = == <> < <= > >= + - * / "
    "++ ^^ :: && || -> <- <-- | 0 1 7 9223372036854775807 9223372036854775808 \"\" \"a\\n\" \"'\" // T T(1) {|t1}- {move}->"
).split(" ")

SEEDS = (
    "fun main(a) client { \"hi \" ^^ a }",
    "fun greet(n) server { \"hi \" ^^ n } fun main(a) client { greet(a) }",
    "fun use(f, a) server { f(a) } fun main(a) client { var s = fun (x) server { x ^^ \"s\" }; use(s, a) }",
    "fun nm(r) { r.name } fun main(a) client { nm((name = a, age = 3)) ^^ nm((id = 1, name = \"z\")) }",
    "table t with (n : Int, s : String); fun main(a) client { insert t values [(n = 1, s = a)]; update (x <-- t) where (x.n == 1) "
    "set (n = x.n * 2, s = x.s ^^ a); delete (x <-- t) where (x.n > 5); query orderby (n desc, s) { for (x <-- t) where (x.s <> a) [x] } }",
    "sig f : (Int) {|t1}-> [|A : Int, B : ()|]; fun f(n) { if (n > 0) A(n) else B } fun main(a) client { switch (f(3)) { case A(k) -> k case B -> 0 } }",
    "mutual { fun even(n) { if (n == 0) true else odd(n - 1) } fun odd(n) { if (n == 0) false else even(n - 1) } } fun main(a) client { even(10) }",
    "table t with (n : Int); fun low(k) { for (x <-- t) where (x.n < k) [x] } fun main(a) client { var r = (z = 1 | (y = 2)); "
    "query { (for (x <- low(r.y)) if (empty(low(x.n))) [x] else [(n = -x.n)]) ++ [(n = r.z)] } }",
)
TABLES = ('{"t":[{"n":1,"s":"b"},{"n":-7,"s":"\\u00e9"}]}', '{"t":[{"n":3}],"u":[]}', "{}", '{"customers":[{"name":"Ann","town":"Ely","since":2001}],"orders":[]}')


def limited():
    resource.setrlimit(resource.RLIMIT_AS, (BYTES, BYTES))
    resource.setrlimit(resource.RLIMIT_CORE, (0, 0))


def seeds():
    found = [text.encode() for text in SEEDS]
    for name in sorted(os.listdir(f"{TOP}/examples")):
        if name.endswith(".links"):
            with open(f"{TOP}/examples/{name}", "rb") as file:
                found.append(file.read())
    return found


def cut(rng, text):
    """A first and a last place of a piece."""
    first, last = sorted((rng.randrange(len(text) + 1), rng.randrange(len(text) + 1)))
    return first, min(last, first + 40)


TOKEN = re.compile(rb"[A-Za-z_][A-Za-z0-9_]*|[0-9]+|\"(?:[^\"\\\\]|\\\\.)*\"|[-+*/=<>|&^:]+|[^\s]")
KINDS = (
    (b"Int", b"Bool", b"String"),
    (b"+", b"-", b"*", b"^^", b"++", b"==", b"<>", b"<", b"<=", b">", b">=", b"&&", b"||", b"::"),
    (b"true", b"false"),
    (b"client", b"server"),
    (b"hd", b"tl", b"not", b"empty", b"intToString", b"print"),
)


def alike(token, others):
    """Tokens that may stand where this one does."""
    for kind in KINDS:
        if token in kind:
            return list(kind)
    if token[:1].isdigit():
        return [b"0", b"1", b"2", b"9223372036854775807"]
    if token[:1].islower() and token.decode() not in WORDS:
        return [other for other in others if other[:1].islower() and other.decode() not in WORDS] + [b"x", b"a", b"t"]
    if token[:1] == b'"':
        return [b'""', b'"a"', b'"it\'s"']
    return [token]


def replaced(rng, text):
    """The text with one token in place of one like it."""
    found = list(TOKEN.finditer(text))
    if not found:
        return text
    one = rng.choice(found)
    other = rng.choice(alike(one.group(), [it.group() for it in found]))
    return text[: one.start()] + other + text[one.end() :]


def mutated(rng, text, others):
    """The text with one change."""
    if rng.random() < 0.6:
        return replaced(rng, text)
    first, last = cut(rng, text)
    kind = rng.randrange(9)
    if kind == 0:
        return text[:first] + text[last:]
    if kind == 1:
        return text[:last] + text[first:last] * rng.choice((1, 1, 2, 50)) + text[last:]
    if kind == 2:
        return text[:first]
    if kind == 3:
        return text[:first] + bytes(rng.randrange(256) for _ in range(rng.randrange(1, 4))) + text[first:]
    if kind == 4 and text:
        at = rng.randrange(len(text))
        return text[:at] + bytes((text[at] ^ (1 << rng.randrange(8)),)) + text[at + 1 :]
    if kind == 5:
        other = rng.choice(others)
        start, end = cut(rng, other)
        return text[:first] + other[start:end] + text[last:]
    words = [rng.choice(WORDS) for _ in range(rng.randrange(1, 4))]
    space = rng.choice(("", " "))
    return text[:first] + (space + space.join(words) + space).encode() + text[(first if kind == 6 else last) :]


def random_text(rng):
    if rng.random() < 0.3:
        return bytes(rng.randrange(256) for _ in range(rng.randrange(400)))
    words = " ".join(rng.choice(WORDS) for _ in range(rng.randrange(200)))
    return ("fun main(a) client { " * (rng.random() < 0.5) + words).encode()


def ran(words):
    """The status and what is printed, or the fault."""
    try:
        run = subprocess.run(words, stdin=subprocess.DEVNULL, stdout=subprocess.PIPE, stderr=subprocess.PIPE, timeout=SECONDS, preexec_fn=limited, check=False)
    except subprocess.TimeoutExpired:
        return None, "over 20 seconds"
    if run.returncode not in STATUSES:
        return run.returncode, f"ended with {run.returncode}: {run.stderr[:200]!r}"
    if run.returncode != NO_MEMORY and bool(run.stderr) != (run.returncode in REFUSED):
        return run.returncode, f"status {run.returncode} with the message {run.stderr[:200]!r}"
    prints = STATUSES[run.returncode]
    if prints is not None and prints != bool(run.stdout):
        return run.returncode, f"status {run.returncode} with {run.stdout[:60]!r}"
    return run.returncode, None


def main():
    words = argparse.ArgumentParser()
    words.add_argument("links")
    words.add_argument("--runs", type=int, default=1000)
    words.add_argument("--seed", type=int, default=1)
    words.add_argument("--keep", default="/tmp/links-mutations")
    given = words.parse_args()
    rng, programs, faults, counts = random.Random(given.seed), seeds(), 0, collections.Counter()
    tables = [text.encode() for text in TABLES]
    with tempfile.TemporaryDirectory() as folder:
        for number in range(given.runs):
            text = random_text(rng) if rng.random() < 0.1 else rng.choice(programs)
            for _ in range(rng.choice((1, 1, 1, 2, 3, 8))):
                text = mutated(rng, text, programs)
            table = rng.choice(tables)
            if rng.random() < 0.4:
                table = mutated(rng, table, tables)
            for name, content in (("p.links", text), ("t.json", table)):
                with open(f"{folder}/{name}", "wb") as file:
                    file.write(content)
            for command in (("check",), ("sql",), ("source",)):
                line = [given.links, *command, f"{folder}/p.links"]
                if command == ("source",):
                    line += ["ann", "--fuel", "20000"] + (["--tables", f"{folder}/t.json"] if rng.random() < 0.8 else [])
                status, fault = ran(line)
                counts[command[0], status] += 1
                if fault:
                    faults += 1
                    os.makedirs(given.keep, exist_ok=True)
                    with open(f"{given.keep}/{number}.links", "wb") as file:
                        file.write(text)
                    with open(f"{given.keep}/{number}.json", "wb") as file:
                        file.write(table)
                    print(f"{number} {' '.join(line[1:])}: {fault}", flush=True)
    for (command, status), count in sorted(counts.items(), key=str):
        print(f"{command} {status}: {count}")
    print(f"{given.runs} texts, {faults} faults")
    return 1 if faults else 0


if __name__ == "__main__":
    sys.exit(main())
