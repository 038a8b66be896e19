#!/usr/bin/env python3
"""Measures the built program: processor time and peak memory of `check`, `sql`, `labels` and `source`, as lines of a Markdown table.

    tools/measure.py LINKS growth [COMMAND ..]     three shapes of programs at 1, 4 and 16 times a size, with the growth
    tools/measure.py LINKS hard [COMMAND ..]       texts of nearly a mebibyte of each degenerate kind, and tables files of nearly 16 MiB

Each is run three times, and the least time and the most memory count. No gate runs this.
"""

import json
import os
import subprocess
import sys
import tempfile

MEBIBYTE = 1 << 20


def run_once(words):
    with open(os.devnull, "wb") as nothing:
        child = subprocess.Popen(words, stdin=nothing, stdout=subprocess.PIPE, stderr=nothing)
        # (what it prints is read, so that it doesn't wait, and only its front is kept)
        printed = child.stdout.read(4096)
        while child.stdout.read(1 << 16):
            pass
        _, status, used = os.wait4(child.pid, 0)
        child.returncode = os.waitstatus_to_exitcode(status)
    return used.ru_utime + used.ru_stime, used.ru_maxrss / 1024, child.returncode, printed


def measured(words, times=3):
    """The least processor time, the most memory in MB, the status, and the first line that is printed."""
    runs = [run_once(words) for _ in range(times if times == 1 or run_once(words)[0] < 5 else 1)]
    printed = runs[0][3].split(b"\n")[0].decode(errors="replace")
    return min(run[0] for run in runs), max(run[1] for run in runs), runs[0][2], printed if len(printed) < 50 else printed[:46] + " .."


# ---- growth


def functions(n):
    """Functions, each of which calls the one before and is called twice."""
    lines = ["fun f0(r) { r.n + 1 }"]
    lines += [f"fun f{k}(r) {{ var x = f{k - 1 - k % 7 if k > 7 else 0}((n = r.n, t = \"a\")); if (x > 3) x else f0(r) }}" for k in range(1, n)]
    return "\n".join([*lines, f"fun main(a) client {{ intToString(f{n - 1}((n = 1))) ^^ a }}"]), None


def statements(n):
    """One body of many statements."""
    lines = ["var x0 = (n = 0, t = a);"]
    lines += [f"var x{k} = (n = x{k - 1}.n + {k}, t = x{k - 1}.t);" for k in range(1, n)]
    return "fun main(a) client {\n" + "\n".join(lines) + f"\nx{n - 1}.t }}", None


def queries(n):
    """Queries over a table, with a helper and a captured record."""
    lines = ["table t with (n : Int, s : String);", "fun low(k) { for (x <-- t) where (x.n < k) [x] }", "fun main(a) client {", "var r = (k = 5, w = a);"]
    lines += [f"var q{k} = query orderby (n, s desc) {{ for (x <- low({k})) where (x.s == r.w || x.n > r.k) [(n = x.n + {k}, s = x.s)] }};" for k in range(n)]
    rows = [{"n": k % 17, "s": chr(97 + k % 26)} for k in range(50)]
    return "\n".join([*lines, "a }"]), {"t": rows}


SHAPES = (("functions", functions, 500), ("statements", statements, 1000), ("queries", queries, 100))


COMMANDS = ("check", "sql", "labels", "source")


def growth(links, folder, asked_for):
    print("| shape | command | 1x | 4x | 16x | growth of time |")
    print("|---|---|---|---|---|---|")
    for name, shape, size in SHAPES:
        for command in asked_for:
            cells = []
            for times in (1, 4, 16):
                apart(lambda made: written(folder, *made), shape(size * times))
                asked = [f"{folder}/p.links"] + (["ann"] if command == "source" else [])
                if command == "source" and shape is queries:
                    asked += ["--tables", f"{folder}/t.json"]
                cells.append(measured([links, command, *asked]))
            shown = " | ".join(f"{cell[0]:.2f} s, {cell[1]:.0f} MB" + (f", status {cell[2]}" if cell[2] else "") for cell in cells)
            ratios = ", ".join(f"{after[0] / before[0]:.1f}" for before, after in zip(cells, cells[1:]))
            print(f"| {size} {name} | {command} | {shown} | {ratios} |", flush=True)


# ---- hard input


def written(folder, text, rows):
    """The program, and the rows where there are some, in their files."""
    put(f"{folder}/p.links", lambda: text)
    if rows is not None:
        put(f"{folder}/t.json", lambda: json.dumps(rows, separators=(",", ":")))


def filled(front, piece, back, size=MEBIBYTE):
    """A text of at most so many bytes with a piece again and again."""
    count = (size - len((front + back).encode())) // len(piece.encode())
    return front + piece * count + back


def counted(front, piece_of, back, size=MEBIBYTE):
    """The same with pieces by their numbers."""
    pieces, left, number = [], size - len((front + back).encode()), 0
    while left >= len(piece_of(number)):
        left -= len(piece_of(number))
        pieces.append(piece_of(number))
        number += 1
    return front + "".join(pieces) + back


MAIN = "fun main(a) client { "


# Each by its name, as a function that makes the text.
TEXTS = (
    ("one name", lambda: filled("fun main(", "a", ") client { 1 }")),
    ("one text", lambda: filled(MAIN + '"', "a", '" }')),
    ("one number", lambda: filled(MAIN, "1", " }")),
    ("one comment", lambda: filled(MAIN + "a } #", "a", "")),
    ("comments only", lambda: filled("", "# a\n", "")),
    ("white space only", lambda: filled("", "\n ", "")),
    ("dots only", lambda: filled("", ".", "")),
    ("opening brackets only", lambda: filled("", "(", "")),
    ("one list", lambda: filled(MAIN + "var l = [1", ",1", "]; a }")),
    ("one chain", lambda: filled(MAIN + "a", "^^a", " }")),
    ("one chain of calls", lambda: filled(MAIN + "a", "(a)", " }")),
    ("one call of many arguments", lambda: filled("fun f(x) { x } " + MAIN + "f(a", ",a", ") }")),
    ("nests at the limit", lambda: filled(MAIN, "(" * 198 + "a" + ")" * 198 + ";", "a }")),
    ("lists at the limit", lambda: filled(MAIN, "var x = " + "[" * 198 + "1" + "]" * 198 + ";", "a }")),
    ("statements", lambda: filled(MAIN, "();", "a }")),
    ("the same name again and again", lambda: filled(MAIN, "var x = a;", "x }")),
    ("names", lambda: counted(MAIN, lambda k: f"var x{k} = a;", "a }")),
    ("functions", lambda: counted("", lambda k: f"fun f{k}(x) {{ x }} ", MAIN + "a }")),
    ("one mutual block", lambda: counted("mutual { ", lambda k: f"fun f{k}(x) {{ f{max(k - 1, 0)}(x) }} ", "} " + MAIN + "a }")),
    ("lambdas", lambda: filled(MAIN, "var f = fun (x) { x };", "f(a) }")),
    ("one record", lambda: counted(MAIN + "var r = (l = 1", lambda k: f",l{k} = 1", "); a }")),
    ("projections", lambda: filled(MAIN + "var r = (n = 1); ", "var x = r.n;", "a }")),
    ("tables", lambda: counted("", lambda k: f"table t{k} with (n : Int);", MAIN + "a }")),
    ("one table", lambda: counted("table t with (c : Int", lambda k: f",c{k} : Int", "); " + MAIN + "a }")),
    ("readings", lambda: filled("table t with (n : Int); " + MAIN, "var q = for (x <-- t) [x.n];", "a }")),
    ("queries", lambda: filled("table t with (n : Int); " + MAIN, "var q = query { for (x <-- t) [x] };", "a }")),
    ("changes", lambda: filled("table t with (n : Int); " + MAIN, "update (x <-- t) where (x.n == 1) set (n = 2);", "a }")),
    ("one query of many lists", lambda: filled("table t with (n : Int); " + MAIN + "query { []", " ++ []", " } }")),
    ("one query of many statements", lambda: filled("table t with (n : Int); " + MAIN + "query { ", "var x = 1;", "[(n = x)] } }")),
    ("cases", lambda: counted(MAIN + "switch (T(a)) { ", lambda k: f"case T{k}(x) -> x ", "case y -> a } }")),
    ("signatures", lambda: counted("", lambda k: f"sig g{k} : (Int) -> Int; fun g{k}(x) {{ x }} ", MAIN + "a }")),
    ("functions at two types", lambda: counted("fun f(r) { r.n } " + MAIN, lambda k: f"var x = f((n = {k})) + f((n = 1, m = {k}));", "a }")),
)


ASKS = "table t with (n : Int, s : String); " + MAIN + "var q = query orderby (s, n desc) { for (x <-- t) where (x.n > 3) [x] }; insert t values [(n = 0, s = a)]; a }"


LONG = "a" * 220

# Each by its name, as a function that makes the tables file.
TABLES = (
    ("65,535 rows of 250 bytes", lambda: '{"t":[' + ",".join(f'{{"n":{k},"s":"{LONG}{k % 97}"}}' for k in range(65535)) + "]}"),
    ("one text of 16 MiB", lambda: '{"t":[{"n":7,"s":"' + "a" * (16 * MEBIBYTE - 40) + '"}]}'),
    ("a text of escapes", lambda: '{"t":[{"n":7,"s":"' + "\\u0001" * ((16 * MEBIBYTE - 40) // 6) + '"}]}'),
    ("65,537 rows", lambda: '{"t":[' + ",".join('{"n":1,"s":""}' for _ in range(65537)) + "]}"),
    ("opening brackets", lambda: "[" * (16 * MEBIBYTE)),
    ("keys that aren't tables", lambda: "{" + ",".join(f'"u{k}":[]' for k in range(1_000_000)) + "}"),
    ("one key again and again", lambda: "{" + ",".join('"t":[]' for _ in range(2_000_000)) + "}"),
)


def apart(call, *given):
    """Does it in a process of its own: the memory of a child is counted from its parent's on, so this one stays small."""
    child = os.fork()
    if not child:
        call(*given)
        os._exit(0)
    if os.waitpid(child, 0)[1]:
        sys.exit("an input couldn't be made")


def put(path, make):
    with open(path, "w", encoding="utf-8") as file:
        file.write(make())


def hard(links, folder, asked_for):
    print(f"| input | bytes | {' | '.join(asked_for)} | memory | status | first line of `{asked_for[0]}`, else of `source` |")
    print("|---|---|" + "---|" * (len(asked_for) + 3))
    program, rows = f"{folder}/p.links", f"{folder}/t.json"
    cases = [(name, program, make, asked_for) for name, make in TEXTS] + [(name, rows, make, ("source",)) for name, make in TABLES if "source" in asked_for]
    for name, path, make, commands in cases:
        apart(put, path, make)
        if path == rows:
            put(program, lambda: ASKS)
        runs = {}
        for command in commands:
            words = [links, command, program] + (["ann"] if command == "source" else []) + (["--tables", rows] if path == rows else [])
            runs[command] = measured(words, 1)
        times = " | ".join(f"{runs[command][0]:.2f} s" if command in runs else "" for command in asked_for)
        memory = max(run[1] for run in runs.values())
        statuses = ", ".join(str(status) for status in sorted({run[2] for run in runs.values()}))
        line = runs[commands[0]][3].replace("|", "&#124;")
        print(f"| {name} | {os.path.getsize(path):,} | {times} | {memory:.0f} MB | {statuses} | `{line}` |", flush=True)


def main():
    asked_for = tuple(sys.argv[3:]) or COMMANDS
    if len(sys.argv) < 3 or sys.argv[2] not in ("growth", "hard") or not set(asked_for) <= set(COMMANDS):
        sys.exit(__doc__)
    with tempfile.TemporaryDirectory() as folder:
        {"growth": growth, "hard": hard}[sys.argv[2]](os.path.abspath(sys.argv[1]), folder, asked_for)


if __name__ == "__main__":
    main()
