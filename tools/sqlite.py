#!/usr/bin/env python3
"""Runs the SQL that `links sql` prints for an example over SQLite, and compares the rows with those that `links source` read.

    tools/sqlite.py LINKS PROGRAM TABLES ARG

LINKS is the built program. All queries of PROGRAM stand in `main`, each is evaluated once, and none comes behind a change of
tables: then the readings of the session, by the places where they begin, are the lines of `sql` in order. Rows are compared as
bags, and where there are keys, in the order of these. Where Python has no sqlite3, nothing is done. No gate runs this: what SQLite
makes of SQL is not proved.
"""

import json
import re
import subprocess
import sys

try:
    import sqlite3
except ImportError:
    print("skipped: there is no sqlite3 here")
    sys.exit(0)

KINDS = {"Int": "INTEGER", "Bool": "BOOLEAN", "String": "TEXT"}


def lines_of(*words):
    ran = subprocess.run(words, stdout=subprocess.PIPE, check=False, text=True)
    if ran.returncode:
        sys.exit(f"{' '.join(words)} ended with {ran.returncode}: {ran.stdout}")
    return ran.stdout.splitlines()


def declared(program):
    """The tables of a program with the kinds of their columns."""
    for name, columns in re.findall(r"\btable\s+(\w+)\s+with\s*\(([^)]*)\)", program):
        yield name, dict(re.findall(r"(\w+)\s*:\s*(\w+)", columns))


def database(program, rows):
    base = sqlite3.connect(":memory:")
    for name, columns in declared(program):
        labels = ", ".join(f'"{label}" {KINDS[kind]}' for label, kind in columns.items())
        base.execute(f'CREATE TABLE "{name}" ({labels})')
        marks = ", ".join("?" for _ in columns)
        base.executemany(f'INSERT INTO "{name}" VALUES ({marks})', [[row[label] for label in columns] for row in rows.get(name, [])])
    return base


def readings(lines):
    """What each reading captured and answered, by its place in the text."""
    found = {}
    reader = json.JSONDecoder()
    for line in lines:
        read = re.match(r"read @(\d+) ", line)
        if read:
            args, end = reader.raw_decode(line, read.end())
            answer, _ = reader.raw_decode(line, end + 1)
            if int(read[1]) in found:
                sys.exit(f"the query at {read[1]} is evaluated twice")
            found[int(read[1])] = args, answer
    return [found[place] for place in sorted(found)]


def leaves(args):
    for arg in args:
        yield from (arg[label] for label in sorted(arg)) if isinstance(arg, dict) else [arg]


def answer_of(base, sql, args):
    params = {str(number): value for number, value in enumerate(leaves(args), 1)}
    cursor = base.execute(sql, params)
    labels = [column[0] for column in cursor.description]
    return [dict(zip(labels, row)) for row in cursor]


def as_sqlite(row):
    """Truth values are numbers there."""
    return {label: int(value) if isinstance(value, bool) else value for label, value in row.items()}


def main():
    links, program, tables, arg = sys.argv[1:]
    with open(program, encoding="utf-8") as file:
        text = file.read()
    with open(tables, encoding="utf-8") as file:
        rows = json.load(file)
    queries = [line.split(" ", 1) for line in lines_of(links, "sql", program)]
    events = readings(lines_of(links, "source", program, arg, "--tables", tables))
    if len(queries) != len(events):
        sys.exit(f"{len(queries)} queries are printed, {len(events)} were read")
    base = database(text, rows)
    for (label, sql), (args, answer) in zip(queries, events):
        got, want = answer_of(base, sql, args), [as_sqlite(row) for row in answer]
        same = sorted(map(json.dumps, got)) == sorted(map(json.dumps, want))
        keys = re.search(r" ORDER BY (.*)$", sql)
        if keys and same:
            names = [key.split('"')[1] for key in keys[1].split(", ")]
            same = [[row[name] for name in names] for row in got] == [[row[name] for name in names] for row in want]
        if not same:
            sys.exit(f"query {label} differs\n{sql}\nSQLite: {got}\nlinks: {want}")
    print(f"{len(queries)} queries of {program}: the same rows")


if __name__ == "__main__":
    main()
