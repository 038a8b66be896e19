#!/usr/bin/env python3
"""Runs the built program on worked programs with each allocation refused in turn.

    tools/memory.py LINKS [--step N] [--on]

An allocation is one call of the C library for memory, refused by a library that is loaded before it, made here with `cc` (without
one this does nothing). The Nth is refused, N from 1 on by steps of N (1), until a run makes fewer; with `--on` all later ones too.
What is looked for is a run that ends otherwise than with status 5 and a first part of the output, or as if nothing was refused.
The programs are the examples and those that `tools/mutate.py` begins with. No gate runs this.
"""

import argparse
import os
import shutil
import subprocess
import sys
import tempfile

from mutate import TABLES, TOP, seeds

SHIM = r"""
#define _GNU_SOURCE
#include <dlfcn.h>
#include <stdlib.h>
#include <unistd.h>
static long made, at; static int on;
static void *(*real_malloc)(size_t), *(*real_realloc)(void *, size_t);
__attribute__((constructor)) static void begin(void) {
    real_malloc = dlsym(RTLD_NEXT, "malloc");
    real_realloc = dlsym(RTLD_NEXT, "realloc");
    at = atol(getenv("REFUSED_AT"));
    on = getenv("REFUSED_ON") != 0;
    made = 0;
}
static int refused(void) {
    if (!at || !(++made == at || (on && made > at))) return 0;
    if (write(2, "\x01", 1) != 1) _exit(99);
    return 1;
}
void *malloc(size_t n) { return refused() ? 0 : real_malloc ? real_malloc(n) : 0; }
void *realloc(void *p, size_t n) { return refused() ? 0 : real_realloc(p, n); }
"""
SECONDS = 20
NOT_THESE = 6
ARGUMENTS = (["check", "program"], ["sql", "program"], ["source", "program", "Oslo", "--tables", "tables"])


def run(links, folder, words, at, on):
    """Status, output, and whether an allocation was refused."""
    environment = {"LD_PRELOAD": f"{folder}/refuse.so", "REFUSED_AT": str(at), **({"REFUSED_ON": "1"} if on else {})}
    done = subprocess.run([links, *words], cwd=folder, env=environment, capture_output=True, timeout=SECONDS)
    # No message has this byte: a text's control characters are shown as spaces.
    return done.returncode, done.stdout, b"\x01" in done.stderr


def write(folder, name, content):
    with open(f"{folder}/{name}", "wb") as file:
        file.write(content)


def choose_tables(links, folder):
    """Writes the first tables file that the program accepts, of the example's and those that mutations begin with."""
    with open(f"{TOP}/examples/orders.json", "rb") as file:
        texts = [file.read(), *(text.encode() for text in TABLES)]
    for text in texts:
        write(folder, "tables", text)
        if run(links, folder, ARGUMENTS[-1], 0, False)[0] != NOT_THESE:
            return


def tried(links, folder, words, step, on):
    """How many allocations were refused in turn, and what was wrong at which."""
    status, output, _ = run(links, folder, words, 0, on)
    at, wrong = 1, []
    while True:
        now, text, refused = run(links, folder, words, at, on)
        if not refused:
            return (at - 1) // step, wrong
        if (now, text) != (status, output) and not (now == 5 and output.startswith(text)):
            wrong.append((at, now, text[:80]))
        at += step


def main():
    parser = argparse.ArgumentParser()
    parser.add_argument("links")
    parser.add_argument("--step", type=int, default=1)
    parser.add_argument("--on", action="store_true")
    asked = parser.parse_args()
    links = os.path.abspath(asked.links)
    if not shutil.which("cc"):
        print("skipped: there is no cc")
        return 0
    faults = 0
    with tempfile.TemporaryDirectory() as folder:
        write(folder, "refuse.c", SHIM.encode())
        subprocess.run(["cc", "-O1", "-shared", "-fPIC", "-o", f"{folder}/refuse.so", f"{folder}/refuse.c", "-ldl"], check=True)
        for number, program in enumerate(seeds()):
            write(folder, "program", program)
            choose_tables(links, folder)
            for words in ARGUMENTS:
                count, wrong = tried(links, folder, words, asked.step, asked.on)
                faults += len(wrong)
                print(f"program {number} {words[0]}: {count} allocations refused in turn, {len(wrong)} faults", flush=True)
                for at, status, text in wrong[:5]:
                    print(f"  at {at}: status {status} {text!r}")
    print(f"{faults} faults")
    return 1 if faults else 0


if __name__ == "__main__":
    sys.exit(main())
