#!/usr/bin/env python3
"""Tries changed HTTP messages on the readers of lk_http: whether each is told the same, however it is cut.

    tools/messages.py TREE_CASES [--messages N] [--seed N] [--keep FOLDER]

TREE_CASES is the built program `tree_cases`, which feeds each of N messages (10,000) to a reader in one piece, in two pieces cut at
every place, and byte by byte, and tells its verdict, or two where they differ. The messages are those of the cases that are worked by
hand, with some bytes changed, left out, put in twice or put in anew, or with words that matter put in. Two verdicts may differ where
the bytes end inside the target of a request that is no text. How often each verdict came is printed, and each message that had two;
the file of cases stays in FOLDER. The status is 1 where a message had two. No gate runs this.
"""

import argparse
import collections
import os
import random
import subprocess
import sys
import tempfile

TOP = os.path.dirname(os.path.dirname(os.path.abspath(__file__)))
DATA = f"{TOP}/crates/tree_cases/data"

# What the bytes put in anew are made of.
WORDS = [
    b"\r\n", b"\n", b"\r", b" ", b"\t", b":", b"\r\n\r\n", b"Host: a\r\n", b"host:b\r\n", b"Content-Length: 0\r\n", b"content-length: 7\r\n",
    b"Content-Length: 1048577\r\n", b"Transfer-Encoding: chunked\r\n", b"x: y\r\n" * 30, b"+", b"-", b"0", b"9", b"HTTP/1.0", b"HTTP/1.1", b"GET ",
    b"POST ", b"/links", b"\xff", b"\xc3", b"\xc3\xa4", b"\0", b"a" * 4000, b"a" * 8192, b"200 ", b"HTTP/1.1 ", b"{}",
]


def messages_of(name):
    """The texts of the cases of a file, each with the question that is asked of it."""
    with open(f"{DATA}/{name}", encoding="utf-8", newline="") as file:
        paragraphs = file.read().rstrip("\n").split("\n\n")
    has_crlf = False
    for paragraph in paragraphs:
        lines = paragraph.split("\n")
        if lines[0] == "set":
            has_crlf = "crlf" in lines
            continue
        text, has_begun = b"", False
        for line in lines:
            word, _, rest = line.partition(" ")
            if word == "<":
                text += (b"\r\n" if has_crlf else b"\n") if has_begun else b""
                text += rest.encode()
            elif word == "+":
                text += rest.encode()
            elif word == "repeat":
                times, _, piece = rest.partition(" ")
                text += piece.encode() * int(times)
            elif word == "bytes":
                text += bytes.fromhex(rest)
            has_begun = has_begun or word in ("<", "+", "repeat", "bytes")
        if text and len(text) < 20_000:
            yield text


def changed(rng, message):
    """A message with one to four changes."""
    for _ in range(rng.randint(1, 4)):
        start = rng.randint(0, len(message))
        end = min(len(message), start + rng.randint(0, 12))
        match rng.randint(0, 5):
            case 0:
                message = message[:start] + bytes([rng.randint(0, 255)]) + message[start + 1:]
            case 1:
                message = message[:start] + message[end:]
            case 2:
                message = message[:end] + message[start:]
            case 3:
                message = message[:start] + rng.choice(WORDS) + message[start:]
            case 4:
                message = message[:start] + rng.choice(WORDS) + message[end:]
            case 5:
                message = message[:rng.randint(0, len(message))]
    return message


def case_of(number, question, message):
    """A case that asks for a verdict, and wants none, so that the program tells what it is."""
    lines = [f"# {number}"]
    if message:
        lines.append("bytes " + message.hex(" "))
    return "\n".join([*lines, f"{question} untold"])


def told_by(program, folder, cases):
    """What the program tells of each case, in order."""
    with open(f"{folder}/messages.cases", "w", encoding="utf-8") as file:
        file.write("\n\n".join(cases) + "\n")
    ran = subprocess.run([program, "messages.cases"], cwd=folder, capture_output=True, text=True, check=True, errors="replace")
    lines = ran.stdout.split("\n")
    told = [line.split(": ", 1)[1] for line in lines if line.startswith("messages.cases:") and not line.startswith("messages.cases: ")]
    if len(told) != len(cases) or f"messages.cases: {len(cases)} cases" not in lines:
        sys.exit(f"{len(told)} lines are told of {len(cases)} messages")
    return told


def kind_of(line):
    """A verdict without the body."""
    words = line.split(" ")
    return " ".join(words[:2] if words[1] in ("more", "done") else words[:4])


def main():
    parser = argparse.ArgumentParser()
    parser.add_argument("program")
    parser.add_argument("--messages", type=int, default=10_000)
    parser.add_argument("--seed", type=int, default=1)
    parser.add_argument("--keep")
    asked = parser.parse_args()
    rng = random.Random(asked.seed)
    known = {"request": list(messages_of("requests.cases")), "reply": list(messages_of("replies.cases"))}
    cases = []
    for number in range(asked.messages):
        question = rng.choice(["request", "reply", "ended"])
        messages = known["request" if question == "request" else "reply"]
        cases.append(case_of(number, question, changed(rng, rng.choice(messages))))
    with tempfile.TemporaryDirectory() as room:
        folder = asked.keep or room
        os.makedirs(folder, exist_ok=True)
        told = told_by(os.path.abspath(asked.program), folder, cases)
    counts = collections.Counter(kind_of(line) for line in told if ", but cut at " not in line)
    for kind, count in sorted(counts.items()):
        print(f"{count:6} {kind}")
    odd = [(number, line) for number, line in enumerate(told) if ", but cut at " in line]
    for number, line in odd:
        print(f"message {number}: {line}")
    print(f"{len(cases)} messages, {len(odd)} with two verdicts")
    return 1 if odd else 0


if __name__ == "__main__":
    sys.exit(main())
