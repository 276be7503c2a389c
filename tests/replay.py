#!/usr/bin/env python3
"""Replays the stored answers against a program that reads standard input as document 01 says.

    tests/replay.py PROGRAM [--bin] [--first N]

Without --bin the cases come from samples/answers.txt, with it from crates/replay/stdin. Each case is one run of
PROGRAM: 2-byte table length, table and question on its standard input; what it prints is compared byte for byte.
A table of more than 65,535 bytes has no such input; there is none in the sample.
"""

import argparse
import pathlib
import subprocess
import sys

ROOT = pathlib.Path(__file__).resolve().parent.parent


def unhex(text):
    if text == "-":
        return b""
    out = b""
    for part in text.split("."):
        digits, _, times = part.partition("*")
        out += bytes.fromhex(digits) * int(times or "1")
    return out


def text_cases():
    for line in (ROOT / "samples/answers.txt").read_text(encoding="ascii").splitlines():
        if line.startswith("#"):
            continue
        name, table, question, answer = line.split(" ", 3)
        yield name, unhex(table), unhex(question), answer.replace("/", "\n").encode() + b"\n"


def binary_cases():
    data = (ROOT / "crates/replay/stdin").read_bytes()
    at = 0
    number = 0
    while at < len(data):
        parts = []
        for _ in range(3):
            length = int.from_bytes(data[at:at + 2], "little")
            parts.append(data[at + 2:at + 2 + length])
            if len(parts[-1]) != length:
                sys.exit("crates/replay/stdin is cut")
            at += 2 + length
        yield (f"case {number}", *parts)
        number += 1


def main():
    parser = argparse.ArgumentParser(description=__doc__, formatter_class=argparse.RawDescriptionHelpFormatter)
    parser.add_argument("program")
    parser.add_argument("--bin", action="store_true", help="read crates/replay/stdin")
    parser.add_argument("--first", type=int, default=None, help="only the first N cases")
    options = parser.parse_args()
    run = wrong = 0
    for name, table, question, answer in binary_cases() if options.bin else text_cases():
        if options.first is not None and run == options.first:
            break
        given = len(table).to_bytes(2, "little") + table + question
        done = subprocess.run([options.program], input=given, capture_output=True)
        run += 1
        if done.returncode != 0 or done.stdout != answer:
            wrong += 1
            if wrong <= 10:
                print(f"{name}: exit {done.returncode}, expected {answer!r}, printed {done.stdout!r}")
    print(f"replay: {run - wrong} of {run} stored answers agree")
    if run == 0 or wrong:
        sys.exit(1)


if __name__ == "__main__":
    main()
