#!/usr/bin/env python3
"""Builds of the judge beside each other: their benchmarks run in turn, and the medians are compared row by row.

    AURA_LIB_DIR=FOLDER cargo build --release --target-dir DIR    (in bench/, once for each libaura_c.a)
    tools/turns.py BEFORE/release/bench AFTER/release/bench [MORE ..] [--runs 3] [--quick] [--write FILE]

Each of the later programs is compared with the first; a copy of the first among them shows what the measurement itself varies by.
A row is slower where the median of the judge's own time is over that of the first program by more than 5 in 100. The page also
has the medians of its time over the Rust's in the same run: the Rust's side is the same code in every build, and what it varies
by from process to process is in that figure too (docs/DECISIONS.md, 46). A row that one build alone has is named and not
compared. Prints a page with every run; --write also stores it. Exit status 1 where a row is slower, 2 where the programs cannot
be compared.

A library from before document 02's orders is linked with --no-default-features, one from before order 2 with --features load
besides, one from before order 5 with --features load,subclass, one from before order 6 with --features
load,subclass,large-array; do so for all, but for --features interface: with it a library reads tables of today's form, and
without it the same tables in the form from before order 6.
"""

import argparse
import collections
import statistics
import subprocess
import sys

ALLOWED = 1.05

# A row of two programs: nanoseconds of the judge in each run, and the medians' ratios, of that time and of that time over the Rust's.
Row = collections.namedtuple("Row", "name before after time ratio")


def parse(text):
    """{row: (nanoseconds of the judge, nanoseconds of the Rust or None)} from the lines of one run."""
    rows = {}
    for line in text.splitlines():
        parts = line.split("\t")
        if len(parts) != 3:
            raise ValueError(f"not a row: {line!r}")
        name, judge, rust = parts
        if name in rows:
            raise ValueError(f"a row stands twice: {name}")
        rows[name] = (float(judge), float(rust) if rust else None)
    if not rows:
        raise ValueError("no rows")
    return rows


def compared(before, after):
    """The rows that both of two lists of runs have."""
    for runs in (before, after):
        if any(list(run) != list(runs[0]) for run in runs):
            raise ValueError("the runs of a build have different rows")
    names = [name for name in before[0] if name in after[0]]
    if not names:
        raise ValueError("no row is in both")
    found = []
    for name in names:
        sides = [[run[name] for run in runs] for runs in (before, after)]
        times = [statistics.median(judge for judge, _ in side) for side in sides]
        ratio = None
        if all(rust for side in sides for _, rust in side):
            old, new = [statistics.median(judge / rust for judge, rust in side) for side in sides]
            ratio = new / old
        old, new = [[judge for judge, _ in side] for side in sides]
        found.append(Row(name, old, new, times[1] / times[0], ratio))
    return found


def alone(before, after):
    """The rows that one build alone has."""
    return [name for name in before[0] if name not in after[0]] + [name for name in after[0] if name not in before[0]]


def summary(what, values):
    slower = sum(value > ALLOWED for value in values)
    return (
        f"{what}: {len(values)} rows; slower by more than 5 in 100: {slower}. "
        f"Median of all {statistics.median(values):.3f}, least {min(values):.3f}, most {max(values):.3f}."
    )


def digits(value):
    return f"{value:.0f}" if value >= 1000 else f"{value:.1f}"


def page(title, found, others):
    """The comparison as text, slowest rows first."""
    lines = [title, "", summary("The judge's own time", [row.time for row in found])]
    ratios = [row.ratio for row in found if row.ratio is not None]
    if ratios:
        lines.append(summary("Over the Rust's in the same run", ratios))
    lines += [
        "",
        "| Row | Before, ns | After, ns | Medians, after / before | Over the Rust's |",
        "|---|---|---|--:|--:|",
    ]
    for row in sorted(found, key=lambda row: -row.time):
        old, new = (" ".join(map(digits, side)) for side in (row.before, row.after))
        ratio = "" if row.ratio is None else f"{row.ratio:.3f}"
        lines.append(f"| {row.name} | {old} | {new} | {row.time:.3f} | {ratio} |")
    if others:
        lines += ["", "Rows of one build alone, not compared:", "", *(f"- {name}" for name in others)]
    return "\n".join(lines) + "\n"


def main():
    parser = argparse.ArgumentParser(description="Compares the benchmarks of builds, run in turn.")
    parser.add_argument("before")
    parser.add_argument("after", nargs="+")
    parser.add_argument("--runs", type=int, default=3)
    parser.add_argument("--quick", action="store_true", help="short runs, to see that it works")
    parser.add_argument("--write", metavar="FILE")
    words = parser.parse_args()
    if words.runs < 1:
        parser.error("--runs is at least 1")
    programs = [words.before, *words.after]
    if len(set(programs)) < len(programs):
        parser.error("a program stands twice")
    runs = {program: [] for program in programs}
    for number in range(words.runs):
        for program in programs:
            print(f"run {number + 1} of {words.runs}: {program}", file=sys.stderr, flush=True)
            command = [program, "--lines"] + (["--quick"] if words.quick else [])
            try:
                done = subprocess.run(command, capture_output=True, text=True, check=True)
                runs[program].append(parse(done.stdout))
            except (OSError, subprocess.CalledProcessError, ValueError) as error:
                print(f"{program}: {error}{getattr(error, 'stderr', '') or ''}", file=sys.stderr)
                return 2
    try:
        found = {program: compared(runs[words.before], runs[program]) for program in words.after}
    except ValueError as error:
        print(error, file=sys.stderr)
        return 2
    pages = [
        page(f"{program} after {words.before}", rows, alone(runs[words.before], runs[program]))
        for program, rows in found.items()
    ]
    text = "\n".join(pages)
    print(text, end="")
    if words.write:
        with open(words.write, "w", encoding="utf-8") as file:
            file.write(text)
    return 1 if any(row.time > ALLOWED for rows in found.values() for row in rows) else 0


if __name__ == "__main__":
    sys.exit(main())
