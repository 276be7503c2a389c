#!/usr/bin/env python3
"""Lists the names that have two meanings in the crates, each as NAME: FILE, FILE.

    tools/names.py [ROOT]

A name is listed where two files have it: as a public definition of specs/, or as a public item of the code (a method or
constant of a type is TYPE::NAME), or as a file's own name, specs/NAME.antt or proofs/NAME.antt. Fields, constructors and what
an import calls something are no definitions.

Those that stay are the items of docs/DECISIONS.md under "Names with two meanings", each beginning "- `NAME`: REASON". The exit
status is 1 where a listed name has no item, or an item's name is not listed.
"""

import argparse
import pathlib
import re
import sys

DECISIONS, SECTION = "docs/DECISIONS.md", "## Names with two meanings"
BLOCK = re.compile(r"module\b|(?:\w+ )*mutual\b")
DEFINITION = re.compile(r"(?:unfoldable |abbrev |opaque )*pub (?:(?:unfoldable|abbrev|opaque|record|data|ruleset) )*(?!use |mod |open |infix[lr]? )([^\s:(){}]+)")
IMPL = re.compile(r"impl\b[^{]*?(\w+)(?:<[^{]*>)?\s*\{")
ITEM = re.compile(r'pub (?:(?:unsafe |const |extern |"C" )*fn|struct|enum|const|static|type|trait) (\w+)')


def definitions(text):
    """The public definitions of a file of specs/: those at its top, and those in its modules and mutual blocks."""
    above = []  # the indents of the lines that this one stands below, each with whether definitions may stand there
    for line in text.splitlines():
        code = line.lstrip(" ")
        indent = len(line) - len(code)
        if not code or code.startswith("--"):
            continue
        while above and above[-1][0] >= indent:
            above.pop()
        found = DEFINITION.match(code)
        if found and all(block for _, block in above):
            yield found[1]
        above.append((indent, bool(BLOCK.match(code))))


def items(text):
    """The public items of a file of code."""
    owner = ""
    for line in text.splitlines():
        if line[:1] not in ("", " ", "/"):
            owner = f"{found[1]}::" if (found := IMPL.match(line)) else ""
        found = ITEM.match(line.strip())
        if found:
            yield (owner if line.startswith(" ") else "") + found[1]


def places(root, pattern, names):
    """The names that two of the files have, as (NAME, FILES)."""
    out = {}
    for path in sorted(root.glob(pattern)):
        if path.name not in ("Lib.antt", "Inside.antt"):
            for name in sorted(set(names(path))):
                out.setdefault(name, []).append(str(path.relative_to(root)))
    return [(name, files) for name, files in sorted(out.items()) if len(files) > 1]


def listed(root):
    return [
        *places(root, "crates/*/specs/**/*.antt", lambda path: definitions(path.read_text(encoding="utf-8"))),
        *places(root, "crates/*/src/**/*.rt", lambda path: items(path.read_text(encoding="utf-8"))),
        *places(root, "crates/*/specs/**/*.antt", lambda path: [f"specs/{path.name}"]),
        *places(root, "crates/*/proofs/*.antt", lambda path: [f"proofs/{path.name}"]),
    ]


def decided(root):
    """The names of the section's items, each with its line; an item of another form is a name of its own."""
    path, out, within = root / DECISIONS, {}, False
    for number, line in enumerate(path.read_text(encoding="utf-8").splitlines() if path.is_file() else [], 1):
        if line.startswith("## "):
            within = line.rstrip() == SECTION
        elif within and line.startswith("- "):
            found = re.match(r"- `([^`]+)`: \S", line)
            out[found[1] if found else line] = number
    return out


def findings(root):
    names, reasons = dict.fromkeys(name for name, _ in listed(root)), decided(root)
    without = [f"{DECISIONS}: no item for `{name}`" for name in names if name not in reasons]
    return without + [f"{DECISIONS}:{line}: no such name is listed: {name}" for name, line in reasons.items() if name not in names]


def main():
    parser = argparse.ArgumentParser(description=__doc__, formatter_class=argparse.RawDescriptionHelpFormatter)
    parser.add_argument("root", nargs="?", type=pathlib.Path, default=pathlib.Path("."))
    root = parser.parse_args().root
    if not (root / "crates").is_dir():
        sys.exit(f"{root}: no crates there")
    found = findings(root)
    for line in [f"{name}: {', '.join(files)}" for name, files in listed(root)] + found:
        print(line)
    sys.exit(bool(found))


if __name__ == "__main__":
    main()
