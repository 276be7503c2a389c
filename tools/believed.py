#!/usr/bin/env python3
"""Counts the definitions that a reader must believe, and checks that they and the products' contracts cite no others.

    tools/believed.py [ROOT]                   prints the table of counts and, as FILE:LINE: WHAT, each finding
    tools/believed.py --write docs/FILE.md     also puts the table between the two marker lines of that file
    tools/believed.py --check docs/FILE.md     also finds a table there that is not this one
    tools/believed.py --lines [--width N]      also finds lines of code and definitions with more than N (160) characters

The exit status is 1 where something was found. A file of specs/ is to be believed unless it stands in specs/Inside, which
holds what routines hand each other. Found are:

- a file to be believed that imports or names one of an Inside;
- an import, in definitions, code or proofs, of a module of specs/ that is not there (the library's own are not looked up);
- a contract for the products that names something of an Inside. These are the contracts of the public functions of judge,
  judge_text, console, load and aura_c: those in lib.rt, and those of other modules that lib.rt passes on or another crate uses.
"""

import argparse
import pathlib
import re
import sys

PRODUCTS = "judge judge_text console load aura_c".split()
BEGIN, END = "<!-- believed: begin -->", "<!-- believed: end -->"
HEAD = "| crate | files | lines to be believed | files inside | lines inside |\n|---|---|---|---|---|\n"
NAME = r"[^\s(){}.;,@\"«»]"
COMMENT = {".antt": re.compile(rf"(?<!{NAME})--.*|\{{-[\s\S]*?-\}}"), ".rt": re.compile(r"//.*|/\*[\s\S]*?\*/")}
USE = re.compile(r"^[ \t]*(?:(?:pub|ghost|unfoldable)\s+)*use\s+([^\s{};]+?)(?:\.\s*\{([^}]*)\}|\s+as\s+([^\s;]+))?(?=\s|;|$)", re.M)
WORD = re.compile(rf"(?:{NAME}|\.)+")
FUNCTION = re.compile(r'^([ \t]*)pub (?:\w+ |"C" )*fn (\w+)', re.M)
IMPL = re.compile(r"^impl\b[^{]*?(\w+)(?:<[^{]*>)?\s*\{", re.M)
# The toolchain's own libraries; a crate here has none of these names.
LIBRARY = re.compile(r"core|io|libc|os|std(?:_\w+)?")


def blanked(pattern, text):
    """The text without what the pattern matches; each line keeps its number."""
    return pattern.sub(lambda found: "\n" * found[0].count("\n"), text)


def line_of(text, at):
    return text.count("\n", 0, at) + 1


class File:
    """A file without its comments: its imports as (line, module), each name that they bring with its whole path, the rest."""

    def __init__(self, root, path):
        self.at = path.relative_to(root)
        self.text = blanked(COMMENT[path.suffix], path.read_text(encoding="utf-8"))
        self.body = blanked(USE, self.text)
        self.uses, self.names = [], {}
        for found in USE.finditer(self.text):
            self.add(line_of(self.text, found.start()), self.whole(found[1]), found[2], found[3])

    def add(self, line, module, items, name):
        if items is None:
            self.names[name or module[-1]] = module
            self.uses.append((line, module))
        for item in filter(None, map(str.split, (items or "").split(","))):
            path = module + item[0].split(".")
            self.names[item[2] if len(item) == 3 else path[-1]] = path
            self.uses.append((line, path[:-1]))

    def whole(self, word):
        """The whole path of a dotted word, whose first part may be a name that an import brings; behind `package.` it is none."""
        first, *rest = word.split(".")
        return rest if first == "package" else self.names.get(first, [first]) + rest

    def cited(self, text):
        """The whole paths that the words of a text may mean; an operator is cited where all its parts are."""
        words = WORD.findall(text)
        parts = {word.split(".")[0] for word in words}
        operators = [name for name in self.names if "◌" in name and set(filter(None, name.split("◌"))) <= parts]
        return [self.whole(word) for word in words + operators]


def spec(path):
    """The crate and the module below its specs/ that a whole path names, or None."""
    return (path[1], path[3:]) if path[0] == "Rattle" and path[2:3] == ["specs"] else None


def is_inside(path):
    place = spec(path)
    return place is not None and place[1][:1] == ["Inside"]


def is_there(root, path):
    """False for a path to a module of specs/ that is neither a file nor made from the code."""
    place = spec(path)
    if place is None or LIBRARY.fullmatch(place[0]) or place[1][:1] in ([], ["declared"], ["contracts"]):
        return True
    return root.joinpath("crates", place[0], "specs", *place[1][:-1], place[1][-1] + ".antt").is_file()


# Files

def crates(root):
    return sorted(path for path in root.glob("crates/*") if path.is_dir())


def definitions(root, crate):
    """The files of a crate's specs/ that are to be believed, and those inside."""
    believed, inside = [], []
    for path in sorted(crate.glob("specs/**/*.antt")):
        if path.name not in ("Lib.antt", "Inside.antt"):
            parts = path.relative_to(crate / "specs").parts
            (inside if parts[0] == "Inside" else believed).append(File(root, path))
    return believed, inside


def code(root, crate):
    return [File(root, path) for path in sorted(crate.glob("src/**/*.rt"))]


# The table

def lines(files):
    return sum(bool(line.strip()) for file in files for line in file.body.splitlines())


def table(root):
    out, sums = HEAD, [0] * 4
    for crate in crates(root):
        believed, inside = definitions(root, crate)
        row = [len(believed), lines(believed), len(inside), lines(inside)]
        if believed or inside:
            out += f"| `{crate.name}` | {' | '.join(map(str, row))} |\n"
            sums = [one + other for one, other in zip(sums, row)]
    return out + f"| in all | {' | '.join(map(str, sums))} |\n"


def kept(root, name, made, write):
    """What is wrong with the table in a file, which is put there where `write` says so."""
    path = root / name
    text = path.read_text(encoding="utf-8") if path.is_file() else ""
    found = re.search(rf"^{BEGIN}\n(.*?)^{END}$", text, re.M | re.S)
    if not found:
        return [f"{name}:1: the lines {BEGIN} and {END} are missing"]
    if write:
        path.write_text(text[:found.start(1)] + made + text[found.end(1):], encoding="utf-8")
    elif found[1] != made:
        return [f"{name}:{line_of(text, found.start())}: the table is not what tools/believed.py --write {name} puts there"]
    return []


# Findings

def inside_imports(root):
    """Files to be believed that import or name one of an Inside; specs/Lib.antt may pass on none."""
    for crate in crates(root):
        for file in definitions(root, crate)[0] + [File(root, path) for path in crate.glob("specs/Lib.antt")]:
            for line, path in file.uses:
                if is_inside(path):
                    yield f"{file.at}:{line}: a file to be believed imports {'.'.join(path)}"
            for word in WORD.finditer(file.body):
                path = file.whole(word[0])
                if "." in word[0] and is_inside(path):
                    yield f"{file.at}:{line_of(file.body, word.start())}: a file to be believed names {'.'.join(path)}"


def missing_modules(root):
    for crate in crates(root):
        proofs = [File(root, path) for path in sorted(crate.glob("proofs/**/*.antt"))]
        for file in sum(definitions(root, crate), []) + code(root, crate) + proofs:
            for line, path in file.uses:
                if not is_there(root, path):
                    yield f"{file.at}:{line}: there is no module {'.'.join(path)}"


def clauses(text, at):
    """The clauses of the function whose name ends at `at`, each with its place."""
    while True:
        begin = text.find("{", at)
        if begin < 0 or not re.search(r"\b(requires|ensures)\b", text[at:begin]):
            return
        depth, at = 1, begin + 1
        while depth and at < len(text):
            depth += (text[at] == "{") - (text[at] == "}")
            at += 1
        yield begin, text[begin + 1:at - 1]


def offered(root, crate):
    """What lib.rt passes on and other crates name, as MODULE::ITEM; MODULE alone stands for all of it."""
    out = []
    for other in crates(root):
        for file in code(root, other):
            if other.name != crate:
                out += re.findall(rf"\b{crate}::([\w:]+)", file.text)
            elif file.at.name == "lib.rt":
                out += re.findall(r"\bpub use (?:crate::)?([\w:]+)", file.text)
    return {item.rstrip(":") for item in out}


def functions(root, crate):
    """The public functions of a crate that are for the products: their file, their name and where it ends."""
    items = offered(root, crate)
    for file in code(root, root / "crates" / crate):
        module = "::".join(file.at.with_suffix("").parts[3:])
        for found in FUNCTION.finditer(file.text):
            types = IMPL.findall(file.text[:found.start()]) if found[1] else []
            item = f"{module}::{types[-1] if types else found[2]}"
            if module == "lib" or module in items or any(other == item or other.startswith(item + "::") for other in items):
                yield file, found[2], found.end()


def inside_contracts(root):
    """Contracts for the products that name something of an Inside."""
    for crate in PRODUCTS:
        for file, name, end in functions(root, crate):
            for at, clause in clauses(file.text, end):
                for path in file.cited(clause):
                    if is_inside(path):
                        yield f"{file.at}:{line_of(file.text, at)}: the contract of {name} names {'.'.join(path)}"


def long_lines(root, width):
    for path in sorted([*root.glob("crates/*/src/**/*.rt"), *root.glob("crates/*/specs/**/*.antt")]):
        for number, line in enumerate(path.read_text(encoding="utf-8").splitlines(), 1):
            if len(line) > width:
                yield f"{path.relative_to(root)}:{number}: {len(line)} characters"


def findings(root):
    """Each finding once, in order."""
    return list(dict.fromkeys([*inside_imports(root), *missing_modules(root), *inside_contracts(root)]))


def main():
    parser = argparse.ArgumentParser(description=__doc__, formatter_class=argparse.RawDescriptionHelpFormatter)
    parser.add_argument("root", nargs="?", type=pathlib.Path, default=pathlib.Path("."))
    parser.add_argument("--write", metavar="FILE")
    parser.add_argument("--check", metavar="FILE")
    parser.add_argument("--lines", action="store_true")
    parser.add_argument("--width", type=int, default=160)
    options = parser.parse_args()
    if not crates(options.root):
        sys.exit(f"{options.root}: no crates there")
    made = table(options.root)
    print(made, end="")
    found = findings(options.root)
    for name in filter(None, [options.write, options.check]):
        found += kept(options.root, name, made, name == options.write)
    if options.lines:
        found += long_lines(options.root, options.width)
    print("\n".join(found), end="\n" if found else "")
    sys.exit(bool(found))


if __name__ == "__main__":
    main()
