#!/usr/bin/env python3
"""Respells the names of this repository's definitions and lemmas, once, behind the toolchain's own port.py.

usage: tools/port_names.py [--list]      at the top of the repository; --list prints each old name with its new one and writes nothing

Words are in snake case, types and modules in camel case. A dash joins two names, as in `length-drop`; another word follows `_`. A lemma that would have the name
of a definition, or of another lemma, gets `_lem`. Names of src/ stay; of comments and pages only what stands between backticks is respelled.
"""
import collections
import glob
import re
import sys

TOKEN = r"[^\s(){}\[\],;.`\"@λ]+"
NO_NAMES = set("use mod module unfolding where let in mutual infix infixl infixr open elim rw simp search omega pub absurd cc grind by λ → | =".split())
# Words of the library that lemmas are named after.
LIBRARY = set(
    "length drop take get_or append map reverse sum min max eqb ltb leb set sets replicate not nat_eq nat_lt nat_le cond bit_and bit_or bit_xor "
    "slice_index slice_set slice_get slice_range".split()
)
# Names that no declaration has: what imports and arguments are called.
OTHERS = {
    "amongOf": "among_of",
    "atNode": "at_node",
    "fractionalOf": "fractional_of",
    "isFlag": "is_flag",
    "nullablesOf": "nullables_of",
    "numbersOf": "numbers_of",
    "refusedAs": "refused_as",
    "requiredOf": "required_of",
    "someOwn": "some_own",
}
TEXTS = ["README.md", "CHANGELOG.md", "docs/*.md", "crates/*/must-fail/*.edit"]


def antt_files():
    for pattern in ("crates/*/specs/**/*.antt", "crates/*/proofs/**/*.antt"):
        yield from sorted(glob.glob(pattern, recursive=True))


def declared():
    """Name -> (how it is marked, its signature), a row for each declaration outside the proofs of functions."""
    rows = collections.defaultdict(list)
    for path in antt_files():
        if path.endswith("/Proof.antt"):
            continue
        lines = open(path, encoding="utf-8").read().split("\n")
        for i, line in enumerate(lines):
            m = re.match(r"^(\s*)((?:pub |abbrev |unfoldable )*)(record |data |ruleset )?(%s)(.*)$" % TOKEN, line)
            if not m or line.strip().startswith("--"):
                continue
            indent, marks, word, name, rest = m.groups()
            if name in NO_NAMES or not (word or re.match(r"^\s+:(\s|$)", rest)):
                continue
            signature = rest
            for more in lines[i + 1 :]:
                if not more.startswith(indent + "    "):
                    break
                signature += " " + more.strip()
            rows[name].append((marks + (word or ""), " " + signature.strip()))
    return rows


def imported():
    """Names that the crates import from the library; what has such a name here keeps it."""
    own = {line.split(":")[0].split()[0] for line in open("crates.txt", encoding="utf-8") if line.strip()}
    names = set()
    for path in list(antt_files()) + sorted(glob.glob("crates/*/src/**/*.rt", recursive=True)):
        for module, items in re.findall(r"use ([\w.+-]+)\.\{([^}]*)\}", open(path, encoding="utf-8").read()):
            if not (module.startswith("Rattle.") and module.split(".")[1] in own):
                names |= {item.strip().split(" as ")[0] for item in items.split(",")}
    return names


def snake(word):
    return re.sub(r"([a-z0-9₀-₉'])([A-Z])", r"\1_\2", word).lower()


def joined(parts, names):
    """The parts of a lemma's name: a dash between two names, `_` before another word."""
    units, i = [], 0
    while i < len(parts):
        for k in range(len(parts) - i, 0, -1):
            word = "_".join(parts[i : i + k])
            if word in names:
                units.append((word, True))
                break
        else:
            k = 1
            units.append((parts[i], False))
        i += k
    text = units[0][0]
    for before, unit in zip(units, units[1:]):
        text += ("-" if before[1] and unit[1] else "_") + unit[0]
    return text


def renamed():
    rows = declared()
    types = {n for n, r in rows.items() if any(re.search(r"(→|:)\s*Type \d( where)?\s*$", s) for _, s in r)}
    defs = {n for n, r in rows.items() if any("abbrev" in m or "unfoldable" in m for m, _ in r)} | types
    names = {d if d in types else snake(d) for d in defs} | LIBRARY
    library = imported()
    plain = [n for n in rows if n not in types and n not in library and not n[0].isupper() and re.match(r"^[A-Za-z0-9_'₀-₉≢-]+$", n)]
    new = {}
    for n in plain:
        if n in defs:
            new[n] = "_".join(snake(p) for p in n.split("-"))
        else:
            new[n] = joined([p if p in types else snake(p) for p in n.split("-")], names)
    # Where names fall together a definition keeps the plain one, and of lemmas the one that has it already, or the first.
    groups = collections.defaultdict(list)
    for n in plain:
        groups[new[n]].append(n)
    taken = set(groups)
    for name, olds in sorted(groups.items()):
        olds.sort(key=lambda n: (n not in defs, n != name, n))
        for n in olds[1:]:
            other = "_".join(snake(p) for p in n.split("-"))
            while other in taken:
                other += "_lem"
            taken.add(other)
            new[n] = other
    return {a: b for a, b in new.items() if a != b} | OTHERS


def respelled(text, new, everywhere, is_source=False):
    def turn(part):
        # A name in snake case may be a function's: of the code itself, of a path or of a step it stays.
        def one(m):
            name = m.group(0)
            if re.fullmatch(r"[a-z0-9_]+", name) and (part[: m.start()].endswith(".") or is_source and "ghost use" not in part):
                return name
            return new.get(name, name)

        return re.sub(r"(?<![\w'₀-₉-])(?!\d)[\w'₀-₉-]*[\w'₀-₉]", one, part)

    def ticks(part):
        return re.sub(r"`[^`\n]*`", lambda m: turn(m.group(0)), part)

    if not everywhere:
        return ticks(text)
    out = []
    for line in text.split("\n"):
        code, mark, comment = line, "", ""
        m = re.search(r"(^|\s)(--|//)(\s|$)", line)
        if m:
            code, comment = line[: m.start(2)], line[m.start(2) :]
        out.append(turn(code) + ticks(comment))
    return "\n".join(out)


def main(argv):
    new = renamed()
    if argv == ["--list"]:
        for a, b in sorted(new.items()):
            print(a, b)
        return 0
    if argv:
        print(__doc__)
        return 2
    paths = list(antt_files()) + sorted(glob.glob("crates/*/src/**/*.rt", recursive=True))
    for pattern in TEXTS:
        paths += sorted(glob.glob(pattern))
    for path in paths:
        old = open(path, encoding="utf-8").read()
        text = respelled(old, new, path.endswith((".antt", ".rt", ".edit")), path.endswith((".rt", ".edit")))
        if text != old:
            open(path, "w", encoding="utf-8").write(text)
    return 0


if __name__ == "__main__":
    sys.exit(main(sys.argv[1:]))
