#!/usr/bin/env python3
"""Tests that each variant or constant of the code that numbers a kind, a name, an operator, a diagnostic or a visibility has the number of its definition, and
that each definition has its own. Not every one is used by a routine whose contract would say so. And that the kinds of types have their names, by these numbers,
where types are shown: in the text form and in the Rust crate."""

import pathlib
import re
import sys
import unittest

ROOT = pathlib.Path(__file__).resolve().parent.parent
sys.path.insert(0, str(ROOT / "tools"))
sys.dont_write_bytecode = True
import aura_text  # noqa: E402

ENDINGS = {"Kind": "kind", "NameId": "id", "BinOp": "op", "UnOp": "op", "DiagnosticKind": "diag", "Visibility": "vis"}
# where the name of the definition is not that of the variant or constant with the ending behind it
OTHERS = {
    ("NameId", "NONE"): "no_id",
    ("NameId", "FIRST_OF_TABLE"): "first_table_id",
    ("BinOp", "UShr"): "ushr_op",
}

# the kind of no bytes at all, which no type has
WITHOUT = {"no_kind"}


def constants():
    """(type, name) -> number, of the code: constants, and the variants of an enum, from 0 or from the number that one names."""
    found = {}
    for path in ROOT.glob("crates/*/src/*.rt"):
        text = path.read_text(encoding="utf-8")
        for impl in re.finditer(r"^impl (\w+) \{\n(.*?)^\}", text, re.S | re.M):
            for name, number in re.findall(r"pub const (\w+): u(?:8|16) = (\d+);", impl[2]):
                found[impl[1], name] = int(number)
        for enum in re.finditer(r"^pub enum (\w+) \{\n(.*?)^\}", text, re.S | re.M):
            if enum[1] not in ENDINGS or re.search(r"[({]", enum[2]):  # one with data has no numbers
                continue
            next_number = 0
            for name, number in re.findall(r"^    (\w+)(?: = (\d+))?,$", enum[2], re.M):
                next_number = int(number or next_number)
                found[enum[1], name] = next_number
                next_number += 1
    return found


def definitions():
    """name -> number, of the definitions with one of the endings."""
    found = {}
    ending = re.compile("_(" + "|".join(sorted(set(ENDINGS.values()))) + ")$")
    for path in ROOT.glob("crates/*/specs/**/*.antt"):
        for name, number in re.findall(r"^abbrev pub (\w+) : ℕ\n\1 = (\d+)$", path.read_text(encoding="utf-8"), re.M):
            if ending.search(name):
                found[name] = int(number)
    return found


def defined_as(kind, name):
    words = name.lower() if name.isupper() else re.sub(r"(?<!^)(?=[A-Z])", "_", name).lower()
    return OTHERS.get((kind, name), f"{words}_{ENDINGS[kind]}")


# kinds that are shown by the name of another
SHOWN_AS = {"LargeArray": "Array"}


def shown_kinds():
    """The names of the kinds of types by number, as types are shown."""
    kinds = {number: name.removesuffix("_kind") for name, number in definitions().items() if name.endswith("_kind") and name not in WITHOUT}
    names = ["".join(word.title() for word in kinds.get(number, "none").split("_")) for number in range(len(kinds))]
    return [SHOWN_AS.get(name, name) for name in names]


class Constants(unittest.TestCase):
    def test_each_has_its_definitions_number(self):
        ours, theirs = constants(), definitions()
        self.assertEqual({kind for kind, _ in ours}, set(ENDINGS))
        named = {defined_as(*key): number for key, number in ours.items()}
        self.assertEqual(named, {name: number for name, number in theirs.items() if name not in WITHOUT})

    def test_the_kinds_of_types_are_shown_by_their_names(self):
        self.assertIn("LargeArray", {name for kind, name in constants() if kind == "Kind"})
        self.assertEqual(aura_text.KINDS, shown_kinds())
        rust = re.search(r"const KINDS: \[&str; \d+\] = \[(.*?)\];", (ROOT / "aura-judge/src/ty.rs").read_text(encoding="utf-8"), re.S)
        self.assertEqual(re.findall(r'"(\w+)"', rust[1]), shown_kinds())


if __name__ == "__main__":
    unittest.main()
