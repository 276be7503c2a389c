#!/usr/bin/env python3
"""Tests tools/names.py on small trees: each has one defect, or none."""

import pathlib
import subprocess
import sys
import tempfile
import unittest

TOOL = pathlib.Path(__file__).resolve().parent.parent / "tools/names.py"
sys.path.insert(0, str(TOOL.parent))
sys.dont_write_bytecode = True
import names  # noqa: E402

SPECS = """-- pub comment : ℕ
use Rattle.ty.specs.Bytes.{a as imported}
pub use Rattle.ty.specs.Bytes as bytes
unfoldable pub use Rattle.ty.specs.Bytes.{b}
pub mod Module
pub open r use {field}

abbrev pub short : ℕ
short = 256

unfoldable pub long :
    ℕ → ℕ
long x = hidden x

hidden : ℕ → ℕ
hidden x = x

pub plain : ℕ
plain = 0

pub ruleset rules = plain
pub infixl 6 ◌deep◌
opaque pub infix_of_two : ℕ

pub record Pair (a : ℕ) : Type 0 where
  -- of the pair
  pub field : ℕ
pub data Way (a : ℕ)
    (b : ℕ) : Type 0 where
  pub left : Way
  right : Way

module _ (S : Symbols)
    (H : Header) where
  unfoldable pub within : ℕ
  within = 0

  pub record Inner : Type 0 where
    pub inner_field : ℕ

  module _ {A : Type 0} where
    pub ◌deep◌ : ℕ

  unfoldable mutual
    pub one : ℕ

mutual
  pub data Node : Type 0 where
    leaf : Node

  pub RowAt {ℓ} : ℕ
"""
CODE = """// pub fn comment()
pub mod module;
pub use other::imported;
pub const MOST: usize = 1;
const LEAST: usize = 0;

pub struct Pair {
    pub field: u8,
}

pub enum Way {
    Left,
}

fn hidden() {
}

#[unsafe(no_mangle)]
pub extern "C" fn long(
    x: u8,
) -> u8
{
    x
}

impl Pair {
    pub const NONE: u8 = 0;

    pub fn new() -> Pair {
        Pair { field: 0 }
    }

    fn own() {
    }
}

impl<T> Several<T> {
    pub const fn most() -> u8 {
        0
    }
}

impl Clone for Pair {
    fn clone(&self) -> Pair {
    }
}

pub fn short() {
}

pub(crate) fn within() {
}
"""


class Case(unittest.TestCase):
    def tree(self, files):
        folder = tempfile.TemporaryDirectory()
        self.addCleanup(folder.cleanup)
        root = pathlib.Path(folder.name)
        (root / "crates").mkdir()
        for name, text in files.items():
            (root / name).parent.mkdir(parents=True, exist_ok=True)
            (root / name).write_text(text, encoding="utf-8")
        return root

    def lists(self, files, listed):
        self.assertEqual([f"{name}: {', '.join(places)}" for name, places in names.listed(self.tree(files))], listed)


class Names(Case):
    def test_of_definitions(self):
        found = "short long plain rules infix_of_two Pair Way within Inner ◌deep◌ one Node RowAt"
        self.assertEqual(list(names.definitions(SPECS)), found.split())

    def test_of_code(self):
        self.assertEqual(list(names.items(CODE)), "MOST Pair Way long Pair::NONE Pair::new Several::most short".split())


class Listed(Case):
    def test_definitions(self):
        a, b, inside = "crates/a/specs/A.antt", "crates/b/specs/B.antt", "crates/a/specs/Inside/C.antt"
        for other in [b, inside, "crates/a/specs/B.antt"]:
            for text in ["abbrev pub within : ℕ", "unfoldable pub within : ℕ", "pub within : ℕ", "pub record within : Type 0 where",
                         "pub data within : Type 0 where", "module _ (A : Type 0) where\n  pub within : ℕ"]:
                self.lists({a: SPECS, other: text}, [f"within: {', '.join(sorted([a, other]))}"])
        for text in ["within : ℕ", "pub record B : Type 0 where\n  pub within : ℕ", "use A.{a as within}", "-- pub within : ℕ"]:
            self.lists({a: SPECS, b: text}, [])
        self.lists({a: "pub f : ℕ\n", b: "pub f : ℕ\n", inside: "pub f : ℕ\n"}, [f"f: {a}, {inside}, {b}"])
        self.lists({a: "module _ (S : A) where\n  pub f : ℕ\nmodule _ (S : B) where\n  pub f : ℕ\n"}, [])

    def test_code(self):
        a, b = "crates/a/src/lib.rt", "crates/b/src/main.rt"
        for text, name in [("pub fn short() {\n}", "short"), ("pub enum Pair {\n}", "Pair"), ("pub struct long {\n}", "long"),
                           ("impl Pair {\n    pub fn new() {\n    }\n}", "Pair::new")]:
            for other in [b, "crates/a/src/other.rt"]:
                self.lists({a: CODE, other: text}, [f"{name}: {a}, {other}"])
        for text in ["fn short() {\n}", "impl Other {\n    pub fn new() {\n    }\n}", "pub fn hidden() {\n}", "pub use a::short;"]:
            self.lists({a: CODE, b: text}, [])
        self.lists({a: CODE, "crates/b/specs/B.antt": "pub short : ℕ"}, [])

    def test_files(self):
        for one, other in [("specs", "specs"), ("specs", "specs/Inside"), ("specs/Inside", "specs/Inside"), ("proofs", "proofs")]:
            files = [f"crates/a/{one}/Answer.antt", f"crates/b/{other}/Answer.antt"]
            self.lists(dict.fromkeys(files, ""), [f"{one.partition('/')[0]}/Answer.antt: {', '.join(files)}"])
        for name in ["specs/Lib.antt", "specs/Inside.antt", "proofs/Lib.antt", "proofs/f/Answers.antt", "proofs/f/Invariants.antt"]:
            self.lists({f"crates/a/{name}": "", f"crates/b/{name}": ""}, [])
        self.lists({"crates/a/specs/Answer.antt": "", "crates/a/proofs/Answer.antt": "", "crates/b/proofs/Answers.antt": ""}, [])


class Decisions(Case):
    TWICE = {"crates/a/specs/A.antt": "pub f : ℕ\n", "crates/b/specs/B.antt": "pub f : ℕ\n"}
    LISTED = "f: crates/a/specs/A.antt, crates/b/specs/B.antt\n"

    def prints(self, files, section, code, printed):
        root = self.tree({**files, names.DECISIONS: f"# Decisions\n\n- `e`: of another section\n\n{section}\n\n## More\n\n- `g`: too\n"})
        done = subprocess.run([sys.executable, TOOL, root], capture_output=True, text=True, check=False)
        self.assertEqual((done.returncode, done.stdout, done.stderr), (code, printed, ""))

    def test_each_listed_name_has_its_item(self):
        without = self.LISTED + "docs/DECISIONS.md: no item for `f`\n"
        self.prints(self.TWICE, f"{names.SECTION}\n\n- `f`: both are\n  the same", 0, self.LISTED)
        self.prints(self.TWICE, "", 1, without)
        self.prints(self.TWICE, f"{names.SECTION}\n\nNone but `f`: both.", 1, without)
        self.prints(self.TWICE, "## Names\n\n- `f`: both", 1, without)
        self.prints({}, "", 0, "")

    def test_each_item_is_listed_and_has_a_reason(self):
        self.prints({}, f"{names.SECTION}\n\n- `f`: both", 1, "docs/DECISIONS.md:7: no such name is listed: f\n")
        self.prints(self.TWICE, f"{names.SECTION}\n\n- `f`: both\n- `F`: both", 1,
                    self.LISTED + "docs/DECISIONS.md:8: no such name is listed: F\n")
        self.prints(self.TWICE, f"{names.SECTION}\n\n- `f`: both\n- g", 1,
                    self.LISTED + "docs/DECISIONS.md:8: no such name is listed: - g\n")
        self.prints(self.TWICE, f"{names.SECTION}\n\n- `f`:", 1,
                    self.LISTED + "docs/DECISIONS.md: no item for `f`\ndocs/DECISIONS.md:7: no such name is listed: - `f`:\n")


if __name__ == "__main__":
    unittest.main()
