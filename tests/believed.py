#!/usr/bin/env python3
"""Tests tools/believed.py on small trees: each has one defect, or none."""

import pathlib
import subprocess
import sys
import tempfile
import unittest

TOOL = pathlib.Path(__file__).resolve().parent.parent / "tools/believed.py"
sys.path.insert(0, str(TOOL.parent))
sys.dont_write_bytecode = True
import believed  # noqa: E402

# A tree without a defect: what stands inside is cited by what stands inside, by private functions and by proofs alone.
SOUND = {
    "crates/ty/specs/Lib.antt": "pub mod Bytes\npub mod Inside\n",
    "crates/ty/specs/Inside.antt": "pub mod Slot\n",
    "crates/ty/specs/Bytes.antt": "-- Types. use Rattle.ty.specs.Inside.Slot.{slot_of}\nuse Rattle.std.specs.Prelude.{ℕ}\n\n"
                                  "abbrev pub Ty : Type 0\nTy = ℕ  -- as bytes\n",
    "crates/ty/specs/Inside/Slot.antt": "use Rattle.ty.specs.Bytes.{Ty}\n\npub slot_of : Ty\nslot_of = 0\n\npub ◌≺◌ : Ty\n◌≺◌ = 1\n",
    "crates/judge/specs/Lib.antt": "pub mod Answer\n",
    "crates/judge/specs/Answer.antt": "use Rattle.ty.specs.Bytes as bytes\nuse Rattle.judge.specs.declared.State.{State}\n\n"
                                      "pub record Answered : Type 0 where\n  pub ty : bytes.Ty\n",
    "crates/judge/src/lib.rt": "// judge\npub mod cycle;\n\nuse cycle::step;\n"
                               "ghost use Rattle.judge.specs.Answer.{Answered as Told};\n"
                               "ghost use Rattle.ty.specs.Inside.Slot.{slot_of as slot, ◌≺◌};\n"
                               "ghost use Rattle.ty.specs.Inside.Slot as slots;\n\n"
                               "fn own(x: u8) -> u8\n    ensures { slot result }\n{\n    x\n}\n\n"
                               "pub fn judge(x: u8) -> u8\n    requires { 0 x }\n    ensures { Told result }\n{\n"
                               "    // ensures { slot }\n    /* requires { slot } */\n    step(own(x))\n}\n",
    "crates/judge/src/cycle.rt": "ghost use Rattle.ty.specs.Inside.Slot.{slot_of};\n\n"
                                 "pub fn step(x: u8) -> u8\n    ensures { slot_of result }\n{\n    x\n}\n",
    "crates/judge/proofs/Lib.antt": "use Rattle.ty.specs.Inside.Slot.{slot_of}\n",
    "crates/aura_c/src/lib.rt": "use judge::judge;\n",
}
ANSWER, LIB, BYTES = "crates/judge/specs/Answer.antt", "crates/judge/src/lib.rt", "crates/ty/specs/Bytes.antt"
TABLE = believed.HEAD + "| `judge` | 1 | 2 | 0 | 0 |\n| `ty` | 1 | 2 | 1 | 4 |\n| in all | 2 | 4 | 1 | 4 |\n"


class Case(unittest.TestCase):
    def tree(self, *changes, **files):
        """A tree with the files, or with the sound ones, in which each change (file, old, new) is made."""
        folder = tempfile.TemporaryDirectory()
        self.addCleanup(folder.cleanup)
        root = pathlib.Path(folder.name)
        files = dict(files.get("files", SOUND))
        for name, old, new in changes:
            self.assertIn(old, files[name])
            files[name] = files[name].replace(old, new, 1)
        for name, text in files.items():
            (root / name).parent.mkdir(parents=True, exist_ok=True)
            (root / name).write_text(text, encoding="utf-8")
        return root

    def finds(self, finding, *changes):
        self.assertEqual(believed.findings(self.tree(*changes)), [finding] if finding else [])

    def run_on(self, root, *options):
        done = subprocess.run([sys.executable, TOOL, root, *options], capture_output=True, text=True, check=False)
        self.assertEqual(done.stderr, "")
        return done.returncode, done.stdout


class Counts(Case):
    def test_the_table(self):
        self.assertEqual(believed.table(self.tree()), TABLE)

    def test_what_is_no_line_to_be_believed(self):
        for text, lines in [
            ("", 0), ("-- a\n  -- b\n\n \n", 0), ("{- a\nb -}\n", 0), ("f : ℕ  -- a\n", 1), ("f : a--b\n\n", 1),
            ("use A.B.{a, b}\n", 0), ("use A.B as c\nuse A.B\npub use B.*\n", 0),
            ("unfoldable pub use A.B.*\n  use A.B.{a}\n", 0), ("use A.B.{\n  a,\n  b as c,\n}\n", 0), ("use A.B.{a,\n  b}\nf : ℕ\n", 1), ("use A.B\n    as c\nf : ℕ\n", 1),
            ("module _ (S : A) where\n  -- a\n  pub f : ℕ\n  f = 0\n", 3), ("user : ℕ\n", 1),
        ]:
            root = self.tree(files={"crates/a/specs/A.antt": text})
            self.assertEqual(believed.lines(believed.definitions(root, root / "crates/a")[0]), lines, text)

    def test_the_exit_status_and_what_is_printed(self):
        self.assertEqual(self.run_on(self.tree()), (0, TABLE))
        root = self.tree((ANSWER, "Bytes as bytes", "Gone as bytes"))
        self.assertEqual(self.run_on(root), (1, f"{TABLE}{ANSWER}:1: there is no module Rattle.ty.specs.Gone\n"))


class Imports(Case):
    def test_none_of_an_inside(self):
        self.finds(None)
        for new, line in [
            ("use Rattle.ty.specs.Inside.Slot.{slot_of}\n", 1),
            ("use Rattle.ty.specs.Inside.Slot.{\n  slot_of,\n  ◌≺◌ as before,\n}\n", 1),
            ("use Rattle.std.specs.Prelude.{\n  ℕ,\n}\nuse Rattle.ty.specs.Inside.Slot as slots\n", 4),
            ("pub use Rattle.ty.specs.Inside.Slot\n", 1),
            ("unfoldable pub use Rattle.ty.specs.Inside.Slot.{slot_of}\n", 1),
            ("  use Rattle.ty.specs.Inside.Slot.{slot_of}\n", 1),
            ("use package.Rattle.ty.specs.Inside.Slot.{slot_of}\n", 1),
            ("use Rattle.ty.specs as ty\nuse ty.Inside.Slot.{slot_of}\n", 2),
            ("use Rattle.ty.specs.{Inside.Slot.slot_of}\n", 1),
        ]:
            self.finds(f"{ANSWER}:{line}: a file to be believed imports Rattle.ty.specs.Inside.Slot", (ANSWER, "use", new + "use"))

    def test_none_of_the_own_inside(self):
        self.finds(f"{BYTES}:2: a file to be believed imports Rattle.ty.specs.Inside.Slot",
                   (BYTES, "\nuse", "\nuse Rattle.ty.specs.Inside.Slot.{slot_of}\nuse"))

    def test_none_is_passed_on(self):
        name = "crates/ty/specs/Lib.antt"
        self.finds(f"{name}:1: a file to be believed imports Rattle.ty.specs.Inside.Slot",
                   (name, "pub mod", "pub use Rattle.ty.specs.Inside.Slot.{slot_of}\npub mod"))

    def test_no_whole_path_into_an_inside(self):
        for before in ["", "package."]:
            self.finds(f"{ANSWER}:5: a file to be believed names Rattle.ty.specs.Inside.Slot.slot_of",
                       (ANSWER, "bytes.Ty", f"{before}Rattle.ty.specs.Inside.Slot.slot_of"))
        self.finds(f"{ANSWER}:6: a file to be believed names Rattle.ty.specs.Inside.Slot.slot_of",
                   (ANSWER, "bytes.Ty", "(ty.Inside.Slot.slot_of)"), (ANSWER, "use", "use Rattle.ty.specs as ty\nuse"))

    def test_lines_keep_their_numbers(self):
        self.finds(f"{ANSWER}:10: a file to be believed names Rattle.ty.specs.Inside.Slot.slot_of",
                   (ANSWER, "bytes.Ty", "Rattle.ty.specs.Inside.Slot.slot_of"),
                   (ANSWER, "use", "{- a\n-}\nuse Rattle.std.specs.Prelude.{\n  ℕ,\n}\nuse"))

    def test_each_module_is_there(self):
        for name, old, new, line, path in [
            (ANSWER, "ty.specs.Bytes", "ty.specs.Byte", 1, "Rattle.ty.specs.Byte"),
            (ANSWER, "use", "use Rattle.judge.specs.Gone.{a}\nuse", 1, "Rattle.judge.specs.Gone"),
            (ANSWER, "use", "use Rattle.gone.specs.Bytes.{a}\nuse", 1, "Rattle.gone.specs.Bytes"),
            (ANSWER, "use", "use Rattle.ty.specs.{Gone.a}\nuse", 1, "Rattle.ty.specs.Gone"),
            ("crates/ty/specs/Inside/Slot.antt", "specs.Bytes", "specs.Slot", 1, "Rattle.ty.specs.Slot"),
            (LIB, "Inside.Slot as", "Inside.Gone as", 7, "Rattle.ty.specs.Inside.Gone"),
            ("crates/judge/proofs/Lib.antt", "Inside.Slot", "Slot", 1, "Rattle.ty.specs.Slot"),
        ]:
            self.finds(f"{name}:{line}: there is no module {path}", (name, old, new))
        self.finds(None, (ANSWER, "use", "use Rattle.std_alloc.specs.Vec.{a}\nuse"))


class Contracts(Case):
    def test_none_names_something_inside(self):
        path = "Rattle.ty.specs.Inside.Slot"
        for old, new, line, named in [
            ("0 x", "slot x", 16, "slot_of"), ("Told result", "(slot result)", 17, "slot_of"), ("0 x", "0 ≺ x", 16, "◌≺◌"),
            ("0 x", "◌≺◌ 0 x", 16, "◌≺◌"), ("Told result", "slots.slot_of result", 17, "slot_of"),
            ("Told result", f"{path}.slot_of result", 17, "slot_of"), ("Told result", f"package.{path}.slot_of result", 17, "slot_of"),
            ("Told result", "record { x = 0 } ×\n        slot result", 17, "slot_of"),
            ("Told result", "result.now\n        ≡ slot x.old", 17, "slot_of"),
            ("ensures { Told", "ensures told { 0 }\n    ensures text { slot", 18, "slot_of"),
            ("ensures { Told", "ensures* { slot", 17, "slot_of"),
        ]:
            self.finds(f"{LIB}:{line}: the contract of judge names {path}.{named}", (LIB, old, new))
        self.finds(None, (LIB, "Told result", "s.slot × slotted × result.slot × slot_ × slot_of"))

    def test_functions_of_every_form(self):
        for form in ['pub extern "C" fn own', "pub fn own", "pub const unsafe fn own"]:
            self.finds(f"{LIB}:10: the contract of own names Rattle.ty.specs.Inside.Slot.slot_of", (LIB, "fn own", form))
        for head in ["impl Slots", "impl<T> Slots<T>", "impl Clone for Slots<'_>"]:
            method = head + " {\n    pub fn own(x: u8)\n        ensures { slot x }\n    {\n    }\n}\n\n"
            self.finds(f"{LIB}:11: the contract of own names Rattle.ty.specs.Inside.Slot.slot_of", (LIB, "fn own", method + "fn own"))

    def test_functions_of_other_modules_that_are_offered(self):
        finding = "crates/judge/src/cycle.rt:4: the contract of step names Rattle.ty.specs.Inside.Slot.slot_of"
        for name, new in [
            (LIB, "pub use cycle::step;\nuse "), (LIB, "pub use cycle::{step};\nuse "),
            ("crates/aura_c/src/lib.rt", "use judge::cycle::step;\nuse "), ("crates/aura_c/src/lib.rt", "use judge::cycle;\nuse "),
        ]:
            self.finds(finding, (name, "use ", new))
        self.finds(None, ("crates/aura_c/src/lib.rt", "use ", "use judge::cycle::steps;\nuse "))

    def test_methods_of_types_that_are_offered(self):
        for head in ["impl Slots", "impl<T> Slots<T>"]:
            method = head + " {\n    pub fn own(x: u8)\n        ensures { slot_of x }\n    {\n    }\n}\n\npub fn"
            change = ("crates/judge/src/cycle.rt", "pub fn", method)
            self.finds(None, change)
            self.finds("crates/judge/src/cycle.rt:5: the contract of own names Rattle.ty.specs.Inside.Slot.slot_of",
                       change, (LIB, "use ", "pub use cycle::Slots;\nuse "))

    def test_other_crates_may_cite_them(self):
        files = {name.replace("crates/judge/", "crates/rules/"): text.replace(".judge.", ".rules.") for name, text in SOUND.items()}
        root = self.tree(("crates/rules/src/lib.rt", "0 x", "slot x"), files=files)
        self.assertEqual(believed.findings(root), [])


class Documents(Case):
    FILE = "docs/ARCHITECTURE.md"

    def test_the_table_is_written_and_checked(self):
        for between in ["", "| old |\n"]:
            text = f"a\n\n{believed.BEGIN}\n{between}{believed.END}\n\nb\n"
            root = self.tree(files={**SOUND, self.FILE: text})
            wrong = f"{self.FILE}:3: the table is not what tools/believed.py --write {self.FILE} puts there\n"
            self.assertEqual(self.run_on(root, "--check", self.FILE), (1, TABLE + wrong))
            self.assertEqual((root / self.FILE).read_text(), text)
            self.assertEqual(self.run_on(root, "--write", self.FILE), (0, TABLE))
            self.assertEqual((root / self.FILE).read_text(), f"a\n\n{believed.BEGIN}\n{TABLE}{believed.END}\n\nb\n")
            self.assertEqual(self.run_on(root, "--check", self.FILE), (0, TABLE))

    def test_the_marker_lines_are_wanted(self):
        wrong = f"{TABLE}{self.FILE}:1: the lines {believed.BEGIN} and {believed.END} are missing\n"
        for more in [{}, {self.FILE: f"{believed.BEGIN}\n"}]:
            for option in ["--check", "--write"]:
                self.assertEqual(self.run_on(self.tree(files={**SOUND, **more}), option, self.FILE), (1, wrong))


class Lines(Case):
    def test_long_lines(self):
        for name in [ANSWER, LIB, "crates/ty/specs/Inside/Slot.antt"]:
            comment = "//" if name == LIB else "--"
            fits, long = (f"{comment}{'λ' * n}\nuse" for n in (158, 159))
            self.assertEqual(self.run_on(self.tree((name, "use", fits)), "--lines"), (0, TABLE))
            root = self.tree((name, "use", long))
            self.assertEqual(self.run_on(root), (0, TABLE))
            code, printed = self.run_on(root, "--lines")
            self.assertEqual((code, printed.removeprefix(TABLE)), (1, f"{name}:{4 if name == LIB else 1}: 161 characters\n"))
            self.assertEqual(self.run_on(root, "--lines", "--width", "161"), (0, TABLE))


if __name__ == "__main__":
    unittest.main()
