#!/usr/bin/env python3
"""Tests that docs/CONTRACTS.md leaves out no public function and no must-fail edit.

    tests/contracts.py [ROOT]

A section `## CRATE` has a table `| routine | wrong answers |`. A routine is named by `function` or `module::function`, a method
by `Type::method`; several may share a row. Words in italics there are the labels of edits, crates/NAME/must-fail/LABEL.edit.
The exit status is 1 where

- a public function of crates/*/src/*.rt has no row in its crate's section, or a row without wrong answers;
- a row that begins with a routine names one that the crate does not have;
- a label is no edit, or an edit is named nowhere. A label that two crates have has to stand in the section of each.
"""

import pathlib
import re
import sys
import tempfile
import unittest

ROOT = pathlib.Path(__file__).resolve().parent.parent
DOCUMENT = "docs/CONTRACTS.md"
IMPL = re.compile(r"impl\b[^{]*?(\w+)(?:<[^{]*>)?\s*\{")
FUNCTION = re.compile(r'(pub )?(?:pub\(\w+\) )?(?:(?:const|unsafe|extern|"C") )*fn (\w+)')
CODE = re.compile(r"`([^`]*)`")
LABEL = re.compile(r"(?<![\w*])\*(\w+)\*(?![\w*])")


def functions(text):
    """The functions of a file of code, each with whether it is public: a method as TYPE::NAME."""
    owner = ""
    for line in text.splitlines():
        if line[:1] not in ("", " ", "/"):
            owner = f"{found[1]}::" if (found := IMPL.match(line)) else ""
        found = FUNCTION.match(line.strip())
        if found:
            yield (owner if line.startswith(" ") else "") + found[2], bool(found[1])


def routines(root):
    """crate -> (module::, name) -> whether it is public. What stands in lib.rt or main.rt is in no module."""
    out = {}
    for path in sorted(root.glob("crates/*/src/*.rt")):
        module = "" if path.stem in ("lib", "main") else f"{path.stem}::"
        crate = out.setdefault(path.parts[-3], {})
        crate.update(((module, name), public) for name, public in functions(path.read_text(encoding="utf-8")))
    return out


def edits(root):
    """label -> the crates that have an edit of that name."""
    out = {}
    for path in sorted(root.glob("crates/*/must-fail/*.edit")):
        out.setdefault(path.stem, []).append(path.parts[-3])
    return out


def rows(text):
    """The document's table rows: line, section, first cell, the cells behind it."""
    section, seen = None, 0
    for number, line in enumerate(text.splitlines(), 1):
        if line.startswith("#"):
            section, seen = line.lstrip("#").strip().strip("`"), 0
        elif line.startswith("|"):
            seen += 1
            cells = line.strip().strip("|").split("|")
            if seen > 2:  # the first is the head, the second its rule
                yield number, section, cells[0].strip(), "|".join(cells[1:]).strip()
        else:
            seen = 0


def meant(name, crate, known):
    """The routine of the crate that a name in its section means, or None."""
    name = name.removeprefix(f"{crate}::")
    return next((routine for routine in known if name in (routine[1], "".join(routine))), None)


def findings(root):
    path, known, labels = root / DOCUMENT, routines(root), edits(root)
    if not path.is_file():
        return [f"{DOCUMENT} is not there"]
    out, described, named = [], set(), set()
    for number, section, first, wrong in rows(path.read_text(encoding="utf-8")):
        place = f"{DOCUMENT}:{number}"
        if not wrong:
            out.append(f"{place}: no wrong answer")
        for name in CODE.findall(first) if first.startswith("`") else []:
            routine = meant(name, section, known.get(section, {}))
            if routine is None:
                out.append(f"{place}: crate {section} has no function {name}")
            elif wrong:
                described.add((section, routine))
        for label in LABEL.findall(CODE.sub("", wrong)):
            if label not in labels:
                out.append(f"{place}: no crate has must-fail/{label}.edit")
            # an edit may stand below another crate: one that is refused in the lightest crate says something of those above
            named.add((label, section if len(labels.get(label, [])) > 1 else None))
    for crate, functions_of in known.items():
        for routine, public in functions_of.items():
            if public and (crate, routine) not in described:
                out.append(f"{DOCUMENT}: no row for {''.join(routine)} below ## {crate}")
    for label, crates in labels.items():
        for crate in crates:
            where, wanted = ("", None) if len(crates) == 1 else (f" below ## {crate}", crate)
            if (label, wanted) not in named:
                out.append(f"{DOCUMENT}: crates/{crate}/must-fail/{label}.edit is not named{where}")
    return out


CODE_OF_TY = """// pub fn comment()
pub struct Pair {
    pub low: u8,
}

impl Pair {
    pub fn new(low: u8) -> Pair {
        Pair { low }
    }

    fn own(self) -> u8 {
        self.low
    }
}

#[unsafe(no_mangle)]
pub extern "C" fn long(
    x: u8,
) -> u8
    ensures { result ≡ x }
{
    x
}

impl<T> Several<T> {
    pub const unsafe fn most() -> u8 {
        0
    }
}

impl Clone for Pair {
    fn clone(&self) -> Pair {
    }
}

fn hidden() {
}

pub(crate) fn within() {
}
"""
SOUND = {
    "crates/ty/src/lib.rt": CODE_OF_TY,
    "crates/ty/src/read.rt": "pub fn read() {\n}\n",
    "crates/tool/src/main.rt": "fn next() {\n}\n\nfn main() {\n}\n",
    "crates/ty/must-fail/cut.edit": "",
    "crates/ty/must-fail/swapped.edit": "",
    "crates/tool/must-fail/swapped.edit": "",
    DOCUMENT: "# Wrong answers\n\nEach is tried: *in italics* as an edit.\n\n## ty\n\n| routine | wrong answers |\n|---|---|\n"
              "| `Pair::new` | *swapped*: the other byte |\n| `long`, `read::read`, `Several::most` | by hand: `5 *cut* 6`, 0 |\n"
              "| a type (`specs/Ty`) | by hand: none |\n\n"
              "## tool\n\n| routine | wrong answers |\n|---|---|\n| `next` | *cut*: a case is cut; *swapped*: two cases |\n",
}


class MadeUp(unittest.TestCase):
    def finds(self, change, *lines, files=None):
        """What is found in the sound tree with one change of the document, and with other files."""
        with tempfile.TemporaryDirectory() as folder:
            root = pathlib.Path(folder)
            for name, text in {**SOUND, **(files or {})}.items():
                if name == DOCUMENT and change:
                    self.assertIn(change[0], text)
                    text = text.replace(*change)
                if text is not None:
                    (root / name).parent.mkdir(parents=True, exist_ok=True)
                    (root / name).write_text(text, encoding="utf-8")
            self.assertEqual(findings(root), [f"{DOCUMENT}{line}" for line in lines])

    def test_a_sound_document(self):
        self.finds(None)
        self.finds(("`long`", "`ty::long`"))
        self.finds(("`read::read`", "`read`"))
        self.finds(("`read::read`", "`ty::read::read`"))
        self.finds(("`next`", "`tool::next`, `main`"))
        self.finds(("## ty", "## `ty`"))

    def test_functions_of_every_form(self):
        found = [("Pair::new", True), ("Pair::own", False), ("long", True), ("Several::most", True), ("Pair::clone", False), ("hidden", False),
                 ("within", False)]
        self.assertEqual(list(functions(CODE_OF_TY)), found)

    def test_each_public_function_has_a_row(self):
        self.finds(("`Pair::new`", "new"), ": no row for Pair::new below ## ty")
        self.finds(("`long`, ", ""), ": no row for long below ## ty")
        self.finds(("`read::read`, ", ""), ": no row for read::read below ## ty")
        self.finds(("## ty\n", "## tool\n"), ":9: crate tool has no function Pair::new", ":10: crate tool has no function long",
                   ":10: crate tool has no function read::read", ":10: crate tool has no function Several::most",
                   ": no row for Pair::new below ## ty", ": no row for long below ## ty", ": no row for Several::most below ## ty",
                   ": no row for read::read below ## ty", ": crates/ty/must-fail/swapped.edit is not named below ## ty")
        self.finds(None, ": no row for more::less below ## ty", files={"crates/ty/src/more.rt": "pub fn less() {\n}\n"})
        self.finds(None, ": no row for less below ## more", files={"crates/more/src/lib.rt": "pub fn less() {\n}\n"})

    def test_each_row_names_a_function_and_a_wrong_answer(self):
        self.finds(("`long`", "`long`, `short`"), ":10: crate ty has no function short")
        self.finds(("`long`", "`long`, `red::read`"), ":10: crate ty has no function red::read")
        self.finds(("`Pair::new`", "`new`"), ":9: crate ty has no function new", ": no row for Pair::new below ## ty")
        self.finds(("*swapped*: the other byte", ""), ":9: no wrong answer", ": no row for Pair::new below ## ty",
                   ": crates/ty/must-fail/swapped.edit is not named below ## ty")

    def test_each_label_is_an_edit(self):
        self.finds(("*cut*: a case", "*cut*, *gone*: a case"), ":17: no crate has must-fail/gone.edit")
        self.finds(("| a type (`specs/Ty`) | by", "| a type (`specs/Ty`) | *gone*, by"), ":11: no crate has must-fail/gone.edit")
        self.finds(("## tool", "## tools"), ":17: crate tools has no function next",
                   ": crates/tool/must-fail/swapped.edit is not named below ## tool")

    def test_each_edit_is_named(self):
        self.finds(("*cut*: a", "`*cut*`: a"), ": crates/ty/must-fail/cut.edit is not named")
        self.finds(("*swapped*: two", "swapped: two"), ": crates/tool/must-fail/swapped.edit is not named below ## tool")
        self.finds(None, ": crates/ty/must-fail/more.edit is not named", files={"crates/ty/must-fail/more.edit": ""})

    def test_no_document(self):
        self.finds(None, " is not there", files={DOCUMENT: None})


def main(findings):
    """Prints what is found in a root, then runs the tests of the test that was started."""
    root = pathlib.Path(sys.argv.pop(1)) if len(sys.argv) > 1 and not sys.argv[1].startswith("-") else ROOT
    found = findings(root)
    for line in found:
        print(line)
    tested = unittest.main(exit=False).result
    sys.exit(bool(found) or not tested.wasSuccessful())


if __name__ == "__main__":
    main(findings)
