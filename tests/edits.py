#!/usr/bin/env python3
"""Tests that `rt ci` refused every must-fail edit, by what it printed.

    tests/edits.py LOG [ROOT]

LOG has all that one run of `rt ci` with no names printed. An edit that cannot be applied, compiled or read is a bad one, which fails
nothing in that run and shows nothing of a contract; its last line but one, `rt: ok; ..; must-fail edits: N refused, M bad; ..`, counts
both kinds. The exit status is 1 where

- that line is not there, or there is more than one: the run failed or broke off;
- an edit is bad;
- other than all edits crates/NAME/must-fail/LABEL.edit were refused;

also where a test of this test fails.
"""

import pathlib
import re
import sys
import tempfile
import unittest

sys.dont_write_bytecode = True
import contracts  # noqa: E402

ROOT = contracts.ROOT
OK = re.compile(r"^rt: ok; (.*)$", re.M)
EDITS = re.compile(r"; must-fail edits: (\d+) refused((?:, [^;]*)?);")
BAD = re.compile(r", (\d+) bad\b")


def findings(log, root):
    lines, wanted = OK.findall(log), sum(map(len, contracts.edits(root).values()))
    if len(lines) != 1:
        return [f"{len(lines)} lines of the run begin with 'rt: ok', where one should"]
    found = EDITS.search(f"; {lines[0]};")
    refused = int(found[1]) if found else 0
    out = [f"must-fail edits that are bad: {bad}" for bad in BAD.findall(found[2] if found else "")]
    if refused != wanted:
        out.append(f"must-fail edits that were refused: {refused} of {wanted}")
    return out


class MadeUp(unittest.TestCase):
    BEGIN = "rt: app proved\n3 passed, 0 failed\nrt: must-fail low/b.edit: refused, as it must be: rt: ok; no such line\n"
    DONE = "done in this run: 5 of the 9 proofs (of crates and of their tests) and 1 of the 2 must-fail edits; the others are kept"

    def finds(self, log, *found, edits=("low/must-fail/a", "low/must-fail/b")):
        with tempfile.TemporaryDirectory() as folder:
            root = pathlib.Path(folder)
            for edit in edits:
                path = root / f"crates/{edit}.edit"
                path.parent.mkdir(parents=True, exist_ok=True)
                path.write_text("", encoding="utf-8")
            self.assertEqual(findings(self.BEGIN + log, root), list(found))

    def test_each_is_refused(self):
        for more in ["", ", 1 of them only by a limit"]:
            for done in [self.DONE, "every proof and must-fail edit was done in this run"]:
                self.finds(f"rt: ok; handles allowed: none; must-fail edits: 2 refused{more}; {done}\n4 passed, 0 failed\n")
        self.finds(f"rt: ok; handles allowed: Threads, Wait; {self.DONE}\n2 passed, 0 failed\n", edits=())

    def test_a_bad_one(self):
        for more in ["", ", 1 of them only by a limit"]:
            self.finds(f"rt: ok; handles allowed: none; must-fail edits: 1 refused{more}, 1 bad; {self.DONE}\n",
                       "must-fail edits that are bad: 1", "must-fail edits that were refused: 1 of 2")
        self.finds(f"rt: ok; handles allowed: none; must-fail edits: 2 refused, 12 bad; {self.DONE}\n", "must-fail edits that are bad: 12")
        self.finds("rt: ok; handles allowed: none; must-fail edits: 0 refused, 2 bad\n",
                   "must-fail edits that are bad: 2", "must-fail edits that were refused: 0 of 2")

    def test_others_than_all(self):
        line = f"rt: ok; handles allowed: none; must-fail edits: 2 refused; {self.DONE}\n"
        self.finds(line, "must-fail edits that were refused: 2 of 3", edits=("low/must-fail/a", "low/must-fail/b", "app/must-fail/a"))
        self.finds(line, "must-fail edits that were refused: 2 of 1", edits=("low/must-fail/a",))
        self.finds(f"rt: ok; handles allowed: none; {self.DONE}\n", "must-fail edits that were refused: 0 of 2")

    def test_no_verdict(self):
        line = f"rt: ok; handles allowed: none; must-fail edits: 2 refused; {self.DONE}\n"
        for log, count in [("", 0), ("rt: FAILED: low\n1 passed, 1 failed\n", 0), (line + line, 2)]:
            self.finds(log, f"{count} lines of the run begin with 'rt: ok', where one should")


if __name__ == "__main__":
    if len(sys.argv) < 2 or sys.argv[1].startswith("-"):
        sys.exit(__doc__)
    text = pathlib.Path(sys.argv.pop(1)).read_text(encoding="utf-8", errors="replace")
    contracts.main(lambda root: findings(text, root))
