#!/usr/bin/env python3
"""Tests tools/turns.py on made-up runs."""

import pathlib
import stat
import subprocess
import sys
import tempfile
import unittest

TOOL = pathlib.Path(__file__).resolve().parent.parent / "tools/turns.py"
sys.path.insert(0, str(TOOL.parent))
sys.dont_write_bytecode = True
import turns  # noqa: E402


class Rows(unittest.TestCase):
    def test_a_row_has_both_times(self):
        self.assertEqual(turns.parse("a\t2.00\t8.00\nb\t3.00\t\n"), {"a": (2.0, 8.0), "b": (3.0, None)})

    def test_bad_lines_are_refused(self):
        for text in ["", "a\t1.0\n", "a\t1\t2\na\t1\t2\n", "a\tx\t1\n"]:
            with self.assertRaises(ValueError, msg=repr(text)):
                turns.parse(text)

    def test_medians_count(self):
        before = [{"a": (1.0, 2.0)}, {"a": (9.0, 2.0)}, {"a": (2.0, 2.0)}]
        after = [{"a": (3.0, 4.0)}, {"a": (0.5, 4.0)}, {"a": (2.5, 4.0)}]
        self.assertEqual(turns.compared(before, after), [turns.Row("a", [1.0, 9.0, 2.0], [3.0, 0.5, 2.5], 1.25, 0.625)])

    def test_a_row_without_the_rust_has_its_time_alone(self):
        found = turns.compared([{"a": (4.0, None)}], [{"a": (5.0, None)}])
        self.assertEqual(found, [turns.Row("a", [4.0], [5.0], 1.25, None)])

    def test_other_rows_are_refused(self):
        one, two = {"a": (1.0, None)}, {"a": (1.0, None), "b": (1.0, None)}
        for before, after in [([one], [{"b": (1.0, None)}]), ([one, two], [one, one])]:
            with self.assertRaises(ValueError):
                turns.compared(before, after)

    def test_rows_of_one_build_alone_are_not_compared(self):
        before = [{"a": (1.0, None), "b": (2.0, None)}]
        after = [{"c": (3.0, None), "a": (1.0, None)}]
        self.assertEqual(turns.compared(before, after), [turns.Row("a", [1.0], [1.0], 1.0, None)])
        self.assertEqual(turns.alone(before, after), ["b", "c"])
        self.assertEqual(turns.alone(before, before), [])


class Program(unittest.TestCase):
    def run_on(self, *texts):
        with tempfile.TemporaryDirectory() as folder:
            programs = []
            for name, text in enumerate(texts):
                path = pathlib.Path(folder) / str(name)
                path.write_text(f"#!/bin/sh\nprintf '{text}'\n")
                path.chmod(path.stat().st_mode | stat.S_IXUSR)
                programs.append(str(path))
            return subprocess.run([str(TOOL), *programs, "--runs", "2"], capture_output=True, text=True)

    def test_five_in_100_are_allowed(self):
        done = self.run_on("a\\t100.0\\t200.0\\n", "a\\t105.0\\t200.0\\n")
        self.assertEqual(done.returncode, 0, done.stderr)
        self.assertIn("| a | 100.0 100.0 | 105.0 105.0 | 1.050 | 1.050 |", done.stdout)

    def test_more_is_slower(self):
        done = self.run_on("a\\t1.00\\t2.00\\n", "a\\t1.06\\t2.00\\n")
        self.assertEqual(done.returncode, 1)
        self.assertIn("slower by more than 5 in 100: 1.", done.stdout)

    def test_the_rusts_time_alone_makes_no_row_slower(self):
        done = self.run_on("a\\t1.00\\t2.00\\n", "a\\t1.00\\t1.00\\n")
        self.assertEqual(done.returncode, 0, done.stderr)
        self.assertIn("| 1.000 | 2.000 |", done.stdout)

    def test_each_later_program_is_compared_with_the_first(self):
        done = self.run_on("a\\t1.00\\t\\n", "a\\t1.00\\t\\n", "a\\t1.50\\t\\n")
        self.assertEqual(done.returncode, 1)
        self.assertIn("| 1.000 |", done.stdout)
        self.assertIn("| 1.500 |", done.stdout)

    def test_a_row_of_one_build_alone_is_named(self):
        done = self.run_on("a\\t1.00\\t2.00\\n", "a\\t1.00\\t2.00\\nb\\t9.00\\t\\n")
        self.assertEqual(done.returncode, 0, done.stderr)
        self.assertIn("1 rows; slower", done.stdout)
        self.assertTrue(done.stdout.endswith("\nRows of one build alone, not compared:\n\n- b\n"))
        self.assertNotIn("alone", self.run_on("a\\t1.00\\t2.00\\n", "a\\t1.00\\t2.00\\n").stdout)

    def test_nothing_to_compare(self):
        self.assertEqual(self.run_on("a\\t1.00\\t2.00\\n", "b\\t1.00\\t2.00\\n").returncode, 2)
        self.assertEqual(self.run_on("a\\t1.00\\t2.00\\n", "").returncode, 2)


if __name__ == "__main__":
    unittest.main()
