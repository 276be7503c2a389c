#!/usr/bin/env python3
"""Tests how the program `replay` reads its input, of which its contracts cannot speak: cases whole, cut, wrong and of full length.

    tests/replay_input.py PROGRAM
"""

import subprocess
import sys
import unittest

sys.dont_write_bytecode = True
import replay  # noqa: E402


def part(data):
    return len(data).to_bytes(2, "little") + data


def case(table, question, answer):
    return part(table) + part(question) + part(answer)


class Input(unittest.TestCase):
    program = None

    def says(self, data, printed):
        done = subprocess.run([Input.program], input=data, capture_output=True, check=False)
        self.assertEqual((done.returncode, done.stdout.decode()), (0, printed))

    def setUp(self):
        # A table, a question and an answer of some bytes each.
        cases = [parts for _, *parts in replay.binary_cases() if all(len(data) > 20 for data in parts)]
        self.one, self.two = cases[0], cases[1]

    def test_whole(self):
        self.says(b"", "0 cases agree\n")
        self.says(case(*self.one), "1 cases agree\n")
        self.says(case(*self.one) + case(*self.two), "2 cases agree\n")

    def test_cut(self):
        """Behind each byte of the second case: the end of the input where its table is not whole, else a break."""
        first, second = case(*self.one), case(*self.two)
        table = len(part(self.two[0]))
        for length in range(len(second)):
            self.says(first + second[:length], "1 cases agree\n" if length < table else "1 cases agree, then the input breaks off\n")

    def test_half_a_length(self):
        """The byte that is there is 0, which would be a whole length of its own."""
        first, table, question = case(*self.one), part(self.two[0]), part(self.two[1])
        self.says(first + b"\0", "1 cases agree\n")
        self.says(first + table + question + b"\0", "1 cases agree, then the input breaks off\n")

    def test_another_answer(self):
        table, question, answer = self.two
        for other in [answer[:-1], answer + b"\n", answer[:-2] + b"x\n", b""]:
            self.says(case(*self.one) + case(table, question, other) + case(*self.one), "1 cases agree, not case 1\n")

    def test_parts_of_full_length(self):
        full = 65535
        self.says(case(b"\t" * full, self.one[1], b"1 0 0 - 0\n"), "1 cases agree\n")
        self.says(case(b"", b"\t" * full, b"8 0 0 - 0\n"), "1 cases agree\n")
        self.says(case(b"", b"", b"8" * full), "0 cases agree, not case 0\n")


if __name__ == "__main__":
    if len(sys.argv) != 2 or sys.argv[1].startswith("-"):
        sys.exit(__doc__)
    Input.program = sys.argv.pop()
    unittest.main()
