#!/usr/bin/env python3
"""Tests the program `aura_load` beside the words of document 02, order 1, for good arguments and for bad ones.

    tests/load_program.py PROGRAM
"""

import random
import subprocess
import sys
import unittest

HEADER = bytes.fromhex("FFFFFFFF00")
BAD_COUNT = "aura_load: 14: the node count is not 1 to 64\n"
USAGE = "usage: aura_load START NODES (two numbers in decimal, START at most 4294967295)\n"


class Draws:
    def __init__(self, start):
        self.state = start

    def draw(self, n):
        """Each draw sets state to state × 1,664,525 + 1,013,904,223 modulo 2^32 and takes (state div 65,536) modulo n."""
        self.state = (self.state * 1_664_525 + 1_013_904_223) % 2**32
        return self.state // 65_536 % n


def tree(draws, nodes):
    """One node left: leaf, kind by n = 12. Two: unary. More: n = 2, 0 unary, 1 binary. The operator is drawn next (7 or 23); for a
    binary with k nodes the left side has 1 plus a draw of n = k − 2, the right the rest; left is written first."""
    if nodes == 1:
        return bytes([0, draws.draw(12)])
    if nodes == 2 or draws.draw(2) == 0:
        return bytes([2, draws.draw(7)]) + tree(draws, nodes - 1)
    operator = draws.draw(23)
    left = 1 + draws.draw(nodes - 2)
    first = tree(draws, left)
    return bytes([1, operator]) + first + tree(draws, nodes - 1 - left)


def question(start, nodes):
    return HEADER + tree(Draws(start), nodes)


class Program(unittest.TestCase):
    program = None

    def says(self, arguments, out, err):
        done = subprocess.run([Program.program, *arguments], stdin=subprocess.DEVNULL, capture_output=True, check=False)
        self.assertEqual((done.returncode, done.stdout, done.stderr.decode()), (0, out, err), arguments)

    def test_questions(self):
        """Every node count, each with start numbers at the ends and with some others."""
        some = random.Random(1)
        for nodes in range(1, 65):
            for start in [0, 1, 2**31, 2**32 - 1, *(some.randrange(2**32) for _ in range(8))]:
                written = question(start, nodes)
                self.assertEqual(len(written), 5 + 2 * nodes)
                self.says([str(start), str(nodes)], written, "")

    def test_zeros_before_a_number(self):
        self.says(["0007", "0" * 30 + "64"], question(7, 64), "")

    def test_node_counts(self):
        for nodes in [0, 65, 66, 255, 256, 2**16 + 1, 2**32 - 1, 2**32, 2**32 + 1, 2**64, 2**64 + 1, 10**31]:
            self.says(["7", str(nodes)], b"", BAD_COUNT)

    def test_start_numbers(self):
        for start in [2**32, 2**32 + 1, 2**33, 10 * 2**32, 2**64, 2**64 + 7, 10**31]:
            self.says([str(start), "5"], b"", USAGE)

    def test_no_numbers(self):
        for text in ["", " ", "x", "-1", "+1", "1 ", " 1", "1.0", "0x1", "1/", "1:", "1e1", "１", "0" * 32 + "1"]:
            self.says([text, "5"], b"", USAGE)
            self.says(["5", text], b"", USAGE)

    def test_how_many_arguments(self):
        for arguments in [[], ["1"], ["1", "2", "3"], ["1", "2", ""]]:
            self.says(arguments, b"", USAGE)


if __name__ == "__main__":
    if len(sys.argv) != 2 or sys.argv[1].startswith("-"):
        sys.exit(__doc__)
    Program.program = sys.argv.pop()
    unittest.main()
