#!/usr/bin/env python3
"""Tests tools/aura_text.py, and that the samples' bytes are what their text says.

    tests/text.py [PROGRAM]      with PROGRAM also that it answers the samples as the text says
"""

import itertools
import pathlib
import re
import subprocess
import sys
import unittest

ROOT = pathlib.Path(__file__).resolve().parent.parent
sys.path.insert(0, str(ROOT / "tools"))
sys.dont_write_bytecode = True
import aura_text  # noqa: E402
import replay  # noqa: E402

STORED = "answers.txt"  # the oracle's, in another form
SAMPLES = sorted(path for path in (ROOT / "samples").glob("*.txt") if path.name != STORED)
PROGRAM = None


def name_record(name):
    return bytes([1, len(name)]) + name.encode() + bytes(24 - len(name))


def names_of(data):
    """The names of a table."""
    names = []
    while data[:1] == b"\1":
        names.append(data[2:2 + data[1]])
        data = data[26:]
    return names


def table(text):
    return aura_text.Text(text).table


def question(text):
    return aura_text.Text("question q\n" + text).questions[0].bytes()


class Samples(unittest.TestCase):
    def test_the_bytes_are_what_the_text_says(self):
        self.assertEqual([sample.stem for sample in SAMPLES], ["mapsheet", "printable", "repair", "stamp", "words"])
        files = set()
        for sample in SAMPLES:
            text = aura_text.Text(sample.read_text(encoding="ascii"))
            for q in text.questions:
                file = sample.with_suffix(f".{q.name}.bin")
                files.add(file)
                self.assertEqual(file.read_bytes(), text.input(q), file.name)
                self.assertIsNotNone(q.printed(), f"{file.name} has no answer in the text")
        self.assertEqual(files, set((ROOT / "samples").glob("*.bin")))

    def test_the_program_answers_as_the_text_says(self):
        if PROGRAM is None:
            self.skipTest("no program named")
        for sample in SAMPLES:
            text = aura_text.Text(sample.read_text(encoding="ascii"))
            for q in text.questions:
                done = subprocess.run([PROGRAM], input=text.input(q), capture_output=True, check=True)
                self.assertEqual(done.stdout.decode(), q.printed(), q.name)


class BuiltIn(unittest.TestCase):
    def test_the_names_are_those_of_the_rust_crate(self):
        self.assertEqual(len(aura_text.BUILT_IN), 40)
        self.assertEqual([aura_text.BUILT_IN[i] for i in (0, 5, 6, 16, 28, 39)], "Pair Set plus ge set keys".split())
        self.assertEqual(aura_text.built_in('pub const BUILT_IN: [&str; 2] = ["a", "b"];\n'), ["a", "b"])
        for text in ["", 'pub const BUILT_IN: [&str; 2] = [\n    "a",\n];\n']:
            with self.assertRaises(SystemExit, msg=text):
                aura_text.built_in(text)


class Records(unittest.TestCase):
    def test_each_kind_of_record(self):
        names = "name A\nname B\nname p\n"
        start = table(names)
        self.assertEqual(start, name_record("A") + name_record("B") + name_record("p"))
        for line, record in [
            ("class A", "02 2800 ffff ffff ffff ffff 00"),
            ("class B extends A package p types", "02 2900 2800 ffff ffff 2a00 01"),
            ("class B extends A implements p, Pair package Set types", "02 2900 2800 2a00 0000 0500 01"),
            ("class B implements A", "02 2900 ffff 2800 ffff ffff 00"),
            ("class B implements , A types", "02 2900 ffff ffff 2800 ffff 01"),
            ("class B implements B, B package B", "02 2900 ffff 2900 2900 2900 00"),
            ("operators A plus ge", "03 2800 0104"),
            ("function A() -> Unit", "04 ffff 2800 00 00 00 0b"),
            ("function A.B(p: Int default, B: Any vararg) -> A private builtin",
             "04 2800 2900 03 01 02 112800 2a00 01 00 2900 02 09"),
            ("field A.p: Array(Int, 258)", "05 2800 2a00 0e 01 02010000 00"),
            ("visibility A.p internal", "06 2800 2a00 02"),
            ("suspend A", "07 ffff 2800"),
            ("suspend A.B", "07 2800 2900"),
            ("variant A.B", "08 2800 2900"),
        ]:
            self.assertEqual(table(names + line), start + bytes.fromhex(record), line)

    def test_a_table_both_ways(self):
        names = "name A\nname B\nname p\nname Int\nname implements\n"
        for line in [
            "class A", "class A types", "class A extends B", "class A package p types", "class A implements B", "class A implements B, p",
            "class A implements , B", "class A extends A implements , A package A types", "class implements implements implements",
            "class A extends B implements p, p package Pair types", "operators A", "operators A plus minus times div mod eq ne lt gt le ge",
            "function A() -> Unit", "function A.B(p: Named(Int) default vararg, B: Array(A, 4294967296) vararg) -> Named(Int) internal builtin",
            "field A.p: Function(Int, A -> Nullable(B))", "visibility A.p public", "visibility A.p private", "suspend A", "suspend A.B",
            "variant A.B",
        ]:
            self.assertEqual(aura_text.table_text(table(names + line)), names + line + "\n")
        for sample in SAMPLES:
            data = aura_text.Text(sample.read_text(encoding="ascii")).table
            self.assertEqual(table(aura_text.table_text(data)), data, sample.name)

    def test_every_class_record_both_ways(self):
        """Each of its fields with none or a name, and both flags."""
        ids = [bytes([255, 255]), bytes([40, 0]), bytes([0, 0])]
        for parents in itertools.product(ids, repeat=4):
            for flag in [0, 1]:
                data = name_record("A") + bytes([2, 40, 0]) + b"".join(parents) + bytes([flag])
                self.assertEqual(table(aura_text.table_text(data)), data)

    def test_the_tables_of_the_stored_answers_both_ways(self):
        """Each of at most 2,000 bytes that is accepted; the form has not every letter that a name may have."""
        said = 0
        for case, data, _, answer in replay.text_cases():
            if len(data) <= 2000 and not 1 <= int(answer.split()[0]) <= 7:
                if all(re.fullmatch(rb"[A-Za-z0-9_$]+", name) for name in names_of(data)):
                    self.assertEqual(table(aura_text.table_text(data)), data, case)
                    said += 1
                else:
                    self.no_table(data, "at byte ")
        self.assertGreater(said, 5000)

    def test_a_table_that_the_form_cannot_say(self):
        for data in ["09", "02 0600 ffff ffff 00", "02 0600 ffff ffff ffff ffff", "02 0600 ffff ffff ffff ffff 02", "02 ffff ffff ffff ffff ffff 00",
                     "02 2900 ffff ffff ffff ffff 00", "03 0600 0008", "05 ffff 0600 00", "05 0600 0600 17", "06 0600 0600 04", "07 0600 ffff"]:
            for front in [b"", name_record("A")]:
                self.no_table(front + bytes.fromhex(data), f"at byte {len(front)} of the table stands no record that this form can say")
        self.no_table(name_record("A") + name_record("A-B"), "at byte 26 of the table")
        self.no_table(bytes([1, 1]) + b"AB" + bytes(22), "at byte 0 of the table")

    def no_table(self, data, fault):
        with self.assertRaises(aura_text.Fault, msg=data.hex(" ")) as raised:
            aura_text.table_text(data)
        self.assertTrue(str(raised.exception).startswith(fault), f"{data.hex(' ')}: {raised.exception}")

    def test_the_table_of_an_input(self):
        text = aura_text.Text((ROOT / "samples/printable.txt").read_text(encoding="ascii"))
        command = [sys.executable, str(ROOT / "tools/aura_text.py"), str(ROOT / "samples/printable.scan.bin"), "--table"]
        done = subprocess.run(command, capture_output=True, text=True, check=True)
        self.assertEqual(table(done.stdout), text.table)
        self.assertIn("\nclass Receipt implements Signed, Printable package plugin types\n", done.stdout)
        self.assertEqual(aura_text.table_of(b"\0\0\7"), b"")
        for data in [b"", b"\0", b"\1\0", b"\0\1" + bytes(255)]:
            with self.assertRaises(aura_text.Fault):
                aura_text.table_of(data)

    def test_the_table_of_an_input_of_before(self):
        older = name_record("A") + bytes.fromhex("02 2800 ffff ffff 01  02 0600 2800 0500 00  05 0600 1600 04")
        new = name_record("A") + bytes.fromhex("02 2800 ffff ffff ffff ffff 01  02 0600 2800 ffff ffff 0500 00  05 0600 1600 04")
        self.assertEqual(aura_text.anew(older), new)
        hint = "; its class records are those of before, without interfaces: renew/ writes it anew"
        for sample in sorted((ROOT / "renew/tests/older").glob("*.bin")):
            self.no_input(sample.read_bytes(), hint)
            self.assertEqual(aura_text.anew(aura_text.table_of(sample.read_bytes())), aura_text.table_of((ROOT / "samples" / sample.name).read_bytes()))
        self.no_input(len(older).to_bytes(2, "little") + older, hint)
        for table in [b"\2", older + b"\t", new + b"\t", older[:-1], new[:-1]]:
            self.no_input(len(table).to_bytes(2, "little") + table, "stands no record that this form can say")

    def no_input(self, data, end):
        with self.assertRaises(aura_text.Fault, msg=data.hex(" ")) as raised:
            aura_text.input_text(data)
        self.assertTrue(str(raised.exception).endswith(end), f"{data.hex(' ')}: {raised.exception}")

    def test_one_way_at_a_time(self):
        ways = ["--check", "--read", "--table", "--run /bin/true"]
        for one, other in itertools.permutations(ways, 2):
            command = [sys.executable, str(ROOT / "tools/aura_text.py"), str(ROOT / "samples/printable.txt"), *one.split(), *other.split()]
            done = subprocess.run(command, capture_output=True, text=True, check=False, stdin=subprocess.DEVNULL)
            self.assertEqual((done.returncode, done.stdout), (2, ""), command)
            self.assertIn("not allowed with argument", done.stderr)

    def test_each_kind_of_type_both_ways(self):
        for text, data in [
            *((kind, f"{number:02x}") for number, kind in enumerate(aura_text.KINDS) if number < 12 or number == 21),
            ("Nullable(Int)", "0c00"), ("Pointer(Int)", "0d00"), ("Array(Char)", "0e000000000007"),
            ("Array(Char, 3)", "0e010300000007"), ("List(Int)", "0f00"), ("Map(Int, String)", "100008"),
            ("Array(Char, 4294967296)", "1601000000000100000007"),
            ("Pair", "110000"), ("Named(List)", "110100"), ("Function(-> Unit)", "12000b"),
            ("Function(Int, Long -> Unit)", "120200010b"), ("TypeVar(4294967295)", "13ffffffff"), ("Module(keys)", "142700"),
        ]:
            self.both_ways(text, data)

    def both_ways(self, text, data):
        self.assertEqual(question("leaf " + text), bytes.fromhex("ffffffff0000" + data), text)
        self.assertEqual(aura_text.type_text(bytes.fromhex(data), aura_text.BUILT_IN), (text, b""))

    def test_a_size_decides_the_kind_of_an_array(self):
        for size, front in [(0, "0e0100000000"), (1, "0e0101000000"), (2**32 - 1, "0e01ffffffff"), (2**32, "16010000000001000000"),
                            (2**32 + 1, "16010100000001000000"), (2**63, "16010000000000000080"), (2**64 - 1, "1601ffffffffffffffff")]:
            self.both_ways(f"Array(Char, {size})", front + "07")
            self.both_ways(f"Array(Array(Char), {size})", front + "0e000000000007")
            self.both_ways(f"List(Array(Array(Char, {size}), 4294967296))", "0f16010000000001000000" + front + "07")
            self.assertEqual(question(f"leaf Array(Char, 000{size})"), bytes.fromhex(f"ffffffff0000{front}07"))

    def test_another_spelling_of_a_size_is_refused(self):
        for data in ["0e000100000007", "0e020000000007", "0eff0100000007", "1601ffffffff0000000007", "1601010000000000000007",
                     "1600000000000000000007", "1600000000000100000007", "1602000000000100000007", "16ff000000000100000007", "17"]:
            self.refused(data)
        for data in ["0e010300000007", "1601000000000100000007"]:
            for end in range(0, len(data), 2):
                self.refused(data[:end])

    def refused(self, data):
        for around in ["", "0f", "1200", "0e0000000000", "16010000000001000000"]:
            with self.assertRaises((ValueError, IndexError), msg=around + data):
                aura_text.type_text(bytes.fromhex(around + data), aura_text.BUILT_IN)

    def test_an_answer_is_read_with_its_size(self):
        for data, text in [("0e01ffffffff07", "Array(Char, 4294967295)"), ("1601000000000100000007", "Array(Char, 4294967296)")]:
            self.assertEqual(self.read(data), (0, f"passed: {text}\n", ""))
        fault = f"{ROOT}/samples/mapsheet.txt: standard input is not what the program prints under this table\n"
        for data in ["0e020300000007", "0e000300000007", "1602000000000100000007", "1601ffffffff0000000007", "16010000000001000000", "17"]:
            self.assertEqual(self.read(data), (1, "", fault), data)

    def read(self, data):
        """What the tool makes of an answer with this type."""
        command = [sys.executable, str(ROOT / "tools/aura_text.py"), str(ROOT / "samples/mapsheet.txt"), "--read"]
        done = subprocess.run(command, input=f"0 1 {len(data) // 2} {data} 0\n", capture_output=True, text=True, check=False)
        return done.returncode, done.stdout, done.stderr


class Questions(unittest.TestCase):
    def test_each_kind_of_node(self):
        for text, data in [
            ("binary As\n leaf Int\n leaf Long", "0116 0000 0001"),
            ("unary NotNull\n leaf Int", "0206 0000"),
            ("named size\n leaf Int", "031600 0000"),
            ("member size\n leaf Int", "041600 0000"),
            ("call size", "051600 00"),
            ("call size\n leaf Int\n call keys\n  leaf Long\n leaf Char", "051600 03 0000 05270001 0001 0007"),
            ("method size\n leaf Int", "061600 00 0000"),
            ("method size\n leaf Int\n leaf Long", "061600 01 0000 0001"),
        ]:
            self.assertEqual(question(text), bytes.fromhex("ffffffff00" + data), text)

    def test_the_header(self):
        text = aura_text.Text("question q current Pair package List suspend\nleaf Int")
        self.assertEqual(text.questions[0].bytes(), bytes.fromhex("0000 0100 01 0000"))

    def test_answers_in_words(self):
        for printed, words in [
            ("0 1 1 00 0\n", "passed: Int\n"),
            ("0 0 1 15 1\n19 3 2\n", "not passed: Error\n  node 3: tie (2)\n"),
            ("7 0 0 - 0\n", "refused with 7, by the doing of the table's writer\n"),
            ("8 0 0 - 0\n", "refused with 8, by the doing of the script's author\n"),
            ("12 0 0 - 0\n", "refused with 12, by the doing of the caller\n"),
        ]:
            self.assertEqual(aura_text.answer_text(printed, aura_text.BUILT_IN), words)


class Faults(unittest.TestCase):
    def test_each_fault_says_its_line(self):
        for text, fault in [
            ("name A\nclass Q", "line 2: `Q` is neither a built-in name nor one of the table's"),
            ("name " + "A" * 25, "line 1: name `AAAAAAAAAAAAAAAAAAAAAAAAA` has more than 24 letters"),
            ("nam A", "line 1: `nam` begins no line"),
            ("field Pair: Int", "line 1: OWNER.NAME is wanted"),
            ("field Pair.size Int", "line 1: `:` is wanted where `Int` stands"),
            ("field Pair.size: List(Int", "line 1: `)` is missing at the end of the line"),
            ("class Pair types 3", "line 1: `3` is too much on this line"),
            ("name A\nclass Pair implements A, A, A", "line 2: a class has at most two interfaces"),
            ("class Pair implements , Set, List", "line 1: a class has at most two interfaces"),
            ("class Pair implements Set,", "line 1: the name behind `,` is missing"),
            ("class Pair implements ,", "line 1: the name behind `,` is missing"),
            ("class Pair implements , , Set", "line 1: the name behind `,` is missing"),
            ("class Pair implements Set implements List", "line 1: `implements` stands twice or too late; the parts of a class are, in this order: "
             "extends implements package types"),
            ("class Pair extends implements Set", "line 1: the name behind `extends` is missing"),
            ("class Pair extends", "line 1: the name behind `extends` is missing"),
            ("class Pair implements", "line 1: the name behind `implements` is missing"),
            ("class Pair implements package Set", "line 1: the name behind `implements` is missing"),
            ("class Pair implements Set, types", "line 1: the name behind `,` is missing"),
            ("class Pair package types", "line 1: the name behind `package` is missing"),
            ("class Pair implements Set List", "line 1: `List` is too much on this line; a comma stands between two interfaces"),
            ("class Pair implements Set Q", "line 1: `Q` is too much on this line"),
            ("class Pair implements Set, List Map", "line 1: `Map` is too much on this line"),
            ("question q current\nleaf Int", "line 1: the name behind `current` is missing"),
            ("question q current package Set\nleaf Int", "line 1: the name behind `current` is missing"),
            ("class Pair implements Set extends List", "line 1: `extends` stands twice or too late"),
            ("class Pair package Set implements List", "line 1: `implements` stands twice or too late"),
            ("class Pair types package Set", "line 1: `package` stands twice or too late"),
            ("class Pair types types", "line 1: `types` stands twice or too late"),
            ("name A\nclass Pair implements Q", "line 2: `Q` is neither a built-in name nor one of the table's"),
            ("name A\nclass Pair implements A, Q", "line 2: `Q` is neither a built-in name nor one of the table's"),
            ("visibility Pair.size hidden", "line 1: visibility `hidden` is none of: public protected internal private"),
            ("name A-B", "line 1: `-` has no meaning here"),
            ("leaf Int", "line 1: `leaf` stands before any question"),
            ("question q\nname A", "line 2: records stand before the first question"),
            ("question q\nbinary Plus\n leaf Int", "line 2: operator `Plus` is none of: Add"),
            ("question q\nleaf Int\nleaf Int", "line 3: a question has one root"),
            ("question q\nbinary Add\n  leaf Int\n leaf Int", "line 4: children of one node are indented by the same"),
            ("question q\nbinary Add\n  leaf Int", "line 2: binary has 2 below it, not 1"),
            ("question q\nmethod size", "line 2: a method call has its object below it"),
            ("question q", "line 1: question q has no node"),
            ("question q\nleaf Int\nquestion q", "line 3: there is a question q above"),
            ("question q\nleaf TypeVar(4294967296)", "line 2: a type variable is a number from 0 to 4294967295"),
            ("question q\nleaf Array(Int, 18446744073709551616)",
             "line 2: an array's size is a number from 0 to 18446744073709551615, not `18446744073709551616`"),
            ("field Pair.size: Array(Int, 99999999999999999999999)", "line 1: an array's size is a number from 0 to 18446744073709551615"),
            ("question q\nleaf Array(Int, " + "9" * 5000 + ")", "line 2: an array's size is a number from 0 to 18446744073709551615"),
            ("question q\nleaf Array(Int, 4294967296, 1)", "line 2: `)` is wanted where `,` stands"),
            ("question q\nleaf Array(Int, -1)", "line 2: `-` has no meaning here"),
            ("question q\nleaf Array(Int, 2.5)", "line 2: `)` is wanted where `.` stands"),
            ("question q\nleaf Array(Int, 0x10)", "line 2: an array's size is a number from 0 to 18446744073709551615, not `0x10`"),
            ("question q\nleaf Array(Int, Int)", "line 2: an array's size is a number from 0 to 18446744073709551615, not `Int`"),
            ("question q\nleaf Array(Int, )", "line 2: an array's size is wanted where `)` stands"),
            ("question q\nleaf Array(Int,", "line 2: an array's size is missing at the end of the line"),
            ("question q\nleaf Array(4294967296)", "line 2: `4294967296` is neither a built-in name nor one of the table's"),
        ]:
            with self.assertRaises(aura_text.Fault, msg=text) as raised:
                read = aura_text.Text(text)
                [q.bytes() for q in read.questions]
            self.assertTrue(str(raised.exception).startswith(fault), f"{text!r}: {raised.exception}")


if __name__ == "__main__":
    if len(sys.argv) > 1 and not sys.argv[1].startswith("-"):
        PROGRAM = sys.argv.pop(1)
    unittest.main()
