#!/usr/bin/env python3
"""Tests that docs/FORMAT.md says what the program does, and that its tables are those of the sources.

    tests/format.py PROGRAM LOAD_PROGRAM

Each example of the page is one run of PROGRAM, and of LOAD_PROGRAM for a test load; what it prints is compared byte for byte. Examples
are

- the blocks marked `aura`. A line begins with the name of a field, an indented line goes on with the field above it, and `#` begins a
  comment. `table` and `question`, or `input` for all that PROGRAM reads, are bytes in hex: `-` is none, `XX*N` is N times the bytes XX.
  A table holds until the end of its block; without it there are no bytes. `prints` has the printed lines. `answer` and `diagnostics`
  behind it are what the C function writes; they are held against what was printed and the header's places;
- the questions of the blocks marked `aura-text`, in the form of tools/aura_text.py, with their answers. A block marked `aura` has each of
  them in bytes;
- the types in the table of kinds, each as a leaf;
- the blocks marked `aura-load`: `load` has the arguments of LOAD_PROGRAM, `writes` what it writes, in hex, which PROGRAM must not refuse;
  `refused` has the number that it says where it writes nothing.

The exit status is 1 where an example does not agree or cannot be read, where there is none, where none prints some number of a refusal
or some kind of a diagnostic, where a table of the page has not what the sources have (`sources`), and where a link inside the page leads
nowhere; also where a test of this test fails.
"""

import dataclasses
import pathlib
import re
import subprocess
import sys
import unittest

ROOT = pathlib.Path(__file__).resolve().parent.parent
sys.path.insert(0, str(ROOT / "tools"))
sys.dont_write_bytecode = True
import aura_text  # noqa: E402
import contracts  # noqa: E402
import replay  # noqa: E402

PAGE = "docs/FORMAT.md"
TYPES, DIAGNOSTICS, REFUSALS = "Kinds of types", "Kinds of diagnostics", "Numbers of refusals"
NOT_DRAWN = {"13", "15"}  # 13 by no input, 15 not by LOAD_PROGRAM, whose buffer is long enough
BLOCK = re.compile(r"^```([^\n]*)\n(.*?)^```$", re.S | re.M)
LEAF = bytes.fromhex("ffffffff00 00")


class Fault(Exception):
    """A line of the page, and what is wrong there."""

    def __str__(self):
        return "{}: {}".format(*self.args)


# The page

@dataclasses.dataclass
class Example:
    line: int
    given: bytes
    printed: str
    answer: bytes = None
    diagnostics: bytes = None
    text: bool = False


@dataclasses.dataclass
class Load:
    line: int
    asked: list
    written: bytes = b""
    number: str = "0"


def unhex(text):
    """The bytes that are written; `-` where there are none."""
    if not text.split():
        raise ValueError
    return replay.unhex(".".join(text.split()))


def fields(start, lines):
    """Line, name and lines of each field of a block."""
    out = []
    for number, line in enumerate(lines, start):
        line = line.partition("#")[0].rstrip()
        if line and line[0] != " ":
            name, _, line = line.partition(" ")
            out.append((number, name, []))
        if line.strip():
            if not out:
                raise Fault(number, "the name of a field is wanted")
            out[-1][2].append(line.strip())
    return out


def block_examples(start, lines):
    out, table, given = [], b"", None
    for number, name, parts in fields(start, lines):
        if (name == "prints") != (given is not None) and name not in ("answer", "diagnostics"):
            raise Fault(number, f"`{name}`, but there is no question" if given is None else f"`{name}` in place of `prints`")
        if name == "prints":
            out.append(Example(number, given, "\n".join(parts) + "\n"))
            given = None
            continue
        try:
            data = unhex(" ".join(parts))
        except ValueError:
            raise Fault(number, f"`{name}` has no bytes in hex") from None
        if name == "table":
            table = data
            if len(table) > 65535:
                raise Fault(number, "the program's input has no longer table than 65,535 bytes")
        elif name == "question":
            given = aura_text.word(len(table)) + table + data
        elif name == "input":
            given = data
        elif name in ("answer", "diagnostics") and out and given is None:
            setattr(out[-1], name, data)
        else:
            raise Fault(number, f"`{name}` has no meaning here")
    if given is not None:
        raise Fault(start + len(lines), "the end in place of `prints`")
    return out


def text_examples(start, lines):
    try:
        text = aura_text.Text("\n".join(lines))
        examples = [Example(start + question.number - 1, text.input(question), question.printed(), text=True) for question in text.questions]
    except aura_text.Fault as fault:
        raise Fault(start, fault) from None
    if not examples or any(example.printed is None for example in examples):
        raise Fault(start, "a question without an answer, or none")
    return examples


def load_examples(start, lines):
    out, asked = [], None
    for number, name, parts in fields(start, lines):
        if (name == "load") != (asked is None) or name not in ("load", "writes", "refused"):
            raise Fault(number, f"`{name}` has no meaning here")
        words = " ".join(parts)
        try:
            if name == "load":
                asked = words.split()
                continue
            out.append(Load(number, asked, unhex(words)) if name == "writes" else Load(number, asked, number=str(int(words))))
        except ValueError:
            raise Fault(number, f"`{name}` has not what it needs") from None
        asked = None
    if asked:
        raise Fault(start + len(lines), "the end in place of `writes`")
    return out


def type_end(data, at, sizes):
    """Where the type at `at` ends, by each kind's bytes of body and its children."""
    body, children = sizes[data[at]]
    count = data[at + 1] + 1 if children == "count + 1" else int(children)
    at += 1 + body
    for _ in range(count):
        at = type_end(data, at, sizes)
    return at


def type_example(line, cells, rows):
    try:
        data, words = unhex(cells[5].strip("`")), cells[6].strip("`")
        sizes = {int(kind): (int(body), children) for _, (kind, _, body, _, children, *_) in rows}
        whole = data[0] == int(cells[0]) and type_end(data, 0, sizes) == len(data)
        text, _ = aura_text.type_text(data, aura_text.BUILT_IN)
    except (ValueError, LookupError):
        raise Fault(line, "the example cannot be read as a type") from None
    if not whole:
        raise Fault(line, "the example is no type of this kind, as this table has it")
    if text != words:
        raise Fault(line, f"the example is {text}")
    return Example(line, bytes(2) + LEAF + data, f"0 {int(text != 'Error')} {len(data)} {data.hex()} 0\n")


def blocks_of(text, readers):
    """What is read in the blocks with some marks, and what is wrong with those that cannot be read."""
    out, faults = [], []
    for found in BLOCK.finditer(text):
        try:
            if found[1] in readers:
                out += readers[found[1]](text.count("\n", 0, found.start(2)) + 1, found[2].splitlines())
        except Fault as fault:
            faults.append(str(fault))
    return out, faults


def loads_of(text):
    return blocks_of(text, {"aura-load": load_examples})


def examples_of(text):
    """The examples that PROGRAM runs, and what is wrong with those that cannot be read."""
    out, faults = blocks_of(text, {"aura": block_examples, "aura-text": text_examples})
    inputs = [example.given for example in out if not example.text]
    faults += [f"{example.line}: no block has these bytes" for example in out if example.text and example.given not in inputs]
    rows = tables_of(text).get(TYPES, [])
    for line, cells in rows:
        try:
            out.append(type_example(line, cells, rows))
        except Fault as fault:
            faults.append(str(fault))
    return out, faults


def prose(text):
    """The page with its blocks blank."""
    return BLOCK.sub(lambda found: "\n" * found[0].count("\n"), text)


def tables_of(text):
    """section -> line and cells of each row of its tables."""
    out = {}
    for line, section, first, rest in contracts.rows(prose(text)):
        out.setdefault(section, []).append((line, [first, *(cell.strip() for cell in rest.split("|"))]))
    return out


# The sources

@dataclasses.dataclass
class Sources:
    tables: dict  # section -> the column of the names (None: number and name in turn), and number -> name
    places: list  # of an answer's fields, as `0` or `2 .. 3`
    size: int  # of an answer


def refusals_of(text):
    """number -> by whose doing, of refusal.rs"""
    words = dict(re.findall(r'Doer::(\w+) => "(.*?)"', text))
    arms = re.findall(r"(\d+)(?:\.\.=(\d+))? => Doer::(\w+)", text)
    other = re.search(r"_ => Doer::(\w+)", text)[1]
    numbers = re.findall(r"^    /// (\d+): ", text, re.M)
    doers = [next((doer for low, high, doer in arms if int(low) <= int(n) <= int(high or low)), other) for n in numbers]
    return {number: words[doer] for number, doer in zip(numbers, doers)}


def diagnostics_of(text):
    """kind -> words, of diagnostic.rs"""
    return dict(re.findall(r'^    (\d+) \w+ "(.*?)",$', text, re.M))


def answer_of(text):
    """place -> field, of the header's comment; and the answer's size"""
    return dict(re.findall(r"^ +(\d+(?: \.\. \d+)?) +(\w.*?)[:,]", text, re.M)), int(re.search(r"_ANSWER_SIZE (\d+)", text)[1])


def numbered(names, start=0):
    return {str(number): name for number, name in enumerate(names, start)}


def sources():
    def read(name):
        return (ROOT / name).read_text(encoding="utf-8")

    answer, size = answer_of(read("include/aura_judge.h"))
    return Sources({
        TYPES: (1, numbered(aura_text.KINDS)),
        "Built-in names": (None, numbered(aura_text.BUILT_IN)),
        "Kinds of records": (2, numbered(aura_text.RECORDS, 1)),
        "Visibilities": (1, numbered(aura_text.VISIBILITIES)),
        "Kinds of nodes": (2, numbered(aura_text.NODES)),
        "Binary operators": (None, numbered(aura_text.BINARY)),
        "Unary operators": (None, numbered(aura_text.UNARY)),
        DIAGNOSTICS: (1, diagnostics_of(read("aura-judge/src/diagnostic.rs"))),
        f"The answer in {size} bytes": (1, answer),
        REFUSALS: (1, refusals_of(read("aura-judge/src/refusal.rs"))),
    }, list(answer), size)


# What is wrong with the page

def table_faults(text, tables):
    out, said = [], tables_of(text)
    for section, (column, true) in tables.items():
        missing = dict(true)
        for line, cells in said.get(section, []):
            for number, name in zip(cells[::2], cells[1::2]) if column is None else [(cells[0], "".join(cells[column:column + 1]))]:
                name = name.strip("`")
                if (number or name) and true.get(number) != name:
                    out.append(f"{line}: {section}: {number} {name}, where the sources have {true.get(number, 'no such number')}")
                elif (number or name) and number not in missing:
                    out.append(f"{line}: {section}: {number} {name} stands a second time")
                missing.pop(number, None)
        if section not in said:
            out.append(f" {section}: there is no such table")
        else:
            out += [f" {section}: {number} {name} is missing" for number, name in missing.items()]
    return out


def link_faults(text):
    """Links to headings that the page does not have."""
    text = prose(text)
    headings = re.findall(r"^#+ (.*)$", text, re.M)
    anchors = {re.sub(r"[^\w -]", "", heading).lower().replace(" ", "-") for heading in headings}
    return [f" there is no heading #{link}" for link in re.findall(r"\]\(#(.*?)\)", text) if link not in anchors]


def not_shown(examples, loads, tables):
    """The numbers and kinds that no example prints."""
    lines = [example.printed.splitlines() for example in examples]
    shown = {REFUSALS: {first.split()[0] for first, *_ in lines} | {load.number for load in loads} | NOT_DRAWN,
             DIAGNOSTICS: {line.split()[0] for _, *others in lines for line in others}}
    return [f" {section}: no example prints {number}" for section in shown for number in tables[section][1] if number not in shown[section]]


def width(place):
    first, _, last = place.partition(" .. ")
    return int(last or first) - int(first) + 1


def written(printed, places):
    """What the C function writes where this is printed: the answer, and the diagnostics without what is behind them."""
    (number, mark, length, kind, count), *lines = [line.split() for line in printed.splitlines()]
    values = [int(value).to_bytes(width(place), "little") for place, value in zip(places, (number, mark, length, count))]
    kind = bytes.fromhex(kind.replace("-", "")).ljust(width(places[-1]), b"\0")
    records = [bytes([int(kind)]) + aura_text.word(int(node)) + aura_text.word(int(extra)) for kind, node, extra in lines]
    return b"".join(values) + kind, b"".join(records)


def example_faults(example, run, places):
    code, printed = run(example.given)
    if (code, printed) != (0, example.printed):
        return [f"{example.line}: the page has {example.printed!r}, printed is {printed!r} with exit status {code}"]
    out = []
    answer, records = written(printed, places)
    if example.answer not in (None, answer):
        out.append(f"{example.line}: the C function's answer is {answer.hex(' ')}")
    if example.diagnostics not in (None, records.ljust(len(example.diagnostics or b""), b"\0")):
        out.append(f"{example.line}: the C function's diagnostics are {records.hex(' ')}, then zeros")
    return out


def load_faults(load, run, run_load):
    code, written, said = run_load(load.asked)
    if load.number == "0":
        if (code, written, said) != (0, load.written, ""):
            return [f"{load.line}: the page has {load.written.hex()}, written is {written.hex()} with exit status {code}"]
        printed = run(bytes(2) + written)[1]
        return [] if printed.startswith("0 ") else [f"{load.line}: what is written is judged {printed!r}"]
    refused = not written and load.number in re.findall(r"\d+", said)
    return [] if refused else [f"{load.line}: not refused with {load.number}: {said!r}, written is {written.hex() or 'nothing'}"]


def findings(text, true, run, run_load):
    """How many examples there are, how many of them agree, and each fault of the page."""
    (examples, out), (loads, more) = examples_of(text), loads_of(text)
    out += more
    faults = [example_faults(example, run, true.places) for example in examples] + [load_faults(load, run, run_load) for load in loads]
    for some in faults:
        out += some
    if not examples:
        out.append(" there is no example")
    out += not_shown(examples, loads, true.tables) + table_faults(text, true.tables) + link_faults(text)
    return len(faults), faults.count([]), [f"{PAGE}:{fault}" for fault in out]


def runner(program):
    def run(given):
        done = subprocess.run([program], input=given, capture_output=True, check=False)
        return done.returncode, done.stdout.decode("utf-8", "replace")
    return run


def load_runner(program):
    def run_load(asked):
        done = subprocess.run([program, *asked], capture_output=True, check=False)
        return done.returncode, done.stdout, done.stderr.decode("utf-8", "replace")
    return run_load


# Tests of this test: a small page with one fault at a time, and this page with each row and each example changed

SMALL = """# Formats

See [Names](#names).

## Kinds of types

| kind | name | bytes | body | children | example | text |
|---|---|---|---|---|---|---|
| 0 | Int | 0 | | 0 | `00` | `Int` |
| 12 | Nullable | 0 | | 1 | `0C 00` | `Nullable(Int)` |

## Names

| id | name | id | name |
|---|---|---|---|
| 0 | Pair | 1 | List |
| 2 | Set | | |

## Numbers of refusals

| number | by |
|---|---|
| 2 | the table's writer |
| 13 | the judge |
| 14 | the caller |

## Kinds of diagnostics

| kind | words |
|---|---|
| 7 | bitwise |

## The answer in 6 bytes

| bytes | field |
|---|---|
| 0 | number |
| 1 | pass mark |
| 2 | length |
| 3 | count |
| 4 .. 5 | type |

```aura
table    09          # no record
question FFFFFFFF00  # a header
         00 00       # and a leaf
prints   2 0 0 - 0
```

```aura
question FF*4 00
         00 0D 00
prints   0 0 2 0d00 1
         7 1 258
answer   00 00 02 01 0D 00
diagnostics 07 01 00 02 01 00*3
input    -
prints   8 0 0 - 0
question FFFFFFFF00 0000
prints   0 1 1 00 0
```

```aura-text
question q
leaf Int
answer passed Int
```

```aura-load
load     5 1
writes   FFFFFFFF00 0000
load     5 0
refused  14
```
"""
TRUE = Sources({
    TYPES: (1, {"0": "Int", "12": "Nullable"}),
    "Names": (None, {"0": "Pair", "1": "List", "2": "Set"}),
    REFUSALS: (1, {"2": "the table's writer", "13": "the judge", "14": "the caller"}),
    DIAGNOSTICS: (1, {"7": "bitwise"}),
    "The answer in 6 bytes": (1, {"0": "number", "1": "pass mark", "2": "length", "3": "count", "4 .. 5": "type"}),
}, ["0", "1", "2", "3", "4 .. 5"], 6)
ANSWERS = {"010009ffffffff000000": "2 0 0 - 0\n", "0000ffffffff00000d00": "0 0 2 0d00 1\n7 1 258\n",
           "0000ffffffff000000": "0 1 1 00 0\n", "0000ffffffff00000c00": "0 1 2 0c00 0\n"}
LOADS = {"5 1": (0, bytes.fromhex("ffffffff000000"), ""), "5 0": (0, b"", "14: no such count"), "6 1": (0, bytes.fromhex("ffffffff000700"), "")}


def load(asked):
    return LOADS[" ".join(asked)]


class Small(unittest.TestCase):
    def finds(self, old, new, *faults, counts=None):
        """What is found in the small page with one change."""
        self.assertIn(old, SMALL)
        *found, lines = findings(SMALL.replace(old, new, 1), TRUE, lambda given: (0, ANSWERS.get(given.hex(), "8 0 0 - 0\n")), load)
        self.assertEqual(lines, [PAGE + ":" + fault for fault in faults])
        if counts:
            self.assertEqual(found, counts)

    def test_a_sound_page(self):
        self.finds("", "", counts=[9, 9])

    def test_a_wrong_byte(self):
        first = "47: the page has '2 0 0 - 0\\n', printed is '8 0 0 - 0\\n' with exit status 0"
        self.finds("table    09 ", "table    08 ", first, counts=[9, 8])
        self.finds("         00 00 ", "         00 01 ", first)
        self.finds("FF*4 00", "FF*5 00", "53: the page has '0 0 2 0d00 1\\n7 1 258\\n', printed is '8 0 0 - 0\\n' with exit status 0")
        self.finds("leaf Int", "leaf Long", "64: no block has these bytes",
                   "64: the page has '0 1 1 00 0\\n', printed is '8 0 0 - 0\\n' with exit status 0")
        self.finds("00 0000", "00 0001", "64: no block has these bytes",
                   "60: the page has '0 1 1 00 0\\n', printed is '8 0 0 - 0\\n' with exit status 0")

    def test_a_wrong_line(self):
        self.finds("prints   2 0", "prints   3 0", "47: the page has '3 0 0 - 0\\n', printed is '2 0 0 - 0\\n' with exit status 0",
                   " Numbers of refusals: no example prints 2")
        self.finds("         7 1 258\n", "", "53: the page has '0 0 2 0d00 1\\n', printed is '0 0 2 0d00 1\\n7 1 258\\n' with exit status 0",
                   " Kinds of diagnostics: no example prints 7")
        self.assertTrue(findings(SMALL, TRUE, lambda given: (1, ANSWERS.get(given.hex(), "8 0 0 - 0\n")), load)[2])

    def test_a_wrong_type(self):
        self.finds("| `00` |", "| `0C 00` |", "9: the example is no type of this kind, as this table has it", counts=[8, 8])
        self.finds("`0C 00`", "`0C 00 00`", "10: the example is no type of this kind, as this table has it")
        self.finds("`0C 00`", "`0C 0C 00`", "10: the example is Nullable(Nullable(Int))")
        self.finds("`0C 00`", "`0C`", "10: the example cannot be read as a type")
        self.finds("| 1 | `0C", "| 0 | `0C", "10: the example is no type of this kind, as this table has it")

    def test_wrong_bytes_of_the_c_function(self):
        self.finds("answer   00", "answer   01", "53: the C function's answer is 00 00 02 01 0d 00")
        self.finds("0D 00\ndiag", "0D 00 00\ndiag", "53: the C function's answer is 00 00 02 01 0d 00")
        self.finds("02 01 00*3", "01 02 00*3", "53: the C function's diagnostics are 07 01 00 02 01, then zeros")
        self.finds("02 01 00*3", "02", "53: the C function's diagnostics are 07 01 00 02 01, then zeros")

    def test_a_missing_name(self):
        self.finds("| 1 | List |", "| | |", " Names: 1 List is missing")
        self.finds("| 2 | Set | | |\n", "", " Names: 2 Set is missing")
        self.finds("| 2 | Set | | |", "| 2 | Set | 3 | Map |", "17: Names: 3 Map, where the sources have no such number")
        self.finds("| 2 | Set | | |", "| 2 | Set | 0 | Pair |", "17: Names: 0 Pair stands a second time")
        self.finds("| 1 | List |", "| 1 | Lisp |", "16: Names: 1 Lisp, where the sources have List")
        self.finds("## Names\n", "## Name\n", " Names: there is no such table", " there is no heading #names")

    def test_a_missing_kind_number_or_field(self):
        self.finds("| 12 | Nullable | 0 | | 1 | `0C 00` | `Nullable(Int)` |\n", "", " Kinds of types: 12 Nullable is missing")
        self.finds("| 7 | bitwise |", "| | |", " Kinds of diagnostics: 7 bitwise is missing")
        self.finds("| 7 |", "| 6 |", "31: Kinds of diagnostics: 6 bitwise, where the sources have no such number",
                   " Kinds of diagnostics: 7 bitwise is missing")
        self.finds("| 13 | the judge |\n", "", " Numbers of refusals: 13 the judge is missing")
        self.finds("| 2 | length |\n| 3 | count |", "| 3 | count |", " The answer in 6 bytes: 2 length is missing")
        self.finds("| 4 .. 5 |", "| 4 .. 6 |", "41: The answer in 6 bytes: 4 .. 6 type, where the sources have no such number",
                   " The answer in 6 bytes: 4 .. 5 type is missing")

    def test_examples_that_cannot_be_read(self):
        two = " Numbers of refusals: no example prints 2"
        self.finds("prints   2 0 0 - 0\n", "", "47: the end in place of `prints`", two, counts=[8, 8])
        self.finds("table    09", "tables   09", "44: `tables` has no meaning here", two)
        self.finds("table    09", "         09", "44: the name of a field is wanted", two)
        self.finds("table    09", "table    0x", "44: `table` has no bytes in hex", two)
        self.finds("table    09", "table    00*65536", "44: the program's input has no longer table than 65,535 bytes", two)
        self.finds("table    09", "question 09", "45: `question` in place of `prints`", two)
        rest = ["64: no block has these bytes", " Kinds of diagnostics: no example prints 7"]
        self.finds("input    -", "input", "57: `input` has no bytes in hex", *rest)
        self.finds("input    -\n", "\n", "58: `prints`, but there is no question", *rest)
        self.finds("answer passed Int\n", "", "64: a question without an answer, or none")
        self.finds("leaf Int", "leaf Ink", "64: line 2: `Ink` is neither a built-in name nor one of the table's (write `name Ink` above)")

    def test_a_wrong_load(self):
        self.finds("load     5 1", "load     6 1", "71: the page has ffffffff000000, written is ffffffff000700 with exit status 0", counts=[9, 8])
        self.finds("writes   FFFFFFFF00 0000", "writes   FFFFFFFF00 0700",
                   "71: the page has ffffffff000700, written is ffffffff000000 with exit status 0")
        self.finds("load     5 1\nwrites   FFFFFFFF00 0000", "load     6 1\nwrites   FFFFFFFF00 0700", "71: what is written is judged '8 0 0 - 0\\n'")
        self.finds("load     5 0", "load     5 1", "73: not refused with 14: '', written is ffffffff000000")
        self.finds("refused  14", "refused  15", "73: not refused with 15: '14: no such count', written is nothing",
                   " Numbers of refusals: no example prints 14")
        self.finds("writes   FFFFFFFF00 0000", "writes   -", "71: the page has , written is ffffffff000000 with exit status 0")

    def test_loads_that_cannot_be_read(self):
        gone = " Numbers of refusals: no example prints 14"
        self.finds("load     5 1\n", "", "70: `writes` has no meaning here", gone, counts=[7, 7])
        self.finds("writes   FFFFFFFF00 0000\n", "", "71: `load` has no meaning here", gone)
        self.finds("writes   FF", "writes   F", "71: `writes` has not what it needs", gone)
        self.finds("refused  14", "refused  -", "73: `refused` has not what it needs", gone)
        self.finds("refused  14", "prints   14", "73: `prints` has no meaning here", gone)
        self.finds("refused  14\n", "", "73: the end in place of `writes`", gone)

    def test_no_example(self):
        *counts, found = findings("# Formats\n\n| a |\n|---|\n| 1 |\n", TRUE, None, None)
        self.assertEqual(counts, [0, 0])
        self.assertIn(f"{PAGE}: there is no example", found)


class ThePage(unittest.TestCase):
    run_it = run_load = None

    def setUp(self):
        self.text, self.true = (ROOT / PAGE).read_text(encoding="utf-8"), sources()

    def test_the_sources_are_read_whole(self):
        for name, section, count in [("diagnostic", DIAGNOSTICS, r"ALL: \[\w+; (\d+)\]"), ("refusal", REFUSALS, r"ALL: \[\w+; (\d+)\]"),
                                     ("ty", TYPES, r"KINDS: \[&str; (\d+)\]")]:
            found = re.search(count, (ROOT / f"aura-judge/src/{name}.rs").read_text(encoding="utf-8"))
            self.assertEqual(len(self.true.tables[section][1]), int(found[1]), name)
        self.assertEqual(sum(map(width, self.true.places)), self.true.size)
        self.assertEqual(len(self.true.places), 5)

    def test_each_row_and_its_number_count(self):
        lines, tables = self.text.splitlines(), tables_of(self.text)
        for section in self.true.tables:
            for at, cells in tables[section]:
                for other in [], [lines[at - 1].replace(f"| {cells[0]} |", f"| {cells[0]}0 |", 1)]:
                    found = table_faults("\n".join(lines[:at - 1] + other + lines[at:]), self.true.tables)
                    self.assertTrue(found, f"{section}: {cells}")

    def test_each_example_counts(self):
        for example in examples_of(self.text)[0]:
            other = dataclasses.replace(example, printed=example.printed.replace("0", "1", 1))
            self.assertTrue(example_faults(other, ThePage.run_it, self.true.places), example)
        for load in loads_of(self.text)[0]:
            other = dataclasses.replace(load, asked=["1", *load.asked[1:]]) if load.written else dataclasses.replace(load, number="15")
            self.assertTrue(load_faults(other, ThePage.run_it, ThePage.run_load), load)


def main():
    if len(sys.argv) != 3 or sys.argv[1].startswith("-"):
        sys.exit(__doc__)
    ThePage.run_load = run_load = load_runner(sys.argv.pop())
    ThePage.run_it = run = runner(sys.argv.pop())
    tested = unittest.main(exit=False).result
    count, agree, found = findings((ROOT / PAGE).read_text(encoding="utf-8"), sources(), run, run_load)
    for line in found:
        print(line)
    print(f"format: {agree} of {count} examples agree, faults: {len(found)}" if found else f"format: {count} examples agree")
    sys.exit(bool(found) or not tested.wasSuccessful())


if __name__ == "__main__":
    main()
