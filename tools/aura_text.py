#!/usr/bin/env python3
"""Turns a table and questions written as text into bytes.

    tools/aura_text.py FILE.txt            writes FILE.QUESTION.bin beside it for each question
    tools/aura_text.py FILE.txt --check    says whether those files are what the text says, and writes none
    tools/aura_text.py FILE.txt --run PROGRAM
                                           runs PROGRAM on each question and compares with the answer in the text
    tools/aura_text.py FILE.txt --read < ANSWER
                                           says in the text's words what PROGRAM printed
    tools/aura_text.py FILE.bin --table    says in this form the table at the front of FILE.bin, which is a program's input

The bytes are what the program reads: a 2-byte table length, the table, the question. One record or node stands on a
line; `#` begins a comment. Names are written, not their ids; a name has letters, digits, `_` and `$`.

    name WORD
    class NAME [extends NAME] [implements NAME[, NAME]] [package NAME] [types]
                                           the first interface alone, both, or (`implements , NAME`) the second alone
    operators NAME plus minus times div mod eq ne lt gt le ge            (those that the class has)
    function [OWNER.]NAME(NAME: TYPE [default] [vararg], ..) -> TYPE [public|protected|internal|private] [builtin]
    field OWNER.NAME: TYPE
    visibility OWNER.NAME public|protected|internal|private
    suspend [OWNER.]NAME
    variant OWNER.NAME

    question WORD [current NAME] [package NAME] [suspend]
    leaf TYPE | binary OPERATOR | unary OPERATOR | named NAME | member NAME | call NAME | method NAME
                                           a node; its children follow, each indented by the same and by more than it
    answer passed TYPE | answer reported TYPE | answer refused NUMBER
    diagnostic KIND NODE NUMBER

TYPE is Int, Long, Short, Byte, Float, Double, Boolean, Char, String, Any, Nothing, Unit, Error, Nullable(TYPE),
Pointer(TYPE), Array(TYPE), Array(TYPE, SIZE), List(TYPE), Map(TYPE, TYPE), Function(TYPE, .. -> TYPE), TypeVar(NUMBER),
Module(NAME), or a name for a Named type; Named(NAME) where the name is one of these words. SIZE and NUMBER are decimal; a
SIZE is at most 2^64 - 1, and from 2^32 on it makes the Array one of kind 22.

Records are written in the text's order and nothing is checked that the judge checks: what it refuses can be written.
"""

import argparse
import pathlib
import re
import subprocess
import sys

# The built-in names are those of the Rust crate, which the oracle takes too.
SPELLINGS = pathlib.Path(__file__).resolve().parent.parent / "aura-judge/src/spellings.rs"


def built_in(text):
    """The strings of `BUILT_IN: [&str; N] = [..];`, N of them."""
    found = re.search(r"BUILT_IN: \[&str; (\d+)\] = \[(.*?)\];", text, re.S)
    names = re.findall(r'"([^"]*)"', found[2]) if found else []
    if not found or len(names) != int(found[1]):
        sys.exit(f"{SPELLINGS}: the built-in names are not there")
    return names


BUILT_IN = built_in(SPELLINGS.read_text(encoding="ascii"))
# By number; the last is an Array with a size of 8 bytes.
KINDS = """Int Long Short Byte Float Double Boolean Char String Any Nothing Unit Nullable Pointer Array List Map Named
Function TypeVar Module Error Array""".split()
ARRAY, LARGE_ARRAY = (number for number, kind in enumerate(KINDS) if kind == "Array")
LARGE_SIZE = 2**32  # the smallest size of 8 bytes
WITH_BODY = {"Array", "Named", "Function", "TypeVar", "Module"}
CHILDREN = {"Nullable": 1, "Pointer": 1, "List": 1, "Map": 2}
BINARY = """Add Sub Mul Div Mod Eq Ne Lt Gt Le Ge And Or BitAnd BitOr BitXor Shl Shr UShr Assign To Is As""".split()
UNARY = "Minus Not Increment Decrement AddrOf Dereference NotNull".split()
VISIBILITIES = "public protected internal private".split()
NONE = 65535
TOKEN = re.compile(r"\s*(?:([A-Za-z0-9_$]+)|(->|[().,:]))")


class Fault(Exception):
    """What is wrong with the text."""


def word(number):
    return number.to_bytes(2, "little")


class Line:
    """The words and signs of a line, taken one by one."""

    def __init__(self, number, text):
        self.number = number
        self.indent = len(text) - len(text.lstrip(" "))
        self.tokens = []
        text = text.rstrip()
        at = 0
        while at < len(text):
            found = TOKEN.match(text, at)
            if not found:
                raise Fault(f"`{text[at:].strip()[0]}` has no meaning here")
            self.tokens.append(found.group(1) or found.group(2))
            at = found.end()
        self.at = 0

    def peek(self):
        return self.tokens[self.at] if self.at < len(self.tokens) else None

    def take(self, what):
        token = self.peek()
        if token is None:
            raise Fault(f"{what} is missing at the end of the line")
        self.at += 1
        return token

    def word(self, what):
        token = self.take(what)
        if not re.match(r"[A-Za-z0-9_$]", token):
            raise Fault(f"{what} is wanted where `{token}` stands")
        return token

    def sign(self, sign):
        token = self.take(f"`{sign}`")
        if token != sign:
            raise Fault(f"`{sign}` is wanted where `{token}` stands")

    def maybe(self, token):
        if self.peek() != token:
            return False
        self.at += 1
        return True

    def number_below(self, limit, what):
        token = self.word(what)
        digits = token.lstrip("0") or "0"
        if not token.isdigit() or len(digits) > len(str(limit)) or int(digits) >= limit:
            raise Fault(f"{what} is a number from 0 to {limit - 1}, not `{token}`")
        return int(digits)

    def one_of(self, words, what):
        token = self.word(what)
        if token not in words:
            raise Fault(f"{what} `{token}` is none of: {' '.join(words)}")
        return words.index(token)

    def end(self):
        if self.peek() is not None:
            raise Fault(f"`{self.peek()}` is too much on this line")


class Names:
    """Names by id: the 40 built-in ones, then the table's."""

    def __init__(self):
        self.names = list(BUILT_IN)

    def add(self, name):
        if len(name) > 24:
            raise Fault(f"name `{name}` has more than 24 letters")
        self.names.append(name)

    def id(self, line, what="a name"):
        name = line.word(what)
        if name not in self.names:
            raise Fault(f"`{name}` is neither a built-in name nor one of the table's (write `name {name}` above)")
        return word(self.names.index(name))

    def behind(self, line, keyword, keywords):
        """The id of the name behind a keyword, where one of the keywords may follow."""
        if line.peek() in (None, *keywords) and line.peek() not in self.names:
            raise Fault(f"the name behind `{keyword}` is missing")
        return self.id(line)

    def optional(self, line, keyword, keywords):
        """[keyword NAME] as an id."""
        return self.behind(line, keyword, keywords) if line.maybe(keyword) else word(NONE)

    def interfaces(self, line):
        """[implements [NAME][, NAME]] as two ids; one at least is named."""
        if not line.maybe("implements"):
            return 2 * word(NONE)
        first = word(NONE) if line.peek() == "," else self.behind(line, "implements", CLASS_PARTS)
        second = self.behind(line, ",", [",", *CLASS_PARTS]) if line.maybe(",") else word(NONE)
        if line.peek() == ",":
            raise Fault("a class has at most two interfaces")
        if line.peek() in self.names and line.peek() not in CLASS_PARTS and second == word(NONE):
            raise Fault(f"`{line.peek()}` is too much on this line; a comma stands between two interfaces")
        return first + second

    def member(self, line, owner_needed=True):
        """[OWNER.]NAME as two ids."""
        first = self.id(line)
        if line.maybe("."):
            return first + self.id(line)
        if owner_needed:
            raise Fault("OWNER.NAME is wanted")
        return word(NONE) + first

    def type(self, line):
        kind = line.peek()
        if kind not in KINDS:
            return bytes([KINDS.index("Named")]) + self.id(line, "a type")
        line.take("a type")
        out = bytes([KINDS.index(kind)])
        if kind not in WITH_BODY and kind not in CHILDREN:
            return out
        line.sign("(")
        if kind in CHILDREN:
            out += self.type(line)
            if CHILDREN[kind] == 2:
                line.sign(",")
                out += self.type(line)
        elif kind in ("Named", "Module"):
            out += self.id(line)
        elif kind == "TypeVar":
            out += line.number_below(2**32, "a type variable").to_bytes(4, "little")
        elif kind == "Array":
            inner = self.type(line)
            out = array(line.number_below(2**64, "an array's size") if line.maybe(",") else None) + inner
        else:
            out += self.function_type(line)
        line.sign(")")
        return out

    def function_type(self, line):
        """TYPE, .. -> TYPE"""
        params = []
        while not line.maybe("->"):
            if params:
                line.sign(",")
            params.append(self.type(line))
        return count(params, "parameters") + b"".join(params) + self.type(line)


def array(size):
    """The kind and the body of an Array: the size decides the kind, so that it has one spelling."""
    if size is not None and size >= LARGE_SIZE:
        return bytes([LARGE_ARRAY, 1]) + size.to_bytes(8, "little")
    return bytes([ARRAY, size is not None]) + (size or 0).to_bytes(4, "little")


def count(items, what):
    if len(items) > 255:
        raise Fault(f"{len(items)} {what} are more than a byte can count")
    return bytes([len(items)])


# Records

CLASS_PARTS = "extends implements package types".split()


def class_record(names, line):
    name = names.id(line)
    superclass = names.optional(line, "extends", CLASS_PARTS)
    interfaces = names.interfaces(line)
    package = names.optional(line, "package", CLASS_PARTS)
    out = bytes([2]) + name + superclass + interfaces + package + bytes([line.maybe("types")])
    if line.peek() in CLASS_PARTS:
        raise Fault(f"`{line.peek()}` stands twice or too late; the parts of a class are, in this order: {' '.join(CLASS_PARTS)}")
    return out


def operator_record(names, line):
    operators = BUILT_IN[6:17]
    name = names.id(line)
    mask = 0
    while line.peek() is not None:
        mask |= 1 << line.one_of(operators, "operator")
    return bytes([3]) + name + word(mask)


def function_record(names, line):
    key = names.member(line, owner_needed=False)
    line.sign("(")
    params = []
    while not line.maybe(")"):
        if params:
            line.sign(",")
        name = names.id(line)
        line.sign(":")
        kind = names.type(line)
        flag = line.maybe("default") + 2 * line.maybe("vararg")
        params.append(name + bytes([flag]) + kind)
    line.sign("->")
    result = names.type(line)
    visibility = line.one_of(VISIBILITIES, "visibility") if line.peek() in VISIBILITIES else 0
    builtin = line.maybe("builtin")
    return bytes([4]) + key + bytes([visibility, builtin]) + count(params, "parameters") + result + b"".join(params)


def field_record(names, line):
    key = names.member(line)
    line.sign(":")
    return bytes([5]) + key + names.type(line)


def record(kind, names, line):
    if kind == "name":
        name = line.word("a name")
        names.add(name)
        return bytes([1, len(name)]) + name.encode("ascii").ljust(24, b"\0")
    if kind == "visibility":
        return bytes([6]) + names.member(line) + bytes([line.one_of(VISIBILITIES, "visibility")])
    if kind == "suspend":
        return bytes([7]) + names.member(line, owner_needed=False)
    if kind == "variant":
        return bytes([8]) + names.member(line)
    write = {"class": class_record, "operators": operator_record, "function": function_record, "field": field_record}
    return write[kind](names, line)


RECORDS = "name class operators function field visibility suspend variant".split()
NODES = "leaf binary unary named member call method".split()
FIXED_CHILDREN = {"leaf": 0, "binary": 2, "unary": 1, "named": 1, "member": 1}


class Node:
    """A node's own bytes and its children."""

    def __init__(self, kind, names, line):
        self.line, self.kind, self.children = line, kind, []
        if kind == "leaf":
            self.body = names.type(line)
        elif kind in ("binary", "unary"):
            self.body = bytes([line.one_of(BINARY if kind == "binary" else UNARY, "operator")])
        else:
            self.body = names.id(line)

    def bytes(self):
        wanted, there = FIXED_CHILDREN.get(self.kind), len(self.children)
        if wanted is not None and there != wanted:
            raise Fault(f"line {self.line.number}: {self.kind} has {wanted} below it, not {there}")
        if self.kind == "method" and there == 0:
            raise Fault(f"line {self.line.number}: a method call has its object below it")
        out = bytes([NODES.index(self.kind)]) + self.body
        if self.kind in ("call", "method"):
            out += count(self.children[self.kind == "method":], "arguments")
        return out + b"".join(child.bytes() for child in self.children)


QUESTION_PARTS = "current package suspend".split()


class Question:
    """A question with the answer that the text gives."""

    def __init__(self, names, line):
        self.number = line.number
        self.name = line.word("the question's name")
        self.header = b"".join(names.optional(line, part, QUESTION_PARTS) for part in QUESTION_PARTS[:2])
        self.header += bytes([line.maybe("suspend")])
        self.root, self.above = None, []
        self.answer, self.diagnostics = None, []

    def add_node(self, node):
        indent = node.line.indent
        while self.above and self.above[-1].line.indent >= indent:
            self.above.pop()
        if self.above:
            siblings = self.above[-1].children
            if siblings and siblings[0].line.indent != indent:
                raise Fault("children of one node are indented by the same")
            siblings.append(node)
        elif self.root is None:
            self.root = node
        else:
            raise Fault("a question has one root; indent what stands below it")
        self.above.append(node)

    def bytes(self):
        if self.root is None:
            raise Fault(f"line {self.number}: question {self.name} has no node")
        return self.header + self.root.bytes()

    def add_answer(self, names, line):
        how = line.one_of(["passed", "reported", "refused"], "answer")
        if how == 2:
            self.answer = f"{line.number_below(256, 'a refusal')} 0 0 -"
        else:
            kind = names.type(line)
            self.answer = f"0 {1 - how} {len(kind)} {kind.hex()}"

    def add_diagnostic(self, line):
        kind = line.number_below(256, "a diagnostic's kind")
        node = line.number_below(65536, "a node")
        self.diagnostics.append(f"{kind} {node} {line.number_below(65536, 'a number')}")

    def printed(self):
        """What the program prints."""
        if self.answer is None:
            return None
        return "\n".join([f"{self.answer} {len(self.diagnostics)}", *self.diagnostics, ""])


class Text:
    """A file: the table and its questions."""

    def __init__(self, text):
        self.names, self.table, self.questions = Names(), b"", []
        for number, written in enumerate(text.splitlines(), 1):
            written = written.partition("#")[0].expandtabs(4)
            if written.strip():
                try:
                    line = Line(number, written)
                    self.add(line)
                    line.end()
                except Fault as fault:
                    raise Fault(f"line {number}: {fault}") from None
        if len(self.table) > 65535:
            raise Fault(f"the table has {len(self.table)} bytes; the program's input has at most 65535")

    def add(self, line):
        keyword = line.word("a keyword")
        if keyword in RECORDS:
            if self.questions:
                raise Fault("records stand before the first question")
            self.table += record(keyword, self.names, line)
        elif keyword == "question":
            self.questions.append(Question(self.names, line))
            if self.questions[-1].name in [q.name for q in self.questions[:-1]]:
                raise Fault(f"there is a question {self.questions[-1].name} above")
        elif keyword not in NODES + ["answer", "diagnostic"]:
            raise Fault(f"`{keyword}` begins no line; these do: {' '.join(RECORDS + ['question'] + NODES)} answer diagnostic")
        elif not self.questions:
            raise Fault(f"`{keyword}` stands before any question")
        elif keyword in NODES:
            self.questions[-1].add_node(Node(keyword, self.names, line))
        elif keyword == "answer":
            self.questions[-1].add_answer(self.names, line)
        else:
            self.questions[-1].add_diagnostic(line)

    def input(self, question):
        return word(len(self.table)) + self.table + question.bytes()


# Reading a type

def array_size(data):
    """The size of the Array at the start of the bytes, None without one, and the bytes behind its body."""
    end = 10 if data[0] == LARGE_ARRAY else 6
    size = int.from_bytes(data[2:end], "little") if data[1] else None
    if data[:end] != array(size):
        raise ValueError("a malformed or cut Array")
    return size, data[end:]


def type_text(data, names):
    """The type at the start of the bytes, and the bytes behind it."""
    kind, rest = KINDS[data[0]], data[1:]
    if kind in ("Named", "Module"):
        name = names[int.from_bytes(rest[:2], "little")]
        plain = kind == "Named" and name not in KINDS
        return name if plain else f"{kind}({name})", rest[2:]
    if kind == "TypeVar":
        return f"TypeVar({int.from_bytes(rest[:4], 'little')})", rest[4:]
    if kind == "Array":
        size, rest = array_size(data)
        inner, rest = type_text(rest, names)
        return f"Array({inner})" if size is None else f"Array({inner}, {size})", rest
    parts, children = [], CHILDREN.get(kind, 0)
    if kind == "Function":
        children, rest = rest[0] + 1, rest[1:]
    for _ in range(children):
        part, rest = type_text(rest, names)
        parts.append(part)
    if kind == "Function":
        return f"Function({', '.join(parts[:-1])} -> {parts[-1]})".replace("( ->", "(->"), rest
    return f"{kind}({', '.join(parts)})" if parts else kind, rest


# Reading a table

class Reading:
    """The bytes of a table, taken record by record as lines."""

    def __init__(self, table, names):
        self.rest, self.names = table, names

    def take(self, count):
        taken, self.rest = self.rest[:count], self.rest[count:]
        return int.from_bytes(taken, "little")

    def id(self):
        """A name, or None for 65,535."""
        number = self.take(2)
        return None if number == NONE else self.names[number]

    def member(self):
        owner, name = self.id(), self.id()
        return name if owner is None else f"{owner}.{name}"

    def type(self):
        text, self.rest = type_text(self.rest, self.names)
        return text

    def name_line(self):
        name, self.rest = self.rest[1:1 + self.rest[0]], self.rest[25:]
        return f"name {name.decode('ascii')}"

    def class_line(self):
        name, superclass, first, second, package = [self.id() for _ in range(5)]
        out = f"class {name}" + (f" extends {superclass}" if superclass else "")
        if first or second:
            out += f" implements {first or ''}" + (f", {second}" if second else "")
        return out + (f" package {package}" if package else "") + (" types" if self.take(1) else "")

    def operators_line(self):
        name, mask = self.id(), self.take(2)
        return " ".join(["operators", name] + [word for bit, word in enumerate(BUILT_IN[6:17]) if mask >> bit & 1])

    def parameter(self):
        name, flag = self.id(), self.take(1)
        return f"{name}: {self.type()}" + (" default" if flag & 1 else "") + (" vararg" if flag & 2 else "")

    def function_line(self):
        key, visibility, builtin, params = self.member(), self.take(1), self.take(1), self.take(1)
        result = self.type()
        out = f"function {key}({', '.join([self.parameter() for _ in range(params)])}) -> {result}"
        return out + (f" {VISIBILITIES[visibility]}" if visibility else "") + (" builtin" if builtin else "")

    def line(self):
        """The record at the front."""
        kind = RECORDS[range(1, 9).index(self.take(1))]
        if kind == "field":
            return f"field {self.member()}: {self.type()}"
        if kind == "visibility":
            return f"visibility {self.member()} {VISIBILITIES[self.take(1)]}"
        if kind in ("suspend", "variant"):
            return f"{kind} {self.member()}"
        return {"name": self.name_line, "class": self.class_line, "operators": self.operators_line, "function": self.function_line}[kind]()


def anew(table):
    """The table of before, whose class records have 8 bytes, with no interfaces in them."""
    out = b""
    while table[:1] in (b"\1", b"\2"):
        end, shared = (26, 26) if table[0] == 1 else (8, 5)
        out += table[:shared] + (2 * word(NONE) if shared < end else b"") + table[shared:end]
        table = table[end:]
    return out + table


def is_older(table):
    """Whether it is a table of before, as far as this form knows."""
    try:
        table_text(anew(table))
    except Fault:
        return False
    return True


def input_text(data):
    """The table of a program's input in the text form."""
    table = table_of(data)
    try:
        return table_text(table)
    except Fault as fault:
        if is_older(table):
            raise Fault(f"{fault}; its class records are those of before, without interfaces: renew/ writes it anew") from None
        raise


def table_text(table):
    """The table in the text form, a record a line."""
    names, lines = Names(), []
    reading = Reading(table, names.names)
    while reading.rest:
        at = len(table) - len(reading.rest)
        try:
            lines.append(reading.line())
            line = Line(0, lines[-1])
            written = record(line.word("a keyword"), names, line)
            if written != table[at:len(table) - len(reading.rest)]:
                raise ValueError
        except (ValueError, LookupError, TypeError, Fault):
            raise Fault(f"at byte {at} of the table stands no record that this form can say") from None
    return "".join(line + "\n" for line in lines)


def table_of(data):
    """The table of a program's input."""
    end = 2 + int.from_bytes(data[:2], "little")
    if not 2 <= end <= len(data):
        raise Fault("this is no program's input: the bytes end before the table does")
    return data[2:end]


# Reading an answer

DIAGNOSTICS = """nullable operands|plus|numeric|unrelated comparison (warning)|not comparable|logical|bitwise|nullable unary|
minus|not|step|dereference|not-null|suspend|argument count|unknown name|mismatch|no match|tie|access|nullable member|
unresolved|no members""".replace("\n", "").split("|")


def answer_text(printed, names):
    """What the program printed, in words."""
    lines = [line.split() for line in printed.splitlines()]
    number, passed, _, kind, _ = lines[0]
    if number != "0":
        who = {1: "table's writer", 8: "script's author", 12: "caller", 13: "judge"}
        return f"refused with {number}, by the doing of the {who[max(n for n in who if n <= int(number))]}\n"
    out = ("passed: " if passed == "1" else "not passed: ") + type_text(bytes.fromhex(kind), names)[0] + "\n"
    for code, node, extra in lines[1:]:
        out += f"  node {node}: {DIAGNOSTICS[int(code) - 1]}" + (f" ({extra})" if extra != "0" else "") + "\n"
    return out


def run(program, text):
    """How many questions the program answers otherwise than the text says."""
    wrong = 0
    for question in text.questions:
        done = subprocess.run([program], input=text.input(question), capture_output=True, check=True)
        printed = done.stdout.decode("ascii")
        agrees = question.printed() in (None, printed)
        wrong += not agrees
        print(f"{question.name}: {answer_text(printed, text.names.names)}", end="")
        if not agrees:
            print(f"  but the text says: {answer_text(question.printed(), text.names.names)}", end="")
    return wrong


def main():
    parser = argparse.ArgumentParser(description=__doc__, formatter_class=argparse.RawDescriptionHelpFormatter)
    parser.add_argument("file", type=pathlib.Path)
    ways = parser.add_mutually_exclusive_group()
    ways.add_argument("--check", action="store_true")
    ways.add_argument("--run", metavar="PROGRAM")
    ways.add_argument("--read", action="store_true")
    ways.add_argument("--table", action="store_true")
    options = parser.parse_args()
    try:
        if options.table:
            print(input_text(options.file.read_bytes()), end="")
            return
        text = Text(options.file.read_text(encoding="ascii"))
        if options.read:
            try:
                print(answer_text(sys.stdin.read(), text.names.names), end="")
            except (ValueError, IndexError):
                raise Fault("standard input is not what the program prints under this table") from None
            return
        if options.run:
            sys.exit(run(options.run, text) != 0)
        differing = 0
        for question in text.questions:
            place = options.file.with_suffix(f".{question.name}.bin")
            data = text.input(question)
            if not options.check:
                place.write_bytes(data)
            elif not place.is_file() or place.read_bytes() != data:
                print(f"{place} is not what {options.file} says")
                differing += 1
        sys.exit(differing != 0)
    except Fault as fault:
        sys.exit(f"{options.file}: {fault}")
    except (OSError, UnicodeDecodeError) as fault:
        sys.exit(f"{options.file}: {fault}")


if __name__ == "__main__":
    main()
