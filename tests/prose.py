#!/usr/bin/env python3
"""Tests the documents: no line of prose is over 100 characters, and each file that they name is there.

    tests/prose.py [ROOT]

The exit status is 1 where

- a line has more than 100 characters. Rows of tables and code blocks, indented or fenced, are no prose, nor is a line that
  is one word or one link, or one that names a commit at its end, behind a colon;
- a relative link leads to no file or folder;
- a path in backticks is no file of the repository. A path has a slash and ends in .md, .rs, .rt, .antt, .py, .txt or .h; it
  begins at the root, in crates/ or in the document's own folder. One with a * or with a placeholder (NAME, F) is no path.
  What begins with docs/ is a path also without backticks;
- one of the documents is not there.
"""

import pathlib
import re
import sys
import tempfile
import unittest

sys.dont_write_bytecode = True
import contracts  # noqa: E402

ROOT = pathlib.Path(__file__).resolve().parent.parent
DOCUMENTS = """README.md CHANGELOG.md docs/*.md docs/history/*.md docs/orders/*.md
aura-judge/README.md oracle/README.md compare/README.md reading/README.md renew/README.md undisturbed/README.md""".split()
WIDTH = 100
ITEM = re.compile(r" *(?:[-*+]|\d+[.)]) +")
SPAN = re.compile(r"`[^`]*`")
LINK = re.compile(r"!?\[[^\]]*\]\(([^)\s]*)\)")
OUTSIDE = re.compile(r"[a-z]+:|#|$")
PATH = re.compile(r"`([^`\s*:]+/[^`\s*:]+\.(?:md|rs|rt|antt|py|txt|h))`|(?<![\w`/.-])(docs/[\w/.-]+\.md)\b")
COMMIT = re.compile(r"[^:]*: [0-9a-f]{40}$")
PLACEHOLDER = re.compile(r"(?:^|/)(?:[A-Z]/|(?:NAME|LABEL|FILE|CRATE|DIR)[/.])")


def lines(text):
    """The lines that stand in no code block: number, line, whether it is a table's."""
    fence, blank, code, inner = "", True, False, []  # inner: where the text of each list item begins that a line may be in
    for number, line in enumerate(text.splitlines(), 1):
        body = line.lstrip(" ")
        indent = len(line) - len(body)
        if fence or body.startswith(("```", "~~~")):
            fence = body[:3] if not fence else "" if body.startswith(fence) else fence
            blank = code = False
            continue
        if not body:
            blank = True
            continue
        item = ITEM.match(line)
        while inner and indent < inner[-1] and (blank or item):
            inner.pop()
        code = (blank or code) and indent >= (inner[-1] if inner else 0) + 4
        blank = False
        if not code:
            if item:
                inner.append(item.end())
            yield number, line, body.startswith("|")


def is_long(line):
    """Whether a line is too long and could be broken."""
    return len(line) > WIDTH and not COMMIT.match(line) and " " in LINK.sub("link", ITEM.sub("", line, count=1)).strip()


def findings_of(root, path):
    name = path.relative_to(root)
    for number, line, table in lines(path.read_text(encoding="utf-8")):
        if not table and is_long(line):
            yield f"{name}:{number}: {len(line)} characters"
        for target in LINK.findall(SPAN.sub("", line)):
            if not OUTSIDE.match(target) and not (path.parent / target.partition("#")[0]).exists():
                yield f"{name}:{number}: there is no {target}"
        for found in PATH.finditer(line):
            cited = found[1] or found[2]
            if not PLACEHOLDER.search(cited) and not any((at / cited).is_file() for at in (root, root / "crates", path.parent)):
                yield f"{name}:{number}: there is no {cited}"


def findings(root):
    out = []
    for pattern in DOCUMENTS:
        paths = sorted(root.glob(pattern))
        out += [found for path in paths for found in findings_of(root, path)] if paths else [f"{pattern} is not there"]
    return out


LONG = "word " * 19 + "words, "  # a line of it and one letter has 103 characters
CODE = f"\n    {LONG}x\n    {LONG}y\n\n    {LONG}z\n"
SOUND = {
    **dict.fromkeys("""README.md CHANGELOG.md docs/A.md docs/history/B.md docs/orders/D.md
                       oracle/README.md compare/README.md reading/README.md renew/README.md undisturbed/README.md""".split(), ""),
    "aura-judge/README.md": "`src/lib.rs`, `aura-judge/src/lib.rs`, `../docs/A.md`\n",
    "aura-judge/src/lib.rs": "",
    "crates/ty/specs/Ty.antt": "",
}


class MadeUp(unittest.TestCase):
    def finds(self, text, *found, name="docs/A.md"):
        """What is found in the sound tree where one document has this text, or is not there."""
        with tempfile.TemporaryDirectory() as folder:
            root = pathlib.Path(folder)
            for at, content in {**SOUND, name: text}.items():
                if content is not None:
                    (root / at).parent.mkdir(parents=True, exist_ok=True)
                    (root / at).write_text(content, encoding="utf-8")
            self.assertEqual(findings(root), [f"{name}{line}" for line in found])

    def test_a_line_has_at_most_100_characters(self):
        self.finds("é" * 48 + " " + "é" * 51 + "\n")
        self.finds("é" * 48 + " " + "é" * 52 + "\n", ":1: 101 characters")
        for name in SOUND:
            if name.endswith(".md"):
                self.finds(f"# A\n\n{LONG}x\n", ":3: 103 characters", name=name)

    def test_what_is_prose(self):
        for text, number in [(f"# {LONG}", 1), (f"- {LONG}x", 1), (f"10. {LONG}x", 1), (f"a\n{LONG}x", 2),
                             (f"- a\n  {LONG}x", 2), (f"10. a\n    {LONG}x", 2), (f"10. a\n\n    {LONG}x", 3),
                             (f"- a\n  - b\n    {LONG}x", 3), (f"- a\n  - b\n\n    {LONG}x", 4),
                             (f"a\n    {LONG}x", 2), (f"a\n\n   {LONG}x", 3),
                             (f"```\na\n```\n{LONG}x", 4), (f"    a\n{LONG}x", 2), (f"| a |\n|---|\n\n{LONG}x", 4),
                             (f"- a\n\n  - b\n\na\n    {LONG}x", 6), (f"1. a\n\n       b\n\n   {LONG}x", 5)]:
            text += "\n"
            self.finds(text, f":{number}: {len(text.splitlines()[number - 1])} characters")

    def test_what_is_none(self):
        for text in [f"| {LONG} |\n|---|\n| {LONG} |\n", f"- a\n\n  | {LONG} |\n", f"```\n{LONG}x\n\n{LONG}y\n```\n",
                     f"~~~ text\n{LONG}x\n```\n{LONG}y\n~~~\n", f"- a\n\n  ```\n  {LONG}x\n  ```\n", f"a\n{CODE}",
                     f"# A\n{CODE}\na\n", f"- a\n\n      {LONG}x\n", f"- a\n\nb\n{CODE}", f"1. a\n   - b\n10. c\n\n   d\n{CODE}"]:
            self.finds(text)

    def test_what_cannot_be_broken(self):
        for text in ["w" * 120, "- " + "w" * 120, "  " + "w" * 120, f"[{LONG}](https://a.b/c)", f"- ![{LONG}](../README.md)."]:
            self.finds(text + "\n")
        self.finds(f"The commit of {'a' * 70}: {'0f' * 20}\n")
        self.finds("a " + "w" * 120 + "\n", ":1: 122 characters")
        self.finds(f"The commit of {'a' * 70}: {'0f' * 20}.\n", ":1: 127 characters")
        self.finds(f"The commit of {'a' * 70} {'0f' * 20}\n", ":1: 125 characters")
        self.finds(f"The commit of {'a' * 70}: {'0g' * 20}\n", ":1: 126 characters")
        self.finds(f"[{LONG}](https://a.b/c) a\n", ":1: 121 characters")

    def test_links(self):
        self.finds("[a](A.md), [`b`](history/B.md#part), [c](../crates/ty)\n[d](#part), [e](https://a.b/c.md), [f](mailto:g)\n")
        self.finds("a\n\n[a](B.md) and\n![b](a.svg)\n", ":3: there is no B.md", ":4: there is no a.svg")
        self.finds("| [a](docs/A.md) |\n", ":1: there is no docs/A.md")
        self.finds("`f[a](B.md)`\n\n    [a](B.md)\n")

    def test_paths(self):
        self.finds("`docs/A.md`, (`history/B.md`), `crates/ty/specs/Ty.antt`, `ty/specs/Ty.antt`; docs/history/B.md.\n")
        self.finds("`crates/NAME/specs/Ty.antt`, `proofs/F/Answers.antt`, `docs/*.md`, `docs/FILE.md`\n")
        self.finds("`a/b.edit`, `a/b`, `b.rs`, a/b.rs, `https://a.b/c.md`, https://a.b/docs/c.md, other-docs/C.md\n")
        self.finds("`docs/FORMAT.md` and\ndocs/C.md.\n", ":1: there is no docs/FORMAT.md", ":2: there is no docs/C.md")
        self.finds("a\n\n| `ty/specs/Type.antt` |\n", ":3: there is no ty/specs/Type.antt")
        self.finds("- a\n- `src/lib.rs`\n", ":2: there is no src/lib.rs")
        for ending in "md rs rt antt py txt h".split():
            self.finds(f"`a/b.{ending}`\n", f":1: there is no a/b.{ending}")
        self.finds("    `a/b.rs`\n\n```\ndocs/C.md\n```\n")

    def test_no_document(self):
        for name in ["README.md", "CHANGELOG.md", "oracle/README.md"]:
            self.finds(None, " is not there", name=name)


if __name__ == "__main__":
    contracts.main(findings)
