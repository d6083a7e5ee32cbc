#!/usr/bin/env python3
"""Looks whether README and the documents are written as they are wanted: sentences of README, the guides and the records have at most 30 words, each document
is within its length, and no line is wider than 120 characters.

A sentence ends with `.`, `?`, `!` or `:` before white space, and where its paragraph, heading or item of a list ends. A word is what stands between white
space and has a letter or a digit; what stands in backquotes is one word. Code, tables, quotations behind `>`, comments and the marks of items are left out.
Code alone may be wider.

It prints each fault with its document, line and count, and fails then. With the word --test it tries itself on texts with a known number of faults.
"""
import re
import subprocess
import sys
from pathlib import Path

TOP = Path(__file__).resolve().parent.parent
WORDS, WIDTH = 30, 120
LINES = {  # at most, of each document whose sentences are counted
    "README.md": 150,
    "docs/OPERATORS.md": 215,
    "docs/TOOLS.md": 155,
    "docs/CLIENTS.md": 105,
    "docs/PROOFS.md": 235,
    "docs/MAINTAINERS.md": 250,
    "docs/MODEL.md": 385,
    "docs/DECISIONS.md": 255,
    "bench/measured.md": 145,
}
FENCE = re.compile(r" *(?:```|~~~)")
ITEM = re.compile(r"( *(?:[-*+]|\d+[.)]) +)(.*)")
HEADING = re.compile(r"#+ +(.*)")
COMMENT = re.compile(r"<!--.*?-->", re.S)
LINK = re.compile(r"!?\[([^\]]*)\]\([^)]*\)")
QUOTED = re.compile(r"(`+)(?!`).+?(?<!`)\1(?!`)", re.S)
END = re.compile(r"[.?!:][)\"'*_]*$")


def blank(found):
    """As many line feeds as were found, so that what follows keeps its line."""
    return "\n" * found[0].count("\n")


def classified(text):
    """The lines of a text with their numbers, each with its kind (code, table, quotation, empty, heading, item, text) and what of it is text."""
    fenced, code, indent, is_after_empty = False, False, 0, True
    for number, line in enumerate(text.splitlines(), 1):
        depth = len(line) - len(line.lstrip(" "))
        item, heading = ITEM.fullmatch(line), HEADING.fullmatch(line)
        # code is indented by four more than the text around it, which begins with an empty line
        code = bool(line.strip()) and depth >= indent + 4 and (code or is_after_empty)
        if FENCE.match(line):
            fenced = not fenced
            yield number, "code", ""
        elif fenced or code and line.strip():
            yield number, "code", ""
        elif not line.strip():
            yield number, "empty", ""
        elif line.lstrip().startswith("|"):
            yield number, "table", ""
        elif line.startswith(">"):
            yield number, "quotation", ""
        elif heading:
            indent = 0
            yield number, "heading", heading[1]
        elif item:
            indent = len(item[1])
            yield number, "item", item[2]
        else:
            if depth < indent and is_after_empty:
                indent = 0
            yield number, "text", line
        is_after_empty = not line.strip()


def paragraphs(text):
    """The paragraphs of a text, each as the number of its first line and its lines."""
    first, lines = 0, []
    for number, kind, said in classified(COMMENT.sub(blank, text)):
        if lines and kind != "text":
            yield first, "\n".join(lines)
            lines = []
        if kind in ("heading", "item", "text"):
            first = first if lines else number
            lines.append(said)
        if kind == "heading":
            yield first, said
            lines = []
    if lines:
        yield first, "\n".join(lines)


def sentences(text):
    """The sentences of a text, each with the number of its first line, how many words it has, and the first of these."""
    for first, paragraph in paragraphs(text):
        plain = QUOTED.sub(lambda it: f"`{len(it[0])}`{blank(it)}", LINK.sub(r"\1", paragraph))
        line, words = first, []
        for found in re.finditer(r"\S+", plain):
            if not words:
                line = first + plain.count("\n", 0, found.start())
            if re.search(r"\w", found[0]):
                words.append(found[0])
            if END.search(found[0]) and words:
                yield line, words
                words = []
        if words:
            yield line, words


def faults_of(name, text):
    """The faults of a document, each as its line, or none, and what is wrong."""
    lines = text.splitlines()
    if name in LINES and len(lines) > LINES[name]:
        yield None, f"{len(lines)} lines, at most {LINES[name]} are wanted"
    for number, kind, _ in classified(text):
        width = len(lines[number - 1])
        if width > WIDTH and kind != "code":
            yield number, f"{width} characters, at most {WIDTH} are wanted"
    if name in LINES:
        for number, words in sentences(text):
            if len(words) > WORDS:
                yield number, f"a sentence of {len(words)} words, at most {WORDS} are wanted"


LONG = "w " * WORDS + "w."  # one word more than a sentence may have
MOST = "w " * (WORDS - 1)  # a sentence may have one more
MANY = "w\n" * WORDS  # and one more is a fault
HALF = "w " * (WORDS // 2)  # two with a word more each are too many for one sentence
CASES = (  # what is tried, the document that it is taken for, the text, and the lines of its faults, None for that of the whole document
    ("a sentence of as many words as may be", "README.md", MOST + "w.", []),
    ("a sentence of one more", "README.md", LONG, [1]),
    ("a document whose sentences are not counted", "docs/FORMATS.md", LONG, []),
    ("two sentences", "README.md", f"{HALF}w. {HALF}w.", []),
    ("each end of a sentence", "README.md", "".join(f"{HALF}w{end}\n" for end in (".", "?", "!", ":", ".)", ':"', ".**")), []),
    ("what ends no sentence", "README.md", f"{HALF}\n1.5 a.b w; w ..w\n{HALF}w.", [1]),
    ("a sentence over lines, behind a short one", "README.md", "So.\nw\n" + MANY, [2]),
    ("a sentence that begins within a line", "README.md", "So.\nSo. w\n" + MANY, [2]),
    ("a paragraph's end", "README.md", MANY + "\n" + MANY, []),
    ("a heading", "README.md", "# w w\n" + MOST, []),
    ("items of a list", "README.md", f"{HALF}\n- w\n{HALF}\n1. w\n{HALF}", []),
    ("an item that is long", "README.md", "So:\n\n- short\n- w\n" + "  w\n" * WORDS, [4]),
    ("an item's mark is no word", "README.md", "1) " + "w\n   " * (WORDS - 1) + "w.", []),
    ("a paragraph in an item", "README.md", "1. w\n\n    w\n" + "    w\n" * WORDS, [3]),
    ("code in an item", "README.md", "1. w\n\n        code\n" + "        code\n" * WORDS, []),
    ("a dash is no word", "README.md", "w - " * (WORDS // 2) + "\n" + "w - " * (WORDS // 2), []),
    ("backquotes are one word", "README.md", "w " * (WORDS - 2) + "`a b c\nd`, `` e ` f ``.", []),
    ("backquotes, and one word more", "README.md", "w " * (WORDS - 2) + "`a b.\nc` `d` w.", [1]),
    ("a line behind backquotes over lines", "README.md", "So `a\nb`. w\n" + MANY, [2]),
    ("a link", "README.md", "w " * (WORDS - 2) + "[two words](docs/A B C.md).", []),
    ("code in a fence", "README.md", f"```\n{LONG}{'-' * 121}\n```\n", []),
    ("indented code", "README.md", f"So:\n\n    {LONG}\n    {'-' * 121}\n\n    {LONG}\n\nSo.", []),
    ("no code, as no empty line is before it", "README.md", "So\n    " + MANY, [1]),
    ("text behind code", "README.md", "So:\n\n    code\n\nw\n" + MANY, [5]),
    ("a table", "README.md", f"| {LONG} |\n|---|\n", []),
    ("a row that is wider", "docs/FORMATS.md", f"| x | y |\n|---|---|\n| x | {'y' * 113} |\n| x | {'y' * 112} |\n", [3]),
    ("a quotation", "README.md", "> w\n" * (WORDS + 1), []),
    ("a comment", "README.md", "So <!-- " + "w\n" * (WORDS + 1) + "--> it is.", []),
    ("a line as wide as may be", "docs/FORMATS.md", "x" * 120, []),
    ("a line that is wider", "docs/FORMATS.md", "x\n" + "x" * 121, [2]),
    ("an item that is wider", "docs/FORMATS.md", "- " + "x" * 119, [1]),
    ("a document as long as may be", "README.md", "w.\n" * 150, []),
    ("a document that is longer", "README.md", "w.\n" * 151, [None]),
)


def tested():
    """The cases whose faults are not those that are known."""
    for what, name, text, known in CASES:
        found = [line for line, _ in faults_of(name, text)]
        if found != known:
            yield f"docs/style.py: {what}: the lines with faults are {found}, and should be {known}"


def looked():
    """The faults of the documents that git knows here, and those that are missing."""
    listed = subprocess.run(["git", "ls-files", "-co", "--exclude-standard", "*.md"], cwd=TOP, check=True, capture_output=True, text=True)
    names = [name for name in listed.stdout.splitlines() if (TOP / name).is_file()]
    yield from (f"{name}: there is no such document" for name in LINES if name not in names)
    for name in names:
        for line, fault in faults_of(name, (TOP / name).read_text(encoding="utf-8")):
            yield f"{name}:{line}: {fault}" if line else f"{name}: {fault}"


def main():
    is_test = "--test" in sys.argv[1:]
    found = list(tested() if is_test else looked())
    print(*found, sep="\n", end="\n" if found else "")
    sys.exit(f"{len(found)} {'cases' if is_test else 'faults of the documents'}" if found else 0)


if __name__ == "__main__":
    main()
