#!/usr/bin/env python3
"""Writes the list of contracts in `docs/CONTRACTS.md` out of the sources: for each crate what callers can call and what has an `ensures`.

An item has the function, the names of its clauses, and the first sentence of its doc comment, if it has one. With `--check` it writes nothing, and
fails where the document is not what it would write.
"""
import difflib
import os
import re
import sys
import textwrap

TOP = os.path.dirname(os.path.dirname(os.path.abspath(__file__)))
DOCUMENT = f"{TOP}/docs/CONTRACTS.md"
BEGIN, END = "<!-- docs/contracts.py writes this list -->\n", "<!-- the end of the list -->\n"
WIDTH = 120
USED = re.compile(r"^pub use ([^;]+);", re.MULTILINE)
MODULE = re.compile(r"^pub mod (\w+);", re.MULTILINE)
ITEM = re.compile(r"^pub (?:fn|struct|enum|trait|type) (\w+)", re.MULTILINE)
BLOCK = re.compile(r"(?:pub )?(impl|trait)\b(?:<.*?>)? ?(\w+)(?:<.*>)?(?:: [\w<>, +]+)? \{$")
FUNCTION = re.compile(r"( *)(pub )?fn (\w+)")
SENTENCE = re.compile(r".*?\.(?= [A-Z`(]|$)")


def read(path):
    with open(path, encoding="utf-8") as file:
        return file.read()


def library_crates():
    """The crates of `crates.txt`, lowest first, without those of tests, which are called so or stand on one that is."""
    for line in read(f"{TOP}/crates.txt").splitlines():
        crate, _, below = line.partition(":")
        is_of_tests = any(name.endswith("_testing") for name in [crate, *below.split()])
        if not line.startswith("#") and not is_of_tests and os.path.exists(f"{TOP}/crates/{crate}/src/lib.rt"):
            yield crate


def exported(source):
    """The names that a module gives to others: its own that are `pub`, what it uses for them, and those of its modules that are `pub`."""
    text = read(source)
    names = set(ITEM.findall(text))
    for used in USED.findall(text):
        names.update(re.findall(r"\w+(?= *(?:[,}]|$))", used))
    folder = os.path.dirname(source) if source.endswith("/lib.rt") else source[: -len(".rt")]
    return names.union(*(exported(f"{folder}/{module}.rt") for module in MODULE.findall(text)))


def sources_of(crate):
    """The files of a crate, those of its own before those of folders in it, by name."""
    src = f"{TOP}/crates/{crate}/src"
    paths = (os.path.join(at, name) for at, _, names in os.walk(src) for name in names if name.endswith(".rt"))
    return sorted(paths, key=lambda it: (os.path.dirname(it), it))


def clauses_after(lines, start, indent):
    """The names of the clauses of a function whose contract begins here, with nothing for one that has no name: up to its body, or what comes next."""
    clause = re.compile(f" {{{indent + 4}}}ensures(?: (\\w+))? {{")
    for line in lines[start:]:
        if re.match(f" {{0,{indent}}}[^ )>]", line) and line.strip() != "where":
            return
        if found := clause.match(line):
            yield found[1]


def functions_of(path, names):
    """The functions of a file that callers can call and that promise something: each with its name, its clauses and its comment."""
    lines = read(path).splitlines()
    block, comment = None, []
    for at, line in enumerate(lines):
        if line.startswith("}"):
            block = None
        elif found := BLOCK.match(line):
            block = found.groups()
        elif re.match(r"(?:pub )?(?:impl|trait)\b", line):
            block = ("other", "")
        found = FUNCTION.match(line)
        if found and (found[2] or block and block[0] == "trait"):
            indent, name = len(found[1]), found[3]
            is_called = block[1] in names if block else indent == 0 and name in names
            clauses = list(clauses_after(lines, at + 1, indent))
            if is_called and clauses:
                yield f"{block[1]}::{name}" if block else name, [it for it in clauses if it], " ".join(comment)
        if line.lstrip().startswith("///"):
            comment.append(line.lstrip()[3:].strip())
        elif not line.lstrip().startswith("#["):
            comment = []


def item(name, clauses, comment):
    """An item of the list, wrapped."""
    named = f" ({', '.join(f'`{it}`' for it in clauses)})" if clauses else ""
    sentence = SENTENCE.match(comment)
    says = f": {sentence[0] if sentence else comment}" if comment else ""
    # what stands in backquotes stays on one line
    text = re.sub("`[^`]*`", lambda it: it[0].replace(" ", "\0"), f"- `{name}`{named}{says}")
    words = {"break_long_words": False, "break_on_hyphens": False}
    return textwrap.fill(text, WIDTH, subsequent_indent="  ", **words).replace("\0", " ")


def section(crate):
    names = exported(f"{TOP}/crates/{crate}/src/lib.rt")
    items = [item(*it) for path in sources_of(crate) for it in functions_of(path, names)]
    return f"### `{crate}`\n\n" + "\n".join(items) + "\n\n" if items else ""


def main():
    old = read(DOCUMENT)
    if old.count(BEGIN) != 1 or old.count(END) != 1:
        sys.exit(f"docs/CONTRACTS.md does not have the lines {BEGIN.strip()} and {END.strip()} once")
    before, after = old.partition(BEGIN)[0], old.partition(END)[2]
    new = f"{before}{BEGIN}\n{''.join(section(it) for it in library_crates())}{END}{after}"
    if "--check" not in sys.argv[1:]:
        with open(DOCUMENT, "w", encoding="utf-8") as file:
            file.write(new)
    elif new != old:
        sys.stdout.writelines(difflib.unified_diff(old.splitlines(True), new.splitlines(True), "docs/CONTRACTS.md", "docs/contracts.py", n=0))
        sys.exit("docs/CONTRACTS.md is not what the sources say: run docs/contracts.py")


main()
