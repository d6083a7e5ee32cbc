#!/usr/bin/env python3
"""Writes `docs/FILES.md`, the list of crates and files, out of the first sentences of the files themselves: `//! ..` of a source, `-- ..` of a file of specs.

With `--check` it writes nothing, and fails where the document is not what it would write. It fails too where a file does not begin with such a sentence.
"""
import difflib
import os
import sys
import textwrap

TOP = os.path.dirname(os.path.dirname(os.path.abspath(__file__)))
DOCUMENT = "docs/FILES.md"
HEAD = """# Files

`docs/where.py` writes this document out of the first sentence of each file in `src/` and `specs/`, crate by crate in
the order of `crates.txt`; `.ci/run` compares.
"""
WIDTH = 120


def read(path):
    with open(path, encoding="utf-8") as file:
        return file.read()


def sentence_of(path, mark):
    """What a file says first, after the mark, up to the end of the line that ends the sentence; the program ends where it says nothing."""
    said = []
    for line in read(path).splitlines():
        if not line.startswith(mark):
            break
        said.append(line[len(mark) :])
        if line.endswith("."):
            return " ".join(said)
    sys.exit(f"{os.path.relpath(path, TOP)}:1: the file does not begin with '{mark}' and a sentence that says what it holds")


def files_of(folder, ending):
    """The files of a folder with this ending, those of its own before those of folders in it, by name."""
    paths = (os.path.join(at, name) for at, _, names in os.walk(folder) for name in names if name.endswith(ending))
    return sorted((os.path.relpath(path, folder) for path in paths), key=lambda it: (os.path.dirname(it), it))


def item(indent, name, says):
    """An item of a list, wrapped."""
    words = {"break_long_words": False, "break_on_hyphens": False}
    return textwrap.fill(f"- {name}: {says}", WIDTH, initial_indent=indent, subsequent_indent=f"{indent}  ", **words)


def items_of(crate):
    """The items of a crate: its own, from its root file, then one for each other source, and one for each file of specs."""
    src, specs = f"{TOP}/crates/{crate}/src", f"{TOP}/crates/{crate}/specs"
    root = next(name for name in ("lib.rt", "main.rt") if os.path.exists(f"{src}/{name}"))
    yield item("", f"**`{crate}`**", sentence_of(f"{src}/{root}", "//! "))
    for name in files_of(src, ".rt"):
        if name != root:
            yield item("  ", f"`{name}`", sentence_of(f"{src}/{name}", "//! "))
    for name in files_of(specs, ".antt"):
        if name != "Lib.antt":
            yield item("  ", f"`specs/{name}`", sentence_of(f"{specs}/{name}", "-- "))


def main():
    crates = [line.partition(":")[0] for line in read(f"{TOP}/crates.txt").splitlines() if not line.startswith("#")]
    old = read(f"{TOP}/{DOCUMENT}") if os.path.exists(f"{TOP}/{DOCUMENT}") else ""
    new = f"{HEAD}\n" + "\n".join(it for crate in crates for it in items_of(crate)) + "\n"
    if "--check" not in sys.argv[1:]:
        with open(f"{TOP}/{DOCUMENT}", "w", encoding="utf-8") as file:
            file.write(new)
    elif new != old:
        sys.stdout.writelines(difflib.unified_diff(old.splitlines(True), new.splitlines(True), DOCUMENT, "docs/where.py", n=0))
        sys.exit(f"{DOCUMENT} is not what the files say of themselves: run docs/where.py")


main()
