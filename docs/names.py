#!/usr/bin/env python3
"""Looks up what README and the documents name in backquotes: each path has to lead to a file here, and each name to stand in a file that is no document.

It prints each that is nowhere, with its document and line, and fails then. What is no single name or path (a command, a line of output, a formula) is left out."""
import re
import subprocess
import sys
from fnmatch import fnmatch
from pathlib import Path

TOP = Path(__file__).resolve().parent.parent
QUOTED = re.compile(r"`([^`\n]+)`")
NAME = re.compile(r"[A-Za-z_][\w'-]*(?:(?:::|\.)[A-Za-z_][\w'-]*)*(?:\(\.\.\)|\(\))?!?")
FILE = re.compile(r"[\w.*{},~-]*(?:/[\w.*{},~-]+)+/?|[\w-]+\.(?:md|py|sh|rt|antt|conf|xml|script|out|txt|edit)")
WORD = re.compile(r"[\w'-]+")
ENDS = ("", ".rt", ".antt", ".py")  # a module is named without its ending too
# names of the system, its packages, of the shell, of the kit, and of what stood here when it was measured
OUTSIDE = {"ArrayString", "OnceLock", "echo_run", "fg", "perf", "python3-setuptools", "python3-venv", "python3-wheel", "sched_yield"}
FENCE = re.compile(r"^(?:```|~~~)")


def tracked():
    """The files that git knows here."""
    listed = subprocess.run(["git", "ls-files", "-co", "--exclude-standard"], cwd=TOP, check=True, capture_output=True, text=True)
    return [TOP / name for name in listed.stdout.splitlines() if (TOP / name).is_file()]


def documents(files):
    return [file for file in files if file.suffix == ".md"]


def text_of(files):
    """The files that are no documents, with their names, as one text."""
    parts = []
    for file in files:
        parts.append(str(file.relative_to(TOP)))
        if file.suffix not in (".md", ".png", ".svg"):
            parts.append(file.read_text(encoding="utf-8", errors="replace"))
    return "\n".join(parts)


def quoted(document):
    """What stands in backquotes, with its line; blocks of code are left out."""
    inside = False
    for number, line in enumerate(document.read_text(encoding="utf-8").splitlines(), 1):
        if FENCE.match(line):
            inside = not inside
        elif not inside and not line.startswith("    "):
            for text in QUOTED.findall(line):
                yield number, text


def places_of(files):
    """The paths of the files and of the folders that they are in."""
    paths = [file.relative_to(TOP) for file in files]
    return {str(place) for path in paths for place in (path, *path.parents)}


def is_there(path, places):
    """Whether a path leads to a file or a folder, from the top or from any folder. Words in capitals stand for any name."""
    pattern = re.sub(r"\b[A-Z]{3,}\b", "*", path.rstrip("/"))
    braces = re.search(r"\{([^}]*)\}", pattern)
    options = [pattern.replace(braces[0], option) for option in braces[1].split(",")] if braces else [pattern]
    return all(any(fnmatch(place, f"{start}{option}{end}") for place in places for start in ("", "*/") for end in ENDS) for option in options)


def is_known(name, words):
    """Whether each part of a name stands somewhere. A metric's name is put together from words."""
    parts = re.split(r"::|\.", re.sub(r"\(\.*\)|!$", "", name))
    is_metric = name.startswith("capsched_") and all(word in words for word in name.split("_"))
    return is_metric or all(part in words or part.strip("'-") in words for part in parts)


def missing(files):
    text = text_of(files)
    words = set(WORD.findall(text)) | OUTSIDE
    places = places_of(files)
    for document in documents(files):
        for number, name in quoted(document):
            if FILE.fullmatch(name):
                known = name in text or is_there(name, places)
            elif NAME.fullmatch(name):
                known = is_known(name, words)
            else:
                continue
            if not known:
                yield f"{document.relative_to(TOP)}:{number}: `{name}` stands nowhere"


def main():
    found = list(missing(tracked()))
    print(*found, sep="\n")
    sys.exit(f"{len(found)} names of the documents stand nowhere" if found else 0)


if __name__ == "__main__":
    main()
