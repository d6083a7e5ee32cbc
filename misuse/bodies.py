#!/usr/bin/env python3
"""Tries the wrong bodies of crates/*/wrong-bodies/*.edit: with each of them the function that its file names must not be proved any more.

Such a file has the form of an edit in must-fail/, which `rt ci` tries by a check of the whole crate. Here wrong bodies of different functions are tried in one check,
of these functions and what they call, right after `rt ci` has proved the crates, over the libraries that it has left. The checks of one crate keep what they have
proved for each other. First comes its control: by the same command all these functions are proved as they stand, else nothing of the crate counts.

A file's first line says in words which clause of a call refuses the wrong body, a line `# only:` which function is tried, and each line `# goal:` a goal of that
function, by the prover's name for it, which must not be proved. A caller stands on what its callee promises and not on its body, so only goals of the function
itself count. One does not count where all that is wrong is a name which its proof misses, nor where the prover meets a limit of steps, memory or time.

With words of its own this tries the wrong bodies of these names alone. With the word --write-goals in front, files that name no goal get the goals that were not
proved, for whoever compares them with the first line.
"""
import os
import re
import shutil
import subprocess
import sys
import tempfile
from collections import Counter
from concurrent.futures import ThreadPoolExecutor
from dataclasses import dataclass, field
from functools import lru_cache
from glob import glob
from importlib.machinery import SourceFileLoader
from importlib.util import module_from_spec, spec_from_loader

TOP = os.path.dirname(os.path.dirname(os.path.realpath(__file__)))
EXPECTED = 250  # how many wrong bodies there are
SECONDS = 3600  # how long a check may take on a busy machine
REFUSED_BY = re.compile(r"# refused by (.+?)(?<!:):(?!:)")  # what stands in backquotes there are functions, types, and clauses, which the word clause announces
QUOTED = re.compile(r"(clauses? )?`([\w:]+)`")
ONLY = re.compile(r"^# only: (\S+)$", re.M)
GOAL = re.compile(r"^# goal: (\S+)$", re.M)
UNPROVED = re.compile(r"note: src/\S+ it is not proved that .*\(`([^`]+)`\)(.*)")
NAMES = re.compile(r"has no field|is not in scope|has no `|was not admitted")  # a proof names what a wrong body takes away
LIMITS = re.compile(r"ran out of (?:stack|the (?:steps|memory))|outgrew the memory limit|stopped at the step limit")  # of the prover, which says nothing then
CHANGES = re.compile(r"^file: (.+)|^old: (.+)\nnew: (.+)$", re.M)


@dataclass
class Edit:
    path: str
    crate: object  # as the kit has it
    function: str
    text: str
    goals: list = field(init=False)  # those that the file names

    def __post_init__(self):
        self.goals = GOAL.findall(self.text)

    def name(self):
        return os.path.relpath(self.path, TOP)


def load_kit():
    """The kit's module for crates, as the launcher loads it."""
    sys.dont_write_bytecode = True
    loader = SourceFileLoader("launcher", f"{TOP}/capsched")
    launcher = module_from_spec(spec_from_loader("launcher", loader))
    loader.exec_module(launcher)
    return launcher.load_kit()


def read(path):
    with open(path, encoding="utf-8") as it:
        return it.read()


def edits_of(kit, names):
    """The edits of these names, or all where none is given."""
    known, edits = {}, []
    paths = {path: os.path.basename(path)[: -len(".edit")] for path in sorted(glob(f"{TOP}/crates/*/wrong-bodies/*.edit"))}
    lost = set(names) - set(paths.values())
    if lost:
        sys.exit(f"there is no wrong body of the name {', '.join(sorted(lost))}")
    for path in (path for path, name in paths.items() if not names or name in names):
        text = read(path)
        if not REFUSED_BY.match(text) or not ONLY.search(text):
            sys.exit(f"{path} does not begin with '# refused by ..: ', or has no line '# only: FUNCTION'")
        crate = kit.Crate(os.path.dirname(os.path.dirname(path)), TOP, known)
        strange = [name for name in QUOTED.findall(REFUSED_BY.match(text)[1]) if not stands(kit, crate, *name)]
        if strange:
            sys.exit(f"{path}: its crate has no {', '.join(is_clause + name for is_clause, name in strange)}")
        edits.append(Edit(path, crate, ONLY.search(text)[1], text))
        changed(crate.folder, edits[-1])
    return edits


def stands(kit, crate, is_clause, name):
    """Whether a crate has a function or a type of this name, or a clause: of a contract, or of a record that one cites."""
    last = name.rpartition("::")[2]
    form = rf"\bensures(?: \*)? {last} \{{|^  pub {last} :" if is_clause else rf"\b(?:fn|struct|enum|trait) {last}\b"
    return bool(re.search(form, text_of(tuple(kit.files_of(crate.folder))), re.M))


@lru_cache(maxsize=1)
def text_of(files):
    """The texts of the files of one crate, which are asked for again and again."""
    return "\n".join(read(file) for file in files if "/proofs/" not in file)


def rounds_of(edits):
    """The edits of each crate in rounds: in one no two are of one function. The crate with the most rounds comes first."""
    crates, before = {}, Counter()
    for edit in edits:
        place = edit.crate.name, edit.function
        rounds = crates.setdefault(edit.crate.name, [])
        if before[place] == len(rounds):
            rounds.append([])
        rounds[before[place]].append(edit)
        before[place] += 1
    return sorted(crates.values(), key=len, reverse=True)


def changed(folder, edit):
    """The files of a crate, or of a copy, as an edit changes them, by their paths. Each old text stands in its file once."""
    path, texts = None, {}
    for file, old, new in CHANGES.findall(edit.text):
        if file:
            path = f"{folder}/{file}"
            texts.setdefault(path, read(path))
        elif texts[path].count(old) != 1:
            sys.exit(f"{edit.name()}: '{old}' stands in its file {texts[path].count(old)} times, and not once")
        else:
            texts[path] = texts[path].replace(old, new)
    return texts


def change(folder, edit):
    """Makes the changes of an edit in a copy of its crate."""
    for path, text in changed(folder, edit).items():
        with open(path, "w", encoding="utf-8") as it:
            it.write(text)


def check(kit, crate, functions, edits, kept):
    """What the prover says of these functions in a copy of the crate with all changes of the edits. In the folder stands what earlier checks of it have proved."""
    with tempfile.TemporaryDirectory(prefix="wrong-body-") as room:
        for part in ("src", "specs", "proofs"):
            if os.path.isdir(f"{crate.folder}/{part}"):
                shutil.copytree(f"{crate.folder}/{part}", f"{room}/{part}")
        for edit in edits:
            change(room, edit)
        only = [word for it in functions for word in ("--only", it)]
        words = [*kit.guarded(), kit.RATTLE, "check", *crate.words(["--jobs", "1", *only], keeps=False), "--incremental", kept]
        how = {"stdout": subprocess.PIPE, "stderr": subprocess.STDOUT, "text": True, "errors": "replace", "timeout": SECONDS}
        try:
            return subprocess.run(words, cwd=room, stdin=subprocess.DEVNULL, **how).stdout.splitlines() or ["nothing is said"]
        except subprocess.TimeoutExpired:
            return [f"it has not ended after {SECONDS} s"]


def fault_of(lines):
    """Why a check that said this has come to no end, and nothing where it has."""
    wrong = [it for it in lines if re.search(r"\berror\[", it)]
    if re.match(r"only=\d+ proved=\d+", lines[-1]) and not wrong:
        return ""
    return [*wrong, *(it for it in lines if "error" in it or LIMITS.search(it)), lines[-1]][0][:300]


def fault_of_control(lines):
    """Why the check of unchanged functions, which said this, has not proved them all, and nothing where it has."""
    unproved = [it for it in lines if re.match(r"fn \S+: (?!proved)", it)]
    counted = re.match(r"only=([1-9]\d*) proved=(\d+)", lines[-1])
    if fault_of(lines) or unproved:
        return fault_of(lines) or unproved[0][:300]
    return "" if counted and counted[1] == counted[2] else lines[-1]


def goals_of(edit, lines):
    """The goals of an edit's function that are not proved: what is said of each, and whether it counts. None where the function isn't spoken of."""
    form = rf"fn {edit.crate.name}::((?:\S+::)?{edit.function}): "
    at = next((at for at, it in enumerate(lines) if re.match(form, it)), None)
    if at is None:
        return None
    # what `search` did not prove stands in the function's line and in notes above it
    goals = {it: (it, True) for it in re.findall(r"`([^`]+)`", "".join(re.findall(r"`search` did not prove ([^;]*)", lines[at])))}
    above = next((above for above in range(at, 0, -1) if lines[above - 1].startswith("fn ")), 0)
    goals.update({it[1]: (it[1] + it[2], True) for it in map(UNPROVED.match, lines[above:at]) if it})
    # what is wrong in the function's proof files (those of a recursion have a `+`) stands in lines of these
    folder, _, name = re.match(form, lines[at])[1].replace("::", "/").rpartition("/")
    proofs = re.compile(rf"\./proofs/{folder}{'/' if folder else ''}\+?{name}/\S+: error: (?:`([^`]+)`: )?(.*)")
    for it in filter(None, map(proofs.match, lines)):
        counts = bool(it[1]) and not NAMES.search(it[2]) and not LIMITS.search(it[2])
        if counts or it[1] not in goals:
            goals[it[1]] = (f"{it[1] or 'a text that cannot be read'}: {it[2]}", counts)
    return goals


def verdict(edit, lines):
    """Whether the prover, which said this, refuses an edit as its file says, at which goals that count, and what to say of it."""
    goals = None if fault_of(lines) else goals_of(edit, lines)
    if goals is None:
        return False, [], fault_of(lines) or "the prover says nothing of its function"
    counted = [it for it, (_, counts) in goals.items() if counts]
    lacking = [it for it in edit.goals if it not in counted]
    if not counted:
        said = "; ".join(said for said, _ in goals.values())
        return False, [], f"not for what a goal says: {said[:300]}" if goals else "its function has no goal that is not proved"
    if lacking:
        return False, counted, f"{', '.join(lacking)} must not be proved, and {', '.join(counted)} is what is not"
    return True, counted, "; ".join(goals[it][0] for it in counted)[:300]


def try_rounds(kit, rounds):
    """The same of all rounds of a crate, one after the other, once its control is proved."""
    crate, results = rounds[0][0].crate, []
    with tempfile.TemporaryDirectory(prefix="wrong-body-") as kept:
        functions = sorted({edit.function for edits in rounds for edit in edits})
        fault = fault_of_control(check(kit, crate, functions, [], kept))
        if fault:
            return [(edit, False, [], f"it is not tried, since {crate.name} as it stands is not proved: {fault}") for edits in rounds for edit in edits]
        for edits in rounds:
            lines = check(kit, crate, [edit.function for edit in edits], edits, kept)
            for edit in edits:
                found = verdict(edit, lines)
                if not found[0] and len(edits) > 1:
                    # another of its round may be in its way
                    found = verdict(edit, check(kit, crate, [edit.function], [edit], kept))
                results.append((edit, *found))
    return results


def write_goals(edit, goals):
    """Names these goals in an edit's file, after the line of its function."""
    with open(edit.path, "w", encoding="utf-8") as it:
        it.write(ONLY.sub(lambda only: "\n".join([only[0], *(f"# goal: {goal}" for goal in goals)]), edit.text, count=1))


def main():
    writes = sys.argv[1:2] == ["--write-goals"]
    names = sys.argv[1 + writes :]
    kit = load_kit()
    edits = edits_of(kit, names)
    if not names and len(edits) != EXPECTED:
        sys.exit(f"{EXPECTED} wrong bodies are to be tried, and here are {len(edits)}")
    lacking = {it.name for edit in edits for it in edit.crate.below() if not os.path.isdir(it.rlib)}
    if lacking:
        sys.exit(f"{', '.join(sorted(lacking))}: not built; run rt ci first")
    # (its first call sets a signal's handler, which only the main thread may)
    kit.guarded()
    refused = named = 0
    with ThreadPoolExecutor(len(os.sched_getaffinity(0))) as pool:
        for results in pool.map(lambda it: try_rounds(kit, it), rounds_of(edits)):
            for edit, is_refused, goals, said in results:
                print(f"{edit.name()}: {'refused' if is_refused else 'NOT REFUSED'}: {said}", flush=True)
                if writes and is_refused and not edit.goals:
                    write_goals(edit, goals)
                refused += is_refused
                named += is_refused and bool(edit.goals)
    print(f"{refused} of {len(edits)} wrong bodies are refused, {named} at the goals that their files name")
    sys.exit(refused < len(edits))


if __name__ == "__main__":
    main()
