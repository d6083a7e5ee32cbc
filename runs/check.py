#!/usr/bin/env python3
"""Runs the program on each case of the folders beside this file, and compares byte by byte what comes of it with what is written there.

A folder has the program's words in `args`, one a line. In `cases` are the standard inputs, each after a line `== NAME` and up to the line feed in front of the next
such line. In `answers` stands under the same lines what the program must print, then what it must leave on standard error, each line after `! `, and the exit
status. Then come the scripts of limits.py and, but for the program without it, the daemons of daemon.py, and the cases of runs/replay that served.py plays
through a daemon. PYTHONPATH must name clients/python/src. With words of its own this runs the programs that they name,
else the one that `./capsched` builds.
"""
import difflib
import io
import os
import subprocess
import sys

sys.dont_write_bytecode = True
import daemon
import limits
import renewal
import served

HERE = os.path.dirname(os.path.abspath(__file__))
TOP = os.path.dirname(HERE)
MARK = b"== "
OFFLINE = "capsched_offline"  # the program without the daemon


def read(path):
    with open(path, "rb") as file:
        return file.read()


def cases_of(folder, file="cases"):
    """The cases of a folder: their names and inputs, or with `answers` what each is answered but for its last line feed."""
    text = read(f"{folder}/{file}")
    if not text.startswith(MARK):
        sys.exit(f"{folder}/{file} does not begin with a line '== NAME'")
    return [case.partition(b"\n")[::2] for case in text[len(MARK) :].split(b"\n" + MARK)]


def run(program, words, given):
    """What comes of the program, in the form of `answers`."""
    ended = subprocess.run([program, *words], input=given, capture_output=True, timeout=60)
    complaint = b"".join(b"! " + line for line in io.BytesIO(ended.stderr))
    return ended.stdout + complaint + b"status %d\n" % ended.returncode


def check(program, folder):
    """Runs the program on each case of a folder. The result is how many there are."""
    cases = cases_of(folder)
    words = read(f"{folder}/args").decode().splitlines()
    made = b"".join(MARK + name + b"\n" + run(program, words, given) for name, given in cases)
    wanted = read(f"{folder}/answers")
    if made != wanted:
        lines = [[repr(line) for line in io.BytesIO(text)] for text in (wanted, made)]
        sys.stderr.write("\n".join(difflib.unified_diff(*lines, f"{folder}/answers", program, n=1, lineterm="")) + "\n")
        sys.exit(f"{program} does not answer the cases of {folder} as it must")
    return len(cases)


def main():
    programs = [os.path.abspath(program) for program in sys.argv[1:]]
    if not programs:
        subprocess.run([f"{TOP}/capsched", "--version"], check=True, stdout=subprocess.DEVNULL)
        programs = [f"{TOP}/crates/capsched/out/capsched"]
    folders = sorted(entry.path for entry in os.scandir(HERE) if entry.is_dir())
    if not folders:
        sys.exit(f"{HERE} has no folder of cases")
    for program in programs:
        if not os.access(program, os.X_OK):
            sys.exit(f"{program} is not there: rt ci builds it")
        for folder in folders:
            count = check(program, folder)
            print(f"{os.path.relpath(program, TOP)} {os.path.basename(folder)}: {count} cases are answered as they must be")
        print(f"{os.path.relpath(program, TOP)} limits: {limits.check(program)} scripts are answered as they must be")
        if os.path.basename(program).partition(".")[0] != OFFLINE:
            print(f"{os.path.relpath(program, TOP)} daemon: {daemon.check(program)} cases end as they must")
            print(f"{os.path.relpath(program, TOP)} renewal: {renewal.check(program)} cases end as they must")
            replayed = [cases_of(f"{HERE}/replay", file) for file in ("cases", "answers")]
            print(f"{os.path.relpath(program, TOP)} served: {served.check(program, *replayed)} cases of replay are answered as they must be")


if __name__ == "__main__":
    main()
