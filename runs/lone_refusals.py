#!/usr/bin/env python3
"""Runs PROGRAM, the built lone_refusals, once for each allocation that it makes, with this one refused and no other: each run must end well and print what
crates/lone_refusals/stdout has.

The program makes each of its cases twice, so whichever allocation is refused, one of the two times is made as ever, and the other says so, changes nothing, and
is made once memory is there; it says otherwise where that is not so. refuse_nth.c, compiled here by cc, is the allocator.
"""
import os
import subprocess
import sys
import tempfile
from concurrent.futures import ThreadPoolExecutor

TOP = os.path.dirname(os.path.dirname(os.path.realpath(__file__)))
LEAST = 1_000  # allocations: with fewer the allocator was not the one that refuses
SECONDS = 60  # how long a run may take


def run(program, allocator, number):
    """The output of one run with this allocation refused, and how many were asked for; none where it did not end well."""
    receive, send = os.pipe()
    try:
        environment = {"LD_PRELOAD": allocator, "REFUSED": str(number), "COUNT_TO": str(send)}
        ran = subprocess.run([program], env=environment, capture_output=True, timeout=SECONDS, pass_fds=[send])
        os.close(send)
        send = None
        asked = os.read(receive, 64)
    finally:
        os.close(receive)
        if send is not None:
            os.close(send)
    return (ran.stdout, int(asked or 0)) if ran.returncode == 0 else (None, 0)


def main():
    program = os.path.abspath(sys.argv[1])
    with open(f"{TOP}/crates/lone_refusals/stdout", "rb") as it:
        wanted = it.read()
    with tempfile.TemporaryDirectory() as folder:
        allocator = f"{folder}/refuse_nth.so"
        subprocess.run(["cc", "-O2", "-shared", "-fPIC", "-o", allocator, f"{TOP}/runs/refuse_nth.c"], check=True)
        output, asked = run(program, allocator, 0)
        if output != wanted or asked < LEAST:
            sys.exit(f"with none refused it asks for {asked} allocations, and prints {output}")
        with ThreadPoolExecutor(os.cpu_count()) as pool:
            numbers = range(1, asked + 1)
            ended = zip(numbers, pool.map(lambda number: run(program, allocator, number), numbers))
            unlike = [(number, output) for number, (output, count) in ended if output != wanted or count < number]
    for number, output in unlike[:20]:
        print(f"allocation {number} refused: {output}", file=sys.stderr)
    if unlike:
        sys.exit(f"{len(unlike)} of {asked} refusals come to something else")
    print(f"each of {asked} allocations was refused alone")


if __name__ == "__main__":
    main()
