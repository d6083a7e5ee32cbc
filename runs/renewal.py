#!/usr/bin/env python3
"""Runs `capsched serve --renew`, whose places are given on until standard input ends, and looks at what it answers, prints and ends with; and how much
memory a daemon takes at most, whatever is asked.

With words this runs the programs that they name, else the one that `./capsched` builds. check.py calls this.
"""
import os
import resource
import select
import socket
import subprocess
import sys
import tempfile
import time

sys.dont_write_bytecode = True
import daemon
from daemon import Daemon, expect, is_answered

HERE = os.path.dirname(os.path.abspath(__file__))
TOP = os.path.dirname(HERE)
PLACES = 4
WORDS = ["--workers", "2", "--connections", str(PLACES), "--renew"]
MANY = 1000  # connections, one after the other
CUTS = 100  # how often a connection is cut after a request was sent
SOON = 5.0  # what takes a few milliseconds may take so many seconds on a busy machine
STEPS = 400  # how often a master asks for what was granted, at most
STACK = 512 << 10  # of a connection's thread, in bytes
GRANTS = b"yarn.scheduler.capacity.root.queues=q\nyarn.scheduler.capacity.root.q.capacity=[memory=1048576,vcores=1024]\n"
PEAK = 200  # how many MiB more than at first a daemon takes at most
KIB = 1024


def u16(n):
    return n.to_bytes(2, "big")


def u32(n):
    return n.to_bytes(4, "big")


def u64(n):
    return n.to_bytes(8, "big")


def text(it):
    return bytes([len(it)]) + it


def resources(memory, vcores):
    return u64(memory) + u64(vcores)


def frame(kind, body, call=1):
    payload = bytes([1, kind]) + u32(call) + body
    return u32(len(payload)) + payload


def asks_for(keys):
    """Asks of so many different priorities, each for one container."""
    return [u32(key) + u64(0) + u32(1) + resources(1024, 1) + text(b"*") for key in keys]


def allocate(app, response, asks=(), releases=()):
    return frame(3, u64(app) + u32(response) + u16(len(asks)) + b"".join(asks) + u16(len(releases)) + b"".join(map(u64, releases)))


def heartbeat(node, response):
    return frame(6, u64(node) + u32(response) + u16(0))


def reply(client):
    """The body of the next reply, which is no refusal."""
    length = int.from_bytes(client.recv(4, socket.MSG_WAITALL), "big")
    payload = client.recv(length, socket.MSG_WAITALL)
    expect(len(payload) == length > 6 and payload[6] == 0, "a reply", payload)
    return payload[7:]


def call(client, request):
    client.sendall(request)
    return reply(client)


def containers_in(body):
    """The new response id, and the numbers of the containers that an Allocate tells of."""
    response, count, at, numbers = int.from_bytes(body[:4], "big"), body[6], 7, []
    for _ in range(count):
        numbers.append(int.from_bytes(body[at : at + 8], "big"))
        at += 8 + 4 + 8 + 8
        at += 1 + body[at] + 16
    return response, numbers


def stopped(daemon_run):
    """Ends its standard input. What it printed after its first line, its words, its status, and how many seconds that took."""
    began = time.monotonic()
    daemon_run.process.stdin.close()
    daemon_run.process.stdin = None
    printed, words = daemon_run.process.communicate(timeout=60)
    return printed, words, daemon_run.process.returncode, time.monotonic() - began


def begin(program, words=(), **how):
    return Daemon(program, [*WORDS, *words], [], given=subprocess.PIPE, **how)


def check_many(program):
    """Many connections come one after the other, through few places."""
    what = f"{MANY} connections through {PLACES} places"
    with begin(program) as run:
        answered = 0
        for _ in range(MANY):
            with run.connect() as client:
                answered += is_answered(client)
        seen = stopped(run)
    expect(answered == MANY, what, answered)
    expect(seen[0] == b"closed epochs=1 entries=%d\n" % MANY and seen[2] == 0 and seen[3] < SOON, what, seen)
    return 1


def check_idle(program):
    """All places are taken by clients that do nothing. One more is served as soon as one of them ends."""
    what = "a client past those that do nothing"
    with begin(program) as run:
        idle = [run.connect() for _ in range(PLACES)]
        answered = [is_answered(client) for client in idle[1:]]
        last = run.connect()
        last.sendall(daemon.ASK)
        early = select.select([last], [], [], 0.5)[0]
        began = time.monotonic()
        idle.pop(0).close()
        got = last.recv(55, socket.MSG_WAITALL)
        took = time.monotonic() - began
        for client in [*idle, last]:
            client.close()
        seen = stopped(run)
    expect(all(answered) and not early and len(got) == 55 and took < SOON, what, (answered, early, got, took))
    expect(seen[0] == b"closed epochs=1 entries=%d\n" % PLACES and seen[2] == 0, what, seen)
    return 1


def cut(run, request, resets):
    """Sends a request and closes the connection before its reply is read."""
    with run.connect() as client:
        client.sendall(request)
        if resets:
            client.setsockopt(socket.SOL_SOCKET, socket.SO_LINGER, u32(1)[::-1] + u32(0))


def check_cuts(program):
    """A master and a node manager lose their connections after each request, and send it again over a new one. Each container is told of once."""
    what = f"{CUTS} connections that are cut"
    with begin(program, settings=GRANTS) as run:
        with run.connect() as client:
            node = int.from_bytes(call(client, frame(5, text(b"n1") + text(b"/r1") + resources(1 << 20, 1024))), "big")
            app = int.from_bytes(call(client, frame(1, text(b"root.q") + text(b"u"))), "big")
            call(client, frame(2, u64(app)))
        told, response, beats = [], 0, 0
        for n in range(CUTS):
            request = allocate(app, response, asks_for([n + 1]))
            cut(run, request, n % 3 == 0)
            with run.connect() as client:
                new, numbers = containers_in(call(client, request))
            expect(new == response + 1, what, (n, response, new))
            told, response = told + numbers, new
            cut(run, heartbeat(node, beats), n % 2 == 0)
            with run.connect() as client:
                new = int.from_bytes(call(client, heartbeat(node, beats))[:4], "big")
            expect(new == beats + 1, what, (n, beats, new))
            beats = new
        with run.connect() as client:
            for _ in range(STEPS):
                if len(told) >= CUTS:
                    break
                response, numbers = containers_in(call(client, allocate(app, response)))
                told += numbers
                time.sleep(0.01)
            _, more = containers_in(call(client, allocate(app, response)))
            shown = call(client, frame(10, b""))
        seen = stopped(run)
    live = int.from_bytes(shown[8:12], "big")
    expect(sorted(told + more) == list(range(1, CUTS + 1)) and live == CUTS, what, (told, more, live))
    expect(seen[2] == 0 and seen[3] < SOON, what, seen)
    return 1


def check_end(program):
    """Standard input ends while a client is connected: it is served until it ends, or for as long as was said; others are refused."""
    for words, closes, at_least, at_most in ((["--drain", "600"], True, 0.3, 30), (["--drain", "1"], False, 1, 1 + SOON), (["--drain", "0"], False, 0, SOON)):
        what = f"the end of standard input with {words}"
        with begin(program, words) as run:
            client = run.connect()
            expect(is_answered(client), what, "no answer")
            began = time.monotonic()
            run.process.stdin.close()
            run.process.stdin = None
            if closes:
                time.sleep(0.3)
                expect(is_answered(client), what, "no answer after it")
                try:
                    with run.connect() as other:
                        refused = not other.recv(1)
                except ConnectionError:
                    refused = True
                expect(refused, what, "another client is accepted")
                client.close()
            printed, said = run.process.communicate(timeout=60)
            took, status = time.monotonic() - began, run.process.returncode
        entries = 2 if closes else 1
        expect(printed == b"closed epochs=1 entries=%d\n" % entries and status == 0 and at_least <= took < at_most, what, (printed, said, status, took))
    return 3


def check_inputs(program):
    """What standard input may be beside a pipe, and that bytes in it mean nothing."""
    with tempfile.NamedTemporaryFile() as file:
        file.write(bytes(100_000))
        file.flush()
        for given, what in ((subprocess.DEVNULL, "no standard input"), (open(file.name, "rb"), "a file")):
            with Daemon(program, WORDS, [], given=given) as run:
                seen = run.ended()
            expect(seen[0] == b"closed epochs=1 entries=0\n" and seen[2] == 0 and seen[3] < SOON, what, seen)
    with begin(program) as run:
        run.process.stdin.write(bytes(1 << 18))
        run.process.stdin.flush()
        with run.connect() as client:
            answered = is_answered(client)
        seen = stopped(run)
    expect(answered and seen[0] == b"closed epochs=1 entries=1\n" and seen[2] == 0 and seen[3] < SOON, "bytes in standard input", (answered, seen))
    with Daemon(program, ["--workers", "1", "--connections", "1"], [], given=subprocess.PIPE) as run:
        run.process.stdin.close()
        run.process.stdin = None
        time.sleep(0.2)
        with run.connect() as client:
            answered = is_answered(client)
        seen = run.ended()
    expect(answered and seen[0] == b"closed epochs=1 entries=1\n" and seen[2] == 0, "the end of standard input without --renew", (answered, seen))
    return 4


def size_of(run, field):
    """A line of /proc/PID/status, in KiB."""
    with open(f"/proc/{run.process.pid}/status") as file:
        return next(int(line.split()[1]) for line in file if line.startswith(field + ":"))


def check_shortage(program):
    """No thread can be made for a connection. It is served where one can within 5 seconds, and else closed alone."""
    for seconds, is_served in ((1, True), (7, False)):
        what = f"a connection without a thread for {seconds} s"
        with begin(program) as run:
            first = run.connect()
            expect(is_answered(first), what, "no answer before it")
            time.sleep(0.5)  # until the workers rest, so that nothing else is wanted than a thread
            limit = size_of(run, "VmSize") * KIB + STACK * 7 // 8
            resource.prlimit(run.process.pid, resource.RLIMIT_AS, (limit, resource.RLIM_INFINITY))
            second = run.connect()
            second.sendall(daemon.ASK)
            early = select.select([second], [], [], seconds)[0]
            beside = is_answered(first)
            resource.prlimit(run.process.pid, resource.RLIMIT_AS, (resource.RLIM_INFINITY, resource.RLIM_INFINITY))
            try:
                got = second.recv(55, socket.MSG_WAITALL)
            except ConnectionError:
                got = b""
            with run.connect() as third:
                after = is_answered(third)
            first.close()
            second.close()
            seen = stopped(run)
        expect(beside and after and len(got) == 55 * is_served and bool(early) == (not is_served), what, (beside, after, got, early, seen))
        expect(seen[0] == b"closed epochs=1 entries=%d\n" % (3 + is_served) and seen[2] == 0 and b"no thread can be made" in seen[1], what, seen)
    return 2


def stats_of(run, seconds):
    """The counts of the next line of statistics that comes in so many seconds."""
    if not select.select([run.process.stderr], [], [], seconds)[0]:
        return None
    first, *pairs = run.process.stderr.readline().decode().split()
    return {name: int(number) for name, number in (pair.split("=") for pair in pairs)} if first == "stats" else None


def check_stats(program):
    """Each second standard error is told what was done since the beginning."""
    what, asked = "statistics each second", 10
    with begin(program, ["--stats", "1"], settings=GRANTS) as run:
        began = time.monotonic()
        with run.connect() as client:
            call(client, frame(5, text(b"n1") + text(b"/r1") + resources(1 << 20, 1024)))
            app = int.from_bytes(call(client, frame(1, text(b"root.q") + text(b"u"))), "big")
            call(client, frame(2, u64(app)))
            call(client, allocate(app, 0, asks_for(range(asked))))
            seen = [stats_of(run, SOON) for _ in range(3)]
        took, end = time.monotonic() - began, stopped(run)
    wanted = {"entries": 4 + asked, "calls": 4, "grants": asked, "reservations": 0, "epochs": 1, "connections": 1}
    expect(all(seen) and all(wanted == {name: counts[name] for name in wanted} and counts["rejected"] >= 0 for counts in seen), what, seen)
    for bad in ("0", "3601"):
        words = [program, "serve", "--port", "1", "--config", "x", *WORDS, "--stats", bad]
        refused = subprocess.run(words, capture_output=True, timeout=daemon.SECONDS)
        expect(refused.returncode == 2 and b"--stats" in refused.stderr, f"--stats {bad}", refused)
    expect(3 <= took < 3 + SOON and end[0] == b"closed epochs=2 entries=%d\n" % (4 + asked) and end[2] == 0, what, (took, end))
    return 1


def check_peak(program):
    """Requests that bring much: how much memory a daemon takes at most, with a short journal and a long one."""
    allocates = allocate(999, 0, asks_for(range(256)), range(10**9, 10**9 + 1024))
    refreshes = frame(11, u32(65_526) + b"#" * 65_526)
    for request, times in ((allocates, 20_000), (refreshes, 5_000)):
        for journal in ("4096", "131072"):
            what = f"the peak of {times} requests of {len(request)} bytes, with a journal of {journal}"
            with begin(program, ["--journal", journal]) as run:
                client = run.connect()
                before, left, got = size_of(run, "VmHWM"), times, 0
                rest, deadline = b"", time.monotonic() + 120
                client.setblocking(False)
                while (left or rest) and time.monotonic() < deadline:
                    readable, writable, _ = select.select([client], [client], [], 1.0)
                    if readable:
                        got += len(client.recv(1 << 16))
                    if writable:
                        if not rest:
                            rest, left = request, left - 1
                        rest = rest[client.send(rest) :]
                client.settimeout(30)
                wanted = 11 if request is allocates else 16
                while got < wanted * times and time.monotonic() < deadline:
                    got += len(client.recv(1 << 16))
                peak = (size_of(run, "VmHWM") - before) / KIB
                client.close()
                seen = stopped(run)
            print(what, got, peak, seen) if "-v" in sys.argv else None
            expect(got == wanted * times and seen[2] == 0 and b"entries=%d\n" % times in seen[0], what, (got, seen))
            expect(peak <= PEAK, what, f"{peak} MiB")
    return 4


def check(program):
    checks = (check_many, check_idle, check_cuts, check_end, check_inputs, check_shortage, check_stats, check_peak)
    return sum(each(program) for each in checks)


def main():
    programs = [os.path.abspath(program) for program in sys.argv[1:] if program != "-v"] or [f"{TOP}/crates/capsched/out/capsched"]
    for program in programs:
        print(f"{os.path.relpath(program, TOP)} renewal: {check(program)} cases end as they must")


if __name__ == "__main__":
    main()
