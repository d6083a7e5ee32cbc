#!/usr/bin/env python3
"""Runs `capsched serve` where the system refuses it threads, memory, descriptors or an audit file, or a client takes no answers, and looks at what it answers, prints and ends with.

A thread is refused by a limit on the process's memory that is less than a thread's stack takes, which has a limit of its own. Beside each limit stands a
control: with what one thread, one journal or one connection takes more, the daemon answers. With words this runs the programs that they name, else the
one that `./capsched` builds.
"""
import os
import re
import resource
import select
import signal
import socket
import subprocess
import sys
import tempfile
import threading
import time

HERE = os.path.dirname(os.path.abspath(__file__))
TOP = os.path.dirname(HERE)
GIB = 1 << 30
SETTINGS = b"yarn.scheduler.capacity.root.queues=default\n"
ASK = bytes.fromhex("00000006010a00000001")  # ClusterInfo, whose answer has 55 bytes
THREADS = 9  # the committer's, and those of eight workers
JOURNAL, ENTRY = 1_000_000, 376  # how many entries a journal has, and how many bytes each takes
REST = 120_000_000  # more than all else takes, in bytes, and less than such a journal
CONNECTION = 3  # how many descriptors a connection takes
DESCRIPTORS = 7 + CONNECTION  # 0 to 2, the listener, three to wait with, and one connection's
EPOCH, CHANGES = 1000, 3  # how many entries an epoch has beside a client that takes nothing, and how many changes of epochs there are
BUFFERS = 8192  # of a client that takes nothing, in bytes, so that it is soon full
FULL = 0.5  # a socket that takes nothing for so many seconds is full; the daemon gives its client up after 5
TRIED = 5.0  # for so many seconds it is tried to make a thread
AUDITED, CALLS, ROOM = 4, 30, 2000  # entries of an epoch that is written to a file, calls of a client beside it, and bytes of a file which is full after some epochs
ALLOCATIONS = 400  # more than bad words take
SECONDS = 20  # how long a line may take on a busy machine
SOON = 5.0  # a daemon that can't go on ends within a second; on a busy machine it may take as many more


class Daemon:
    """A daemon with these limits, each a kind of the module `resource` and a number, or two if it may be raised to the second, and these property lines.
    It ends with the block that it is for."""

    def __init__(self, program, words, limits, settings=SETTINGS, given=subprocess.DEVNULL):
        self.port = free_port()
        self.config = tempfile.NamedTemporaryFile()
        self.config.write(settings)
        self.config.flush()
        words = [program, "serve", "--port", str(self.port), "--config", self.config.name, *words]

        def limit():
            signal.signal(signal.SIGXFSZ, signal.SIG_IGN)
            for kind, *most in limits:
                resource.setrlimit(kind, (most[0], most[-1]))

        self.began = time.monotonic()
        self.process = subprocess.Popen(words, stdin=given, stdout=subprocess.PIPE, stderr=subprocess.PIPE, bufsize=0, preexec_fn=limit)
        self.listening = line_of(self.process)

    def __enter__(self):
        return self

    def __exit__(self, *_):
        self.process.kill()
        self.process.communicate()
        self.config.close()

    def ended(self):
        """What it printed after its first line, its words, its status, and how many seconds it ran."""
        printed, words = self.process.communicate(timeout=30)
        return printed, words, self.process.returncode, time.monotonic() - self.began

    def connect(self, buffers=None):
        """A connection, whose client has buffers of so many bytes if a number is given."""
        client = socket.socket()
        client.settimeout(10)
        for option in (socket.SO_RCVBUF, socket.SO_SNDBUF) if buffers else ():
            client.setsockopt(socket.SOL_SOCKET, option, buffers)
        client.connect(("127.0.0.1", self.port))
        return client


def line_of(process):
    """The next line that a process prints. Where none comes in time the process is killed, and so ends what it prints."""
    timer = threading.Timer(SECONDS, process.kill)
    timer.start()
    try:
        return process.stdout.readline()
    finally:
        timer.cancel()


def free_port():
    with socket.socket() as it:
        it.bind(("127.0.0.1", 0))
        return it.getsockname()[1]


def ask(number):
    """ClusterInfo with this call id."""
    return ASK[:6] + number.to_bytes(4, "big")


def answer(number):
    """Its answer from an empty cluster."""
    return bytes.fromhex("00000033010a") + number.to_bytes(4, "big") + bytes(45)


def fill(client):
    """Sends requests, and reads nothing, until no more is taken. How many were begun, and what is still to be sent of the last."""
    client.setblocking(False)
    begun, rest, deadline = 0, b"", time.monotonic() + SECONDS
    while time.monotonic() < deadline:
        if not rest:
            rest = b"".join(ask(begun + n) for n in range(EPOCH))
            begun += EPOCH
        if not select.select([], [client], [], FULL)[1]:
            return begun, rest
        rest = rest[client.send(rest) :]
    sys.exit("a client that reads nothing: its socket is never full")


def read_back(client, rest):
    """Sends the rest and closes the client's side, and reads all that comes until the daemon closes its own, or nothing comes in time."""
    parts, deadline = [], time.monotonic() + SECONDS
    while time.monotonic() < deadline:
        readable, writable, _ = select.select([client], [client] if rest else [], [], 1.0)
        if writable:
            rest = rest[client.send(rest) :]
            if not rest:
                client.shutdown(socket.SHUT_WR)
        if readable:
            part = client.recv(1 << 16)
            if not part:
                break
            parts.append(part)
    return b"".join(parts)


def is_answered(client):
    try:
        client.sendall(ASK)
        return len(client.recv(55, socket.MSG_WAITALL)) == 55
    except ConnectionError:
        return False


def expect(holds, what, seen):
    if not holds:
        sys.exit(f"{what}: {seen}")


def expect_no_memory(program, words, limits, what, tried=0.0):
    """A daemon with these limits ends soon, for want of memory, once it has tried again for so many seconds."""
    with Daemon(program, words, limits) as daemon:
        seen = daemon.ended()
    expect(seen[0] == b"no memory\n" and seen[2] == 3 and tried < seen[3] < tried + SOON, what, seen)


def expect_answers(program, words, limits, count, what):
    """A daemon with these limits answers so many connections at once, has no words for them, and ends well."""
    with Daemon(program, [*words, "--connections", str(count)], limits) as daemon:
        clients = [daemon.connect() for _ in range(count)]
        answered = [is_answered(client) for client in clients]
        for client in clients:
            client.close()
        seen = daemon.ended()
    expect(all(answered), what, answered)
    expect(seen[0] == b"closed epochs=1 entries=%d\n" % count and seen[2] == 0, what, seen)
    expect(not re.search(rb"^(listener|connection): ", seen[1], re.M), what, seen)


def check_threads(program):
    """No thread can be made, or only some of the committer's and the eight workers'."""
    words, refused = ["--workers", "8"], (0, 1, 2, 5, THREADS - 1)
    limits = [[(resource.RLIMIT_STACK, GIB), (resource.RLIMIT_AS, count * GIB + GIB // 2)] for count in (*refused, THREADS)]
    for count, limit in zip(refused, limits):
        expect_no_memory(program, [*words, "--connections", "1"], limit, f"{count} threads at most", TRIED * 0.9)
    expect_answers(program, words, limits[-1], 1, f"{THREADS} threads")
    return len(limits) + check_shortage(program, words)


def check_shortage(program, words):
    """The threads of the committer and of the workers can't be made at first: it is tried again, and nothing ends."""
    what = "a passing shortage of threads"
    few, enough = GIB + GIB // 2, (THREADS + 1) * GIB
    with Daemon(program, [*words, "--connections", "1"], [(resource.RLIMIT_STACK, GIB), (resource.RLIMIT_AS, few, enough)]) as daemon:
        client = daemon.connect()
        time.sleep(TRIED / 5)
        resource.prlimit(daemon.process.pid, resource.RLIMIT_AS, (enough, enough))
        answered = is_answered(client)
        client.close()
        seen = daemon.ended()
    expect(answered and seen[0] == b"closed epochs=1 entries=1\n" and seen[2] == 0, what, seen)
    expect(seen[1].startswith(b"scheduling: no thread can be made"), f"words for {what}", seen)
    return 1


def check_memory(program):
    """There is no memory for the journal of the first epoch."""
    words = ["--workers", "1", "--journal", str(JOURNAL)]
    expect_no_memory(program, [*words, "--connections", "1"], [(resource.RLIMIT_AS, REST)], "no memory for a journal")
    expect_answers(program, words, [(resource.RLIMIT_AS, REST + JOURNAL * ENTRY)], 1, "memory for a journal")
    return 2


def check_descriptors(program):
    """The second connection finds no descriptor. It is accepted where the first ends within 5 seconds, and else none is accepted any more."""
    for seconds, entries, status in ((1, 2, 0), (6, 1, 1)):
        what = f"a connection without a descriptor for {seconds} s"
        with Daemon(program, ["--workers", "1", "--connections", "2"], [(resource.RLIMIT_NOFILE, DESCRIPTORS)]) as daemon:
            first = daemon.connect()
            expect(is_answered(first), "the first connection", "no answer")
            second = daemon.connect()
            timer = threading.Timer(seconds, first.close)
            timer.start()
            expect(is_answered(second) == (status == 0), what, "the other answer")
            second.close()
            timer.join()
            seen = daemon.ended()
        expect(seen[0] == b"closed epochs=1 entries=%d\n" % entries and seen[2] == status, what, seen)
        expect(seen[1].startswith(b"listener: "), f"words for {what}", seen)
    limits = [(resource.RLIMIT_NOFILE, DESCRIPTORS + CONNECTION)]
    expect_answers(program, ["--workers", "1"], limits, 2, "descriptors for two connections")
    return 3


def check_backlog(program):
    """A client takes none of its answers, so that its socket is full, and epochs change meanwhile: then it gets each byte, once and in order."""
    what, calls = "a client that takes nothing for a while", EPOCH * CHANGES + 1
    with Daemon(program, ["--workers", "1", "--connections", "2", "--journal", str(EPOCH)], []) as daemon:
        deaf, other = daemon.connect(BUFFERS), daemon.connect()
        begun, rest = fill(deaf)
        answered = [is_answered(other) for _ in range(calls)]
        got = read_back(deaf, rest)
        deaf.close()
        other.close()
        seen = daemon.ended()
    expect(all(answered), f"calls beside {what}", answered.count(False))
    wanted = b"".join(answer(number) for number in range(begun))
    first = next((at for at, (a, b) in enumerate(zip(got, wanted)) if a != b), min(len(got), len(wanted)))
    expect(got == wanted, what, f"{len(got)} bytes of {len(wanted)}, wrong from {first} on")
    total = begun + calls
    expect(seen[0] == b"closed epochs=%d entries=%d\n" % (total // EPOCH + 1, total) and seen[2] == 0, what, seen)
    return 1


def check_waiting(program):
    """There is no descriptor to wait for the listener with: it is said so."""
    what = "no descriptor to wait with"
    with Daemon(program, ["--workers", "1", "--connections", "1"], [(resource.RLIMIT_NOFILE, DESCRIPTORS - CONNECTION - 2)]) as daemon:
        seen = daemon.ended()
    expect(seen[0] == b"" and seen[2] == 1 and seen[1].startswith(b"listener: it can't be waited for: ") and seen[3] < SOON, what, seen)
    return 1


def audited(program, path):
    """What an audit of this file prints."""
    with open(path, "rb") as file:
        seen = subprocess.run([program, "audit"], stdin=file, capture_output=True, timeout=SECONDS)
    expect(seen.returncode == 0, "an audit", seen)
    return seen.stdout


def check_audit(program):
    """Closed epochs are written to a file, and all of them are true; where it is full those that were written stay."""
    words = ["--workers", "1", "--connections", "1", "--journal", str(AUDITED), "--audit"]
    with tempfile.TemporaryDirectory() as folder:
        path = f"{folder}/epochs.audit"
        for what, limits, status in (("an audit file", [], 0), ("an audit file that is full", [(resource.RLIMIT_FSIZE, ROOM)], 1)):
            with Daemon(program, [*words, path], limits) as daemon:
                client = daemon.connect()
                answered = [is_answered(client) for _ in range(CALLS)]
                client.close()
                seen = daemon.ended()
            epochs = CALLS // AUDITED + 1 if status == 0 else int(re.match(rb"audited epochs=(\d+)", audited(program, path)).group(1))
            entries = CALLS if status == 0 else epochs * AUDITED
            said = b"audited epochs=%d entries=%d calls=%d grants=0 reservations=0\n" % (epochs, entries, entries)
            expect(audited(program, path) == said, what, audited(program, path))
            expect(seen[2] == status and all(answered) == (status == 0) and seen[3] < SOON, what, seen)
            if status == 0:
                expect(seen[0] == b"closed epochs=%d entries=%d\n" % (epochs, entries), what, seen)
            else:
                expect(0 < epochs < CALLS // AUDITED and re.search(rb"^audit file: ", seen[1], re.M), what, (epochs, seen))
        for place in (folder, "/dev/full", f"{folder}/none/epochs.audit"):
            with Daemon(program, [*words, place], []) as daemon:
                seen = daemon.ended()
            expect(daemon.listening == b"" and seen[0] == b"" and seen[2] == 1 and seen[1].startswith(b"audit file: "), place, seen)
    return 5


def check_words(program):
    """Each allocation is refused alone that the words take, bad ones, which are else refused in words."""
    words = [program, "serve", "--port", "0", "--workers", "1", "--config", "x", "--connections", "1"]
    with tempfile.TemporaryDirectory() as folder:
        allocator = f"{folder}/refuse_nth.so"
        subprocess.run(["cc", "-O2", "-shared", "-fPIC", "-o", allocator, f"{HERE}/refuse_nth.c"], check=True)
        for number in range(1, ALLOCATIONS):
            environment = {"LD_PRELOAD": allocator, "REFUSED": str(number)}
            seen = subprocess.run(words, env=environment, capture_output=True, timeout=SECONDS)
            if seen.returncode == 2:
                break
            expect((seen.returncode, seen.stdout, seen.stderr) == (3, b"no memory\n", b""), f"words without allocation {number}", seen)
    expect(1 < number < ALLOCATIONS - 1 and seen.stderr.startswith(b"error: "), "bad words", (number, seen))
    return 1


def check_last(program):
    """A client that comes after the last connection is refused, and does not hang."""
    with Daemon(program, ["--workers", "1", "--connections", "1"], []) as daemon:
        first = daemon.connect()
        expect(is_answered(first), "the one connection", "no answer")
        began = time.monotonic()
        try:
            with daemon.connect() as second:
                seen = second.recv(1)
        except ConnectionError as refused:
            seen = refused
        took = time.monotonic() - began
        expect(isinstance(seen, ConnectionError) and took < SOON, "a client past the last", (seen, took))
        expect(is_answered(first), "the one connection after that", "no answer")
        first.close()
        seen = daemon.ended()
    expect(seen[0] == b"closed epochs=1 entries=2\n" and seen[2] == 0, "a daemon of one connection", seen)
    return 1


def check(program):
    checks = (check_threads, check_memory, check_descriptors, check_backlog, check_last, check_waiting, check_audit, check_words)
    return sum(it(program) for it in checks)


def main():
    programs = [os.path.abspath(program) for program in sys.argv[1:]] or [f"{TOP}/crates/capsched/out/capsched"]
    for program in programs:
        print(f"{os.path.relpath(program, TOP)} daemon: {check(program)} cases end as they must")


if __name__ == "__main__":
    main()
