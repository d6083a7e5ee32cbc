"""Plays cases of runs/replay through `capsched serve`: a client for each connection sends the pieces of its lines `bytes`, and must read what its lines `out` say.

Those cases are played in which no worker has a step and no ask is taken, so that the daemon's own workers find nothing to do. check.py calls this.
"""
import os
import socket
import subprocess
import sys
import tempfile

sys.dont_write_bytecode = True
import daemon

HERE = os.path.dirname(os.path.abspath(__file__))
TOP = os.path.dirname(HERE)
DEFAULT = b"yarn.scheduler.capacity.root.queues=default"
ALLOCATE, HOW_MANY_ASKS = 3, slice(18, 20)
SECONDS = 20  # how long an answer may take on a busy machine
CASES = 74  # how many cases of runs/replay are played


def completed(unread, piece):
    """The payloads that a piece completes on a connection, whether a length that no frame has ends it then, and the bytes that are left."""
    unread, payloads = unread + piece, []
    while len(unread) >= 4:
        length = int.from_bytes(unread[:4], "big")
        if not 0 < length <= 65_536:
            return payloads, True, b""
        if len(unread) < 4 + length:
            break
        payloads.append(unread[4 : 4 + length])
        unread = unread[4 + length :]
    return payloads, False, unread


def steps_of(given, answers):
    """The property lines of a case, and its steps: each a connection, what it sends (None where it opens), and what it reads. None where it isn't one to play."""
    *printed, status = answers.splitlines()
    if status != b"status 0":
        return None
    conf, steps, unread, printed = [], [], {}, iter(printed)
    for line in given.splitlines():
        words = line.split(b" ")
        if line.startswith(b"conf "):
            conf.append(line[5:])
        elif words[0] == b"open" and words[1] not in unread:
            unread[words[1]] = b""
            steps.append((words[1], None, []))
            next(printed)
        elif words[0] == b"bytes" and unread.get(words[1]) is not None:
            piece = bytes.fromhex(words[2].decode())
            payloads, is_over, left = completed(unread[words[1]], piece)
            read = [bytes.fromhex(next(printed).split(b" ")[2].decode()) for _ in range(len(payloads) + is_over)]
            if any(is_taken(payload, answer) for payload, answer in zip(payloads, read)):
                return None
            if is_over:
                next(printed)
            unread[words[1]] = None if is_over else left
            steps.append((words[1], piece, read))
        elif words[0] in (b"open", b"bytes", b"end"):
            unread[words[1]] = None
            next(printed)
        elif line and not line.startswith(b"#"):
            return None
    return b"\n".join(conf or [DEFAULT]), steps


def is_taken(payload, answer):
    """Whether a payload is an Allocate whose asks were taken."""
    return payload[1:2] == bytes([ALLOCATE]) == answer[5:6] and any(payload[HOW_MANY_ASKS]) and answer[10] == 0


def play(program, name, conf, steps):
    """Plays the steps on a daemon of its own, and compares what its clients read."""
    with tempfile.NamedTemporaryFile() as config:
        config.write(conf)
        config.flush()
        port, count = daemon.free_port(), sum(piece is None for _, piece, _ in steps)
        words = ["serve", "--port", str(port), "--workers", "1", "--config", config.name, "--connections", str(count)]
        process = subprocess.Popen([program, *words], stdout=subprocess.PIPE, stderr=subprocess.DEVNULL)
        try:
            daemon.expect(daemon.line_of(process) == b"listening %d\n" % port, name, "the daemon does not listen")
            talk(port, name, steps)
            printed = process.communicate(timeout=SECONDS)[0]
            daemon.expect(printed.startswith(b"closed ") and process.returncode == 0, name, (printed, process.returncode))
        finally:
            process.kill()
            process.wait()
            process.stdout.close()


def talk(port, name, steps):
    """Each step in turn: what a piece is answered is read before the next is sent."""
    clients = {}
    try:
        for connection, piece, answers in steps:
            if piece is None:
                clients[connection] = socket.create_connection(("127.0.0.1", port), timeout=SECONDS)
                continue
            clients[connection].sendall(piece)
            for answer in answers:
                seen = clients[connection].recv(len(answer), socket.MSG_WAITALL)
                daemon.expect(seen == answer, f"{name}: the daemon's answer to {piece.hex()}", seen.hex())
        for connection, client in clients.items():
            client.shutdown(socket.SHUT_WR)
            left = client.recv(1)
            daemon.expect(left == b"", f"{name}: the daemon's last words to {connection.decode()}", left.hex())
    finally:
        for client in clients.values():
            client.close()


def check(program, cases, answers):
    """Plays those of these cases that can be, which are as many as they were. The result is how many they are."""
    played = 0
    for (name, given), (_, text) in zip(cases, answers):
        found = steps_of(given, text)
        if found and found[1]:
            play(program, name.decode(), *found)
            played += 1
    daemon.expect(played == CASES, f"cases of replay: {CASES} are to be played", played)
    return played
