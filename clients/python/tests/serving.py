"""Starts the program for the tests: crates/capsched/out/capsched, or what CAPSCHED names."""
import os
import socket
import subprocess
import threading
import time

TOP = os.path.abspath(os.path.join(os.path.dirname(__file__), "..", "..", ".."))
EXAMPLES = f"{TOP}/examples"
PROGRAM = os.environ.get("CAPSCHED", f"{TOP}/crates/capsched/out/capsched")


def free_port():
    """A port of 127.0.0.1 where nothing listens."""
    with socket.socket() as free:
        free.bind(("127.0.0.1", 0))
        return free.getsockname()[1]


def serve(test, config, connections, port=None):
    """`capsched serve` with one worker on a port of 127.0.0.1, a free one if not given, until the test ends: the port
    and the process."""
    port = port or free_port()
    words = ["serve", "--port", port, "--workers", 1, "--config", config, "--connections", connections]
    daemon = subprocess.Popen([PROGRAM, *map(str, words)], stdout=subprocess.PIPE, stderr=subprocess.DEVNULL, text=True)
    test.addCleanup(daemon.stdout.close)
    test.addCleanup(daemon.wait)
    test.addCleanup(daemon.kill)
    test.assertEqual(line_of(daemon), f"listening {port}\n")
    return port, daemon


def line_of(process, seconds=20):
    """The next line that a process prints. Where none comes in so many seconds the process is killed, and so ends what
    it prints."""
    timer = threading.Timer(seconds, process.kill)
    timer.start()
    try:
        return process.stdout.readline()
    finally:
        timer.cancel()


def read(name):
    """The text of a file in examples/."""
    with open(f"{EXAMPLES}/{name}", encoding="utf-8") as it:
        return it.read()


def wait_until(test, holds, what, seconds=20):
    """Waits until a call answers true, and fails after so many seconds."""
    end = time.monotonic() + seconds
    while not holds():
        test.assertLess(time.monotonic(), end, what)
        time.sleep(0.005)
