"""Shows the front of this folder at work on 127.0.0.1, with ports and certificates of its own, and ends all of it:

    PYTHONPATH=clients/python/src python3 examples/tls/try_it.py ./capsched

A client with a certificate is answered. One without is not, nor one whose certificate is from another authority, and
the daemon hears of neither. It takes `stunnel4` and `openssl`. The status is 0 where all of that was so."""
from __future__ import annotations

import os
import re
import select
import socket
import subprocess
import sys
import tempfile
import time
from contextlib import ExitStack
from pathlib import Path
from typing import IO, Dict, List, Optional

from capsched import Connection, Resource

HERE = Path(__file__).resolve().parent
SECONDS = 20.0  # how long anything here is waited for


class Failed(Exception):
    """Something was not as it is shown."""


def free_port() -> int:
    """A port of 127.0.0.1 where nothing listens."""
    with socket.socket() as free:
        free.bind(("127.0.0.1", 0))
        return int(free.getsockname()[1])


def wait_for(output: Optional[IO[bytes]], words: bytes) -> None:
    """Waits until a program has printed these words. Failed where they don't come in time, or it ends before."""
    assert output
    end, printed = time.monotonic() + SECONDS, b""
    while words not in printed:
        more = b""
        if select.select([output], [], [], max(0.0, end - time.monotonic()))[0]:
            more = os.read(output.fileno(), 65_536)
        if not more:
            raise Failed(f"{words.decode()} is expected, and not\n{printed.decode()}")
        printed += more


class Front:
    """A daemon and its front, with certificates in a folder, until the stack closes."""

    def __init__(self, stack: ExitStack, program: str, folder: str, connections: int) -> None:
        self._stack, self._folder, self._front = stack, folder, free_port()
        port = free_port()
        words = ["serve", "--port", port, "--workers", 1, "--connections", connections]
        self.daemon = self._start([program, *map(str, words), "--config", str(HERE.parent / "serve.conf")])
        wait_for(self.daemon.stdout, b"listening")
        accept, connect = f"accept = 127.0.0.1:{self._front}", f"connect = 127.0.0.1:{port}"
        self.server = self._start_stunnel((HERE / "server.conf").read_text(), accept, connect)

    def client(self, own: Dict[str, str]) -> Connection:
        """A connection through a client's side of its own; `own` are its certificate and its key, if it has some."""
        port = free_port()
        settings = re.sub(r"(?m)^(cert|key) = .*\n", "", (HERE / "client.conf").read_text())
        settings += "".join(f"{name} = {file}\n" for name, file in own.items())
        self._start_stunnel(settings, f"accept = 127.0.0.1:{port}", f"connect = localhost:{self._front}")
        return self._stack.enter_context(Connection.to_port(port, timeout=SECONDS))

    def _start_stunnel(self, settings: str, accept: str, connect: str) -> subprocess.Popen[bytes]:
        settings = re.sub(r"(?m)^accept = .*", accept, re.sub(r"(?m)^connect = .*", connect, settings))
        with tempfile.NamedTemporaryFile("w", suffix=".conf", dir=self._folder, delete=False) as file:
            file.write(settings)
        started = self._start(["stunnel4", file.name])
        wait_for(started.stderr, b"Configuration successful")
        return started

    def _start(self, words: List[str]) -> subprocess.Popen[bytes]:
        started = subprocess.Popen(words, cwd=self._folder, stdout=subprocess.PIPE, stderr=subprocess.PIPE, bufsize=0)
        self._stack.callback(started.wait)
        self._stack.callback(started.kill)
        return started


def certificates(folder: str) -> None:
    """Makes an authority and its certificates in a folder. CalledProcessError where that fails."""
    subprocess.run([str(HERE / "make_certificates.sh"), folder], check=True, capture_output=True, timeout=SECONDS)


def own(client: str) -> Dict[str, str]:
    """The lines of a client's certificate and key."""
    return {"cert": f"{client}.pem", "key": f"{client}.key"}


def expect_no_answer(front: Front, own: Dict[str, str], who: str, why: bytes) -> None:
    """A client asks what the cluster holds, and is not answered, for the reason that the server's side gives. Failed
    where it is answered, or another reason is given."""
    try:
        answer = front.client(own).cluster_info()
    except ConnectionError:
        wait_for(front.server.stderr, why)
        print(f"a client {who} is not answered: {why.decode()}")
    else:
        raise Failed(f"a client {who} is answered: {answer}")


def show(program: str) -> None:
    """Shows all. Failed where something is not as it is said."""
    with tempfile.TemporaryDirectory() as folder, ExitStack() as stack:
        certificates(folder)
        certificates(f"{folder}/other")
        front = Front(stack, program, folder, connections=2)
        node = front.client(own("node"))
        number = node.register_node("n1", "/r1", Resource(8192, 8))
        print(f"a node manager with a certificate is answered: it is node {number}")
        expect_no_answer(front, {}, "without a certificate", b"peer did not return a certificate")
        expect_no_answer(front, own("other/node"), "with another authority's certificate", b"certificate verify failed")
        operator = front.client(own("operator"))
        print(f"an operator with a certificate is answered: {operator.cluster_info().nodes} node")
        node.close()
        operator.close()
        out, _ = front.daemon.communicate(timeout=SECONDS)
        print(f"the daemon has accepted two connections, and ends: {out.decode().strip()}")
        if front.daemon.returncode or b"closed epochs=1 entries=2" not in out:
            raise Failed(f"the daemon ended with status {front.daemon.returncode}")


def main() -> int:
    if len(sys.argv) != 2:
        print("try_it.py: give the program capsched", file=sys.stderr)
        return 2
    try:
        show(os.path.abspath(sys.argv[1]))
    except (Failed, OSError, subprocess.SubprocessError) as fault:
        print(f"try_it.py: {fault}", file=sys.stderr)
        return 1
    return 0


if __name__ == "__main__":
    sys.exit(main())
