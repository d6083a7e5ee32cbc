"""A scheduler page and metrics for a running `capsched serve`.

    capsched-exporter 7070 --config examples/serve.conf

It takes one of the daemon's connections (`--connections`), and one more each time that one has broken. It serves
`/metrics` for Prometheus, `/` for people, and `/state.json`, until SIGINT or SIGTERM ends it. The queues are those of
the settings file."""
from __future__ import annotations

import argparse
import signal
import sys
import threading
from functools import partial
from typing import Optional, Sequence, Tuple

from ..arguments import port, seconds
from ..connection import Connection
from ..watch import queues_in
from .looking import Looker, StatsFile
from .serving import Server

TIMEOUT = 60.0  # a daemon that has not answered for so many seconds is left, and asked over a new connection


def address(text: str) -> Tuple[str, int]:
    """`HOST:PORT`, or `[HOST]:PORT` of an IPv6 address; port 0 is one that is free."""
    host, _, number = text.rpartition(":")
    if not host or not number.isdecimal() or int(number) > 65_535:
        raise argparse.ArgumentTypeError(f"{text!r} is not HOST:PORT, as 127.0.0.1:9101")
    return host.strip("[]"), int(number)


def say(text: str) -> None:
    print(f"capsched-exporter: {text}", file=sys.stderr)


def parse(argv: Optional[Sequence[str]]) -> argparse.Namespace:
    parser = argparse.ArgumentParser(
        prog="capsched-exporter", description="Serves a scheduler page and metrics of a running `capsched serve`.")
    parser.add_argument("port", type=port, help="the daemon's port on 127.0.0.1")
    parser.add_argument(
        "--config", metavar="FILE", help="the settings file of the daemon; without it root alone is shown")
    parser.add_argument(
        "--listen", type=address, default=("127.0.0.1", 9101), metavar="HOST:PORT", help="127.0.0.1:9101 if not given")
    parser.add_argument(
        "--every", type=seconds, default=2.0, metavar="SECONDS", help="how often to look, 2 s if not given")
    parser.add_argument(
        "--stats-file", metavar="FILE", help="the standard error of `capsched serve --stats`, for its counters")
    return parser.parse_args(argv)


def serve(looker: Looker, server: Server, every: float) -> None:
    """Looks and serves until a signal comes."""
    over = threading.Event()
    for kind in (signal.SIGINT, signal.SIGTERM):
        signal.signal(kind, lambda *_: over.set())
    threading.Thread(target=looker.run, args=(every,), daemon=True).start()
    threading.Thread(target=server.serve_forever, daemon=True).start()
    print(f"listening {server.name}", flush=True)
    over.wait()
    looker.stop()
    server.shutdown()
    server.server_close()


def main(argv: Optional[Sequence[str]] = None) -> int:
    """The command `capsched-exporter`: 0, or 1 where the settings file can't be read or the address can't be bound."""
    words = parse(argv)
    try:
        paths = queues_in(words.config) if words.config else ["root"]
        stats = StatsFile(words.stats_file) if words.stats_file else None
        connect = partial(Connection.to_port, words.port, timeout=TIMEOUT)
        looker = Looker(f"127.0.0.1:{words.port}", connect, paths, stats)
        server = Server(words.listen, looker, words.every)
    except OSError as fault:
        say(str(fault))
        return 1
    if not words.config:
        say("root alone is shown: name the daemon's settings file by --config")
    if stats and not stats.exists():
        say(f"{words.stats_file} is not there yet: the daemon's counters are shown once it is")
    serve(looker, server, words.every)
    return 0
