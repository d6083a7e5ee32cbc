"""The exporter's HTTP server."""
from __future__ import annotations

import socket
import sys
from http import HTTPStatus
from http.server import BaseHTTPRequestHandler
from socketserver import ThreadingTCPServer
from typing import Callable, Dict, Tuple, Union

from .looking import Looker
from .metrics import CONTENT_TYPE, metrics_of
from .page import page_of
from .stating import json_of

# the page has its style and its script in itself, and asks no other site for anything
POLICY = "default-src 'none'; style-src 'unsafe-inline'; script-src 'unsafe-inline'; connect-src 'self'; img-src data:"


class Server(ThreadingTCPServer):
    """Serves `/metrics`, `/` and `/state.json` of what a `Looker` knows. `name` is `HOST:PORT`."""

    allow_reuse_address = True
    daemon_threads = True

    def __init__(self, address: Tuple[str, int], looker: Looker, every: float) -> None:
        """OSError where the address can't be bound."""
        self.pages: Dict[str, Tuple[str, Callable[[], str]]] = {
            "/": ("text/html; charset=utf-8", lambda: page_of(looker.state(), looker.history, every)),
            "/metrics": (CONTENT_TYPE, lambda: metrics_of(looker.state())),
            "/state.json": ("application/json", lambda: json_of(looker.state())),
        }
        host = address[0]
        self.address_family = socket.AF_INET6 if ":" in host else socket.AF_INET
        super().__init__(address, Handler)
        port = self.socket.getsockname()[1]
        self.name = f"[{host}]:{port}" if ":" in host else f"{host}:{port}"

    def handle_error(self, request: Union[socket.socket, Tuple[bytes, socket.socket]], client_address: object) -> None:
        """A browser that went before it was answered is no fault; others are printed."""
        if not isinstance(sys.exc_info()[1], OSError):
            super().handle_error(request, client_address)


class Handler(BaseHTTPRequestHandler):
    """Answers GET and HEAD."""

    server: Server
    protocol_version = "HTTP/1.1"
    timeout = 30

    def do_GET(self) -> None:
        self.answer(has_body=True)

    def do_HEAD(self) -> None:
        self.answer(has_body=False)

    def answer(self, has_body: bool) -> None:
        kind, write = self.server.pages.get(self.path.partition("?")[0], ("", None))
        if write is None:
            self.send_error(HTTPStatus.NOT_FOUND, explain="There are /, /metrics and /state.json.")
            return
        body = write().encode()
        self.send_response(HTTPStatus.OK)
        self.send_header("Content-Type", kind)
        self.send_header("Content-Length", str(len(body)))
        self.send_header("Cache-Control", "no-store")
        self.send_header("Content-Security-Policy", POLICY)
        self.end_headers()
        if has_body:
            self.wfile.write(body)

    def log_message(self, format: str, *args: object) -> None:
        """Requests are not logged."""
