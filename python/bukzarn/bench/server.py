"""Serves the bench on 127.0.0.1: one page with its style and script, what it starts with, and the judge.

A request names no file: the page's files are read once, under names that stand here. Whoever sends a request must have come from
the page itself: another page in the same browser is turned away by its Origin, and one that pretends to be this machine by its
Host. A request that is too large or that takes too long to arrive is turned away too. Nothing is written.
"""
from __future__ import annotations

import json
import socket
import threading
from http import HTTPStatus
from http.server import BaseHTTPRequestHandler, ThreadingHTTPServer
from pathlib import Path

from .pool import Busy, Pool, OverLimit
from .worker import TIME_LIMIT

ADDRESS = "127.0.0.1"

# The most bytes of a request's body, the most watches in it, and the most seconds until it is here.
BODY_LIMIT, WATCH_LIMIT, ARRIVAL_LIMIT = 400_000, 16, 10.0

# What is said of texts that are not judged.
TOO_LARGE = f"The texts have more than {BODY_LIMIT:,} bytes: no image is so large."
OVER_LIMIT_TEXT = (f"This text was given up: it takes more than {TIME_LIMIT:g} seconds, or too much memory. Make it smaller, or "
                   "take fewer frames.")
BUSY = "Other texts are being judged. Change the text to try again."

# The most requests at one time.
CONNECTIONS = 32

FOLDER = Path(__file__).resolve().parent
SCRIPTS = ("page.js", "runs.js", "picture.js", "dom.js")
FILES = {"/": ("page.html", "text/html"), "/page.css": ("page.css", "text/css"),
         **{f"/{name}": (name, "text/javascript") for name in SCRIPTS}}

# Nothing but what this server gives may be loaded or asked, and no other page may show or read it.
HEADERS = {
    "Content-Security-Policy": "default-src 'none'; script-src 'self'; style-src 'self'; connect-src 'self'; img-src data:; "
                               "base-uri 'none'; form-action 'none'; frame-ancestors 'none'",
    "Cache-Control": "no-store", "X-Content-Type-Options": "nosniff", "Referrer-Policy": "no-referrer",
    "Cross-Origin-Resource-Policy": "same-origin", "Cross-Origin-Opener-Policy": "same-origin",
}


class HttpError(Exception):
    """A request that is not answered, with the status and the reason."""

    def __init__(self, status: HTTPStatus, words: str) -> None:
        super().__init__(words)
        self.status, self.words = status, words


class Handler(BaseHTTPRequestHandler):
    """One request; the connection ends with it."""
    server: Server
    server_version, sys_version = "bench", ""
    timeout = ARRIVAL_LIMIT

    def setup(self) -> None:
        """From here on the request has so many seconds to arrive, however it is cut up."""
        super().setup()
        self.alarm = threading.Timer(ARRIVAL_LIMIT, self.abort_connection)
        self.alarm.daemon = True
        self.alarm.start()

    def abort_connection(self) -> None:
        try:
            self.connection.shutdown(socket.SHUT_RDWR)
        except OSError:
            pass  # it has ended by itself

    def finish(self) -> None:
        self.alarm.cancel()
        super().finish()

    def log_message(self, *_) -> None:
        """Requests are not told on the terminal."""

    def do_GET(self) -> None:
        self.answer(self.page)

    def do_POST(self) -> None:
        self.answer(self.verdict)

    def answer(self, found) -> None:
        """Sends what a function finds, or why it finds nothing."""
        try:
            self.check_sender()
            data, kind = found()
            self.send(HTTPStatus.OK, data, kind)
        except HttpError as away:
            self.send(away.status, json.dumps({"problem": away.words}).encode(), "application/json")

    def send(self, status: HTTPStatus, data: bytes, kind: str) -> None:
        self.send_response(status)
        for name, value in {**HEADERS, "Content-Type": f"{kind}; charset=utf-8", "Content-Length": str(len(data))}.items():
            self.send_header(name, value)
        self.end_headers()
        self.wfile.write(data)

    def check_sender(self) -> None:
        """The request is for this server, and comes from no other page."""
        if self.headers.get_all("Host") not in [[host] for host in self.server.hosts]:
            raise HttpError(HTTPStatus.MISDIRECTED_REQUEST, "this server is for the page that it serves")
        origins = self.headers.get_all("Origin") or []
        if any(origin not in self.server.origins for origin in origins) or (self.command == "POST" and len(origins) != 1):
            raise HttpError(HTTPStatus.FORBIDDEN, "requests come from the page that this server serves")

    def page(self) -> tuple[bytes, str]:
        """One of the files, or what the page starts with."""
        if self.path == "/start":
            return self.server.start, "application/json"
        if self.path not in self.server.files:
            raise HttpError(HTTPStatus.NOT_FOUND, "there is nothing here")
        return self.server.files[self.path]

    def verdict(self) -> tuple[bytes, str]:
        """What is to be said of the watches in the request's body."""
        if self.path != "/judge":
            raise HttpError(HTTPStatus.NOT_FOUND, "there is nothing here")
        watches = texts(self.body())
        self.alarm.cancel()
        try:
            return self.server.pool.ask(watches), "application/json"
        except OverLimit:
            raise HttpError(HTTPStatus.UNPROCESSABLE_ENTITY, OVER_LIMIT_TEXT) from None
        except Busy:
            raise HttpError(HTTPStatus.SERVICE_UNAVAILABLE, BUSY) from None

    def body(self) -> bytes:
        """The bytes of the request, if they are JSON and not too many."""
        if self.headers.get_content_type() != "application/json":
            raise HttpError(HTTPStatus.UNSUPPORTED_MEDIA_TYPE, "a request is JSON")
        length = self.headers.get("Content-Length", "")
        if not (length.isascii() and length.isdecimal()) or "Transfer-Encoding" in self.headers:
            raise HttpError(HTTPStatus.LENGTH_REQUIRED, "a request says how long it is")
        if len(length) > 9 or int(length) > BODY_LIMIT:
            raise HttpError(HTTPStatus.REQUEST_ENTITY_TOO_LARGE, TOO_LARGE)
        data = self.rfile.read(int(length))
        if len(data) < int(length):
            raise HttpError(HTTPStatus.REQUEST_TIMEOUT, "the request did not arrive whole")
        return data


def texts(data: bytes) -> list[str]:
    """The texts of watches in a request."""
    try:
        said = json.loads(data)
    except (ValueError, RecursionError):
        raise HttpError(HTTPStatus.BAD_REQUEST, "this is no JSON") from None
    if not isinstance(said, list) or not all(isinstance(text, str) for text in said) or len(said) > WATCH_LIMIT:
        raise HttpError(HTTPStatus.BAD_REQUEST, f"a request is a list of at most {WATCH_LIMIT} texts")
    return said


class Server(ThreadingHTTPServer):
    """The bench of a procedure with its watches, over frames."""
    daemon_threads = True
    request_queue_size = CONNECTIONS

    def __init__(self, port: int, start: dict, setup: dict) -> None:
        self.pool = Pool(setup)
        super().__init__((ADDRESS, port), Handler)
        self.hosts = {f"{name}:{self.server_port}" for name in (ADDRESS, "localhost")}
        self.origins = {f"http://{host}" for host in self.hosts}
        self.files = {path: ((FOLDER / name).read_bytes(), kind) for path, (name, kind) in FILES.items()}
        self.start, self.slots = json.dumps(start).encode(), threading.BoundedSemaphore(CONNECTIONS)

    @property
    def url(self) -> str:
        return f"http://{ADDRESS}:{self.server_port}/"

    def process_request(self, request, client_address) -> None:
        """A thread for each request, as many as there are slots."""
        if self.slots.acquire(blocking=False):
            super().process_request(request, client_address)
        else:
            self.shutdown_request(request)

    def process_request_thread(self, request, client_address) -> None:
        try:
            super().process_request_thread(request, client_address)
        finally:
            self.slots.release()

    def handle_error(self, request, client_address) -> None:
        """A browser that went away is no fault of the server."""

    def server_close(self) -> None:
        super().server_close()
        self.pool.end()
