"""A server for one page of one user, on 127.0.0.1, at a port of the system's choosing.

What may ask is whoever knows the token in the address, from the page itself: a request with another host, of another
origin or without the token is refused. The server ends when the last page has been closed for some seconds.
"""
from __future__ import annotations

import http.server
import json
import secrets
import select
import sys
import threading
import time
from typing import Callable, Dict, NamedTuple, Optional, Tuple

LONGEST = 20_000_000  # bytes of a request
SECONDS_WITHOUT_PAGE = 4.0  # a page that is loaded again is away for less
POLICY = (
    "default-src 'none'; script-src 'self'; style-src 'self'; connect-src 'self'; img-src 'self' data:; "
    "base-uri 'none'; form-action 'none'; frame-ancestors 'none'"
)


class Reply(NamedTuple):
    """What is answered."""

    body: bytes
    kind: str
    status: int = 200
    file_name: str = ""


def reply_of(value: object, status: int = 200) -> Reply:
    """A reply of JSON."""
    return Reply(json.dumps(value).encode(), "application/json", status)


Answer = Callable[[object], Reply]


class Server(http.server.ThreadingHTTPServer):
    """Answers by a table of methods and names. changed() lets each page that listens know of a new version."""

    daemon_threads = True

    def __init__(self, answers: Dict[Tuple[str, str], Answer]) -> None:
        super().__init__(("127.0.0.1", 0), Handler)
        self.answers = answers
        self.token = secrets.token_urlsafe(24)
        self.hosts = {f"{it}:{self.server_port}" for it in ("127.0.0.1", "localhost")}
        self.version = 0
        self.news = threading.Condition()
        self.pages = 0
        self.left: Optional[float] = None  # when the last page was closed

    @property
    def address(self) -> str:
        """The address of the page."""
        return f"http://127.0.0.1:{self.server_port}/{self.token}/"

    def changed(self, version: int) -> None:
        """Tells the pages."""
        with self.news:
            self.version = version
            self.news.notify_all()

    def service_actions(self) -> None:
        """Ends the server where no page is left, looked at twice a second."""
        if self.pages == 0 and self.left is not None and time.monotonic() - self.left > SECONDS_WITHOUT_PAGE:
            threading.Thread(target=self.shutdown, daemon=True).start()

    def handle_error(self, request: object, client_address: object) -> None:
        """Says what went wrong on one line; that a browser left is nothing."""
        fault = sys.exc_info()[1]
        if not isinstance(fault, (ConnectionError, TimeoutError)):
            print(f"panel: a request failed: {type(fault).__name__}", file=sys.stderr)


class Handler(http.server.BaseHTTPRequestHandler):
    """One request."""

    server: Server
    server_version, sys_version = "panel", ""
    timeout = 60

    def log_message(self, format: str, *args: object) -> None:  # pylint: disable=redefined-builtin
        """Says nothing of requests."""

    def do_GET(self) -> None:
        """Answers what is asked for."""
        self._answer("GET")

    def do_POST(self) -> None:
        """Answers what is to be done."""
        self._answer("POST")

    def _answer(self, method: str) -> None:
        name = self._name()
        if name is None:
            self._send(Reply(b"refused\n", "text/plain", 403))
        elif method == "GET" and name == "events":
            self._tell_news()
        elif (method, name) not in self.server.answers:
            self._send(Reply(b"there is no such page\n", "text/plain", 404))
        else:
            self._serve(method, name)

    def _serve(self, method: str, name: str) -> None:
        value = None
        if method == "POST":
            length = self.headers.get("Content-Length", "")
            if self.headers.get_content_type() != "application/json" or not length.isdigit() or int(length) > LONGEST:
                self._send(Reply(b"refused\n", "text/plain", 400))
                return
            try:
                value = json.loads(self.rfile.read(int(length)))
            except ValueError:
                self._send(Reply(b"refused\n", "text/plain", 400))
                return
        self._send(self.server.answers[method, name](value))

    def _name(self) -> Optional[str]:
        """What is asked for, or None where the request is refused."""
        own = {f"http://{it}" for it in self.server.hosts}
        if self.headers.get("Host") not in self.server.hosts:
            return None
        if self.headers.get("Origin") is not None and self.headers["Origin"] not in own:
            return None
        if self.headers.get("Sec-Fetch-Site", "none") not in ("none", "same-origin"):
            return None
        parts = self.path.split("?", 1)[0].split("/", 2)
        if len(parts) != 3 or not secrets.compare_digest(parts[1].encode(), self.server.token.encode()):
            return None
        return parts[2]

    def _send(self, reply: Reply) -> None:
        self.send_response(reply.status)
        self.send_header("Content-Type", f"{reply.kind}; charset=utf-8")
        self.send_header("Content-Length", str(len(reply.body)))
        self._send_rules()
        if reply.file_name:
            self.send_header("Content-Disposition", f'attachment; filename="{reply.file_name}"')
        self.end_headers()
        self.wfile.write(reply.body)

    def _send_rules(self) -> None:
        for name, value in (
            ("Content-Security-Policy", POLICY),
            ("X-Content-Type-Options", "nosniff"),
            ("Referrer-Policy", "no-referrer"),
            ("Cross-Origin-Resource-Policy", "same-origin"),
            ("Cache-Control", "no-store"),
        ):
            self.send_header(name, value)

    def _tell_news(self) -> None:
        """Tells each new version, until the page is closed."""
        server = self.server
        self.send_response(200)
        self.send_header("Content-Type", "text/event-stream")
        self._send_rules()
        self.end_headers()
        with server.news:
            server.pages += 1
        told = None
        try:
            while not self._is_closed():
                if told != server.version:
                    told = server.version
                    self.wfile.write(f"data: {told}\n\n".encode())
                with server.news:
                    server.news.wait_for(lambda: told != server.version, timeout=0.5)
        finally:
            with server.news:
                server.pages -= 1
                server.left = time.monotonic()

    def _is_closed(self) -> bool:
        """Whether the browser has closed the connection: it sends nothing more, so what can be read is the end."""
        return bool(select.select([self.connection], [], [], 0)[0])
