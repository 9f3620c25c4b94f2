"""Members' services: they take what the coordinator asks, and answer as a test wants."""
import http.server
import socketserver
import threading
import time
from collections import namedtuple

import service

Request = namedtuple("Request", "method path fields body moment")
PHRASES = http.server.BaseHTTPRequestHandler.responses


class Server(socketserver.ThreadingTCPServer):
    allow_reuse_address = True
    daemon_threads = True
    block_on_close = False
    request_queue_size = 128

    def handle_error(self, request, client_address):
        """A coordinator that goes away in the middle of a request is no fault of these tests."""


class Handler(http.server.BaseHTTPRequestHandler):
    protocol_version = "HTTP/1.1"

    def handle_one_request(self):
        super().handle_one_request()
        self.close_connection = True

    def take(self):
        length = int(self.headers.get("Content-Length", 0))
        body = self.rfile.read(length)
        request = Request(self.command, self.path, dict(self.headers), body, time.monotonic())
        answer = self.server.participant.answered(request)
        if isinstance(answer, tuple):
            self.wfile.write(plain(*answer))
        elif answer is not None:
            for piece in answer:
                self.wfile.write(piece)

    do_GET = do_PUT = do_DELETE = do_POST = take

    def log_message(self, *_):
        """Prints nothing."""


def plain(code, body=b""):
    """The bytes of a reply."""
    return b"HTTP/1.1 %d %s\r\nContent-Length: %d\r\n\r\n%s" % (code, PHRASES[code][0].encode(), len(body), body)


class Participant:
    """A service that answers each request as `answer` says: a code and a body; pieces of bytes, as they stand;
    or nothing."""

    # What takes a connection.
    handler = Handler

    def __init__(self, answer=lambda request: (200, b"")):
        self.answer = answer
        self.requests = []
        self.faults = []
        self.arrived = threading.Condition()

    def __enter__(self):
        self.server = Server((service.HOST, 0), self.handler)
        self.server.participant = self
        self.port = self.server.server_address[1]
        self.thread = threading.Thread(target=self.server.serve_forever, args=(0.02,), daemon=True)
        self.thread.start()
        return self

    def __exit__(self, *_):
        self.server.shutdown()
        self.server.server_close()

    def answered(self, request):
        with self.arrived:
            self.requests.append(request)
            self.arrived.notify_all()
        try:
            return self.answer(request)
        except AssertionError as fault:
            self.faults.append(str(fault))
            return (500, b"")

    def uri(self, path):
        return f"http://{service.HOST}:{self.port}/{path}"

    def addresses(self, *kinds):
        """An address for each of these kinds."""
        return {kind: self.uri(kind) for kind in kinds}

    def wait(self, path, count=1, seconds=service.PATIENCE):
        """Waits until so many requests for a path have come, and answers them."""
        with self.arrived:
            self.arrived.wait_for(lambda: len(self.at(path)) >= count, seconds)
            found = self.at(path)
        service.check(f"{len(found)} requests for {path}, wanted {count}", len(found) >= count)
        return found

    def at(self, path):
        return [request for request in self.requests if request.path == "/" + path]


def wait_until(what, holds, seconds=service.PATIENCE):
    """Waits until this holds."""
    end = time.monotonic() + seconds
    while not holds():
        service.check(f"{what} hasn't come in {seconds} s", time.monotonic() < end)
        time.sleep(0.02)


def wait_for_ends(client, actions, status):
    """Waits until each of these actions has ended with a status."""
    for action in actions:
        wait_until("an end", lambda action=action: client.status(action) == status)
