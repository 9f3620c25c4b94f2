"""The three services of a trip: a flight, a hotel and a payment. Each is a server of its own, of Python's standard
library alone.

`POST /book` with the field Long-Running-Action books something for that action: the service joins the action, and gives
the coordinator the addresses at which it can be asked to complete the booking, or to compensate it.
"""
import http.server
import json
import threading
import urllib.request

HOST = "127.0.0.1"


def call(method, uri, fields=None, **keys):
    """A request with these keys as its JSON body, and the reply's body."""
    data = json.dumps(keys).encode() if keys else None
    request = urllib.request.Request(uri, data, fields or {}, method=method)
    with urllib.request.urlopen(request, timeout=10) as reply:
        text = reply.read()
    return json.loads(text) if text else None


class Handler(http.server.BaseHTTPRequestHandler):
    """Hands requests on to the service, and sends the code that it answers."""

    def take(self):
        self.rfile.read(int(self.headers.get("Content-Length", 0)))
        code = self.server.service.take(self.path[1:], self.headers)
        self.send_response(code)
        self.send_header("Content-Length", "0")
        self.end_headers()

    do_POST = do_PUT = do_DELETE = take

    def log_message(self, *_):
        """The services print nothing themselves."""


class Service:
    """One that books things for actions. What happened to the booking of an action is in `story`."""

    def __init__(self, name, booked, completed, compensated):
        self.name = name
        self.booked = booked
        self.completed = completed
        self.compensated = compensated
        self.story = {}
        self.refuses = set()
        self.server = None
        self.port = 0
        self.come_up()

    def come_up(self):
        """Begins to listen, at the port that it had before."""
        self.server = http.server.ThreadingHTTPServer((HOST, self.port), Handler)
        self.server.service = self
        self.port = self.server.server_address[1]
        threading.Thread(target=self.server.serve_forever, args=(0.02,), daemon=True).start()

    def go_down(self):
        """Listens no more: who calls finds nobody."""
        self.server.shutdown()
        self.server.server_close()

    def uri(self, path):
        return f"http://{HOST}:{self.port}/{path}"

    def take(self, path, fields):
        """What is done for a request, and its reply's code."""
        if path == "book":
            return self.book(fields["Long-Running-Action"])
        if path == "forget":
            return self.note(fields["Long-Running-Action"], "told to forget it", 200)
        action = fields["Long-Running-Action"]
        if action in self.refuses:
            return self.note(action, "refused", 409)
        return self.note(action, self.completed if path == "complete" else self.compensated, 200)

    def book(self, action):
        """Joins the action, and books."""
        call("PUT", action, complete=self.uri("complete"), compensate=self.uri("compensate"), forget=self.uri("forget"))
        return self.note(action, self.booked, 200)

    def note(self, action, what, code):
        """Writes down what happened to an action's booking. A coordinator may ask twice; it is done once."""
        story = self.story.setdefault(action, [])
        if what not in story:
            story.append(what)
        return code
