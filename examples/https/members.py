"""A member with TLS, of Python's standard library alone: it does what it is asked, and notes each request."""
import http.server
import ssl
import threading

HOST = "127.0.0.1"
# How many seconds a connection may take.
SECONDS = 10


class Handler(http.server.BaseHTTPRequestHandler):
    """Answers each callback with 200, over TLS."""

    def setup(self):
        self.request.settimeout(SECONDS)
        # Where the other side doesn't take the certificate, this fails, and no request is read.
        self.request = self.server.member.context.wrap_socket(self.request, server_side=True)
        super().setup()

    def finish(self):
        super().finish()
        self.request.close()

    def take(self):
        self.rfile.read(int(self.headers.get("Content-Length", 0)))
        self.server.member.requests.append(f"{self.command} {self.path} with Host: {self.headers['Host']}")
        self.send_response(200)
        self.send_header("Content-Length", "0")
        self.end_headers()

    do_PUT = do_GET = do_DELETE = take

    def log_message(self, *_):
        """The member prints nothing itself."""


class Server(http.server.ThreadingHTTPServer):
    """Keeps quiet about connections that fail."""

    def handle_error(self, request, client_address):
        """A certificate that the other side doesn't take is told by that side."""


class Member:
    """A service that is called by a name, over TLS."""

    def __init__(self, name):
        self.name = name
        self.requests = []
        self.context = None
        self.server = Server((HOST, 0), Handler)
        self.server.member = self
        self.address = f"{HOST}:{self.server.server_address[1]}"
        threading.Thread(target=self.server.serve_forever, args=(0.02,), daemon=True).start()

    def present(self, certificate):
        """Shows a certificate from now on, a file that has the key too."""
        context = ssl.SSLContext(ssl.PROTOCOL_TLS_SERVER)
        context.load_cert_chain(certificate)
        self.context = context

    def uri(self, path):
        return f"https://{self.name}/{path}"

    def go_down(self):
        self.server.shutdown()
        self.server.server_close()
