"""The examples of the client's page and of its file, run as they stand; its types; and how long both are."""
import ast
import http.client
import http.server
import re
import shutil
import subprocess
import sys
import textwrap
import threading
import types

import raxunto
from exchanges import quick
from handlers import ask, fields_of
from service import HOST, PATIENCE, LeftOut, check, equal, free_port
from standin import StandIn

FILE, PAGE = "clients/python/raxunto.py", "clients/python/README.md"


def text_of(setting, name):
    with open(f"{setting.root}/{name}", encoding="utf-8") as it:
        return it.read()


def on_the_page(setting):
    """The service of the page."""
    return re.search("```python\n(.*?)```", text_of(setting, PAGE), re.DOTALL)[1]


def in_the_file(which):
    """The service (0) or its client (1) of the file."""
    parts = re.findall(r"(?:^    .*\n|^\n)+", raxunto.__doc__, re.MULTILINE)
    return textwrap.dedent([it for it in parts if "import" in it][which])


def named(source, coordinator, port):
    """An example with other places."""
    return source.replace("http://127.0.0.1:8080/", coordinator).replace("8081", str(port))


class Running:
    """An example's service, which serves in a thread of its own."""

    def __init__(self, source, coordinator):
        self.port = free_port()
        self.source = named(source, coordinator, self.port)

    def __enter__(self):
        self.servers = []
        running = self

        class Server(http.server.ThreadingHTTPServer):
            def serve_forever(self, poll_interval=0.02):
                running.servers.append(self)
                threading.Thread(target=super().serve_forever, args=(0.02,), daemon=True).start()

        module = types.ModuleType("__main__")
        stand_in = types.SimpleNamespace(ThreadingHTTPServer=Server)
        source = self.source.replace("import http.server\n", "")
        vars(module)["http"] = types.SimpleNamespace(server=stand_in)
        exec(compile(source, "example", "exec"), vars(module))  # pylint: disable=exec-used
        module.Hotel.log_message = lambda *_: None
        self.rooms = module.rooms
        return self

    def __exit__(self, *_):
        for server in self.servers:
            server.shutdown()
            server.server_close()

    def book(self, action):
        """Books, and answers the code."""
        connection = http.client.HTTPConnection(HOST, self.port, timeout=PATIENCE)
        connection.request("POST", "/rooms", b"", {"Long-Running-Action": action})
        code = connection.getresponse().status
        connection.close()
        return code


def try_service(source):
    """Tries an example's service over a stand-in."""
    with StandIn() as place, Running(source, place.base) as service:
        coordinator = quick(place)
        trip = coordinator.start()
        equal("a booking", (service.book(trip.uri), service.rooms), (200, {trip.id: "held"}))
        joined = place.members["00000000-0000-8007-8000-000000000001"]
        back = {kind: f"http://127.0.0.1:{service.port}/lra/{trip.id}/{kind}" for kind in ("complete", "compensate")}
        equal("its addresses", joined["addresses"], back)
        for kind, state, word in (("complete", "booked", "Completed"), ("compensate", "free", "Compensated")):
            for _ in range(2):
                told = ask(service.port, kind, f"/lra/{trip.id}/{kind}", fields=fields_of(kind, action=trip.uri))
                equal(kind, (told, service.rooms[trip.id]), ((200, word), state))
        equal("a booking after that", (service.book(trip.uri), service.rooms[trip.id]), (409, "free"))


def test_the_service_of_the_page(setting):
    try_service(on_the_page(setting))


def test_the_service_and_the_client_of_the_file(_):
    try_service(in_the_file(0))
    with StandIn(members=False) as place, Running(in_the_file(0), place.base) as service:
        source = named(in_the_file(1), place.base, service.port)
        told = []
        exec(compile(source, "example", "exec"), {"print": told.append})  # pylint: disable=exec-used
        equal("what it prints", told, ["Closed"])
        equal("the limit", place.requests[0].body, b'{"limit":60000}')


def test_the_page_is_short_and_its_service_too(setting):
    check("the page", len(text_of(setting, PAGE).splitlines()) <= 60)
    lines = [it for it in on_the_page(setting).splitlines() if it.strip()]
    check(f"the service has {len(lines)} lines", len(lines) <= 25)


def test_the_file_is_of_python_3_9_and_of_its_library_alone(setting):
    tree = ast.parse(text_of(setting, FILE), feature_version=(3, 9))
    names = set()
    for node in ast.walk(tree):
        if isinstance(node, ast.Import):
            names |= {it.name.split(".")[0] for it in node.names}
        elif isinstance(node, ast.ImportFrom):
            names.add(node.module.split(".")[0])
    if not hasattr(sys, "stdlib_module_names"):
        raise LeftOut("before 3.10 Python doesn't tell what its library is")
    equal("what isn't the library's", names - sys.stdlib_module_names, set())


def test_its_types_hold(setting):
    if not shutil.which("mypy"):
        raise LeftOut("there is no mypy")
    words = ["mypy", "--strict", "--python-version", "3.9", "--cache-dir", setting.folder]
    files = [f"{setting.root}/{FILE}", f"{setting.root}/tests/clients/typed.py"]
    done = subprocess.run([*words, *files], capture_output=True, text=True, timeout=100, check=False)
    check(done.stdout, done.returncode == 0)
