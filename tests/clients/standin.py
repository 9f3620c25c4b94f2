"""A stand-in for a coordinator, written from the tables of docs/use/http.md alone, that fails as it is told."""
import json
import re
import socket
import struct
import threading
import time
from collections import namedtuple

import service

Request = namedtuple("Request", "method path fields body connection")
PHRASES = {200: "OK", 201: "Created", 202: "Accepted"}
ID = "00000000-0000-8007-8000-{:012x}"
ENDS = {"close": ("Closing", "Closed"), "cancel": ("Cancelling", "Cancelled")}

# What may become of one request. Of those that carry it out the reply is lost, or comes late.
LOST = "carried out, and closed with no reply"
RESET = "carried out, and reset"
DROPPED = "read, and closed with no reply"
SILENT = "carried out, and nothing more"
LAST = "answered, and closed without saying so"
Part = namedtuple("Part", "length")  # carried out, and so much of the reply
Slow = namedtuple("Slow", "pause")  # carried out, and each byte of the reply after a pause
Says = namedtuple("Says", "data keeps")  # these bytes in the place of a reply


class Refusal(Exception):
    """A refusal, by its code and the keys of its body."""

    def __init__(self, code, error, **more):
        super().__init__(error)
        self.code, self.body = code, {"error": error, **more}


def reply(code, body, fields=()):
    """The bytes of a reply."""
    text = json.dumps(body, separators=(",", ":")).encode() if isinstance(body, dict) else body
    lines = [f"HTTP/1.1 {code} {PHRASES.get(code, 'Refused')}", "Content-Type: application/json", *fields]
    return "\r\n".join([*lines, f"Content-Length: {len(text)}", "", ""]).encode() + text


class StandIn:
    """A server that keeps actions in memory. `faults` has what becomes of the next requests, one each."""

    def __init__(self, *faults, prefix="/", members=True, host=service.HOST, tls=None):
        self.faults = list(faults)
        self.prefix = prefix
        self.host = host
        # The context of its TLS, if it has that.
        self.tls = tls
        # Whether members hold up the end of their action.
        self.members_wait = members
        self.requests = []
        self.connections = self.ended = 0
        self.actions = {}
        self.members = {}
        self.lock = threading.Lock()
        self.streams = set()

    def __enter__(self):
        family = socket.AF_INET6 if ":" in self.host else socket.AF_INET
        self.listener = socket.create_server((self.host, 0), family=family, backlog=64)
        self.port = self.listener.getsockname()[1]
        host = f"[{self.host}]" if ":" in self.host else self.host
        self.base = f"http{'s' if self.tls else ''}://{host}:{self.port}{self.prefix}"
        threading.Thread(target=self.accept, daemon=True).start()
        return self

    def __exit__(self, *_):
        # (A close alone wouldn't wake the thread that accepts.)
        self.listener.shutdown(socket.SHUT_RDWR)
        self.listener.close()
        with self.lock:
            for stream in self.streams:
                stream.close()

    def accept(self):
        while True:
            try:
                stream, _ = self.listener.accept()
            except OSError:
                return
            with self.lock:
                self.streams.add(stream)
                self.connections += 1
                number = self.connections
            threading.Thread(target=self.serve, args=(stream, number), daemon=True).start()

    def serve(self, stream, number):
        """Answers the requests of a connection."""
        try:
            if self.tls:
                stream = self.tls.wrap_socket(stream, server_side=True)
            with stream.makefile("rb") as reader:
                while (request := read(reader, number)) and self.answer(stream, request):
                    pass
        except OSError:
            pass
        finally:
            stream.close()
            with self.lock:
                self.ended += 1

    def answer(self, stream, request):
        """Answers a request, and says whether the connection goes on."""
        with self.lock:
            self.requests.append(request)
            fault = self.faults.pop(0) if self.faults else None
            data = b"" if fault == DROPPED or isinstance(fault, Says) else self.carried_out(request)
        if fault in (LOST, DROPPED):
            return False
        if fault == RESET:
            stream.setsockopt(socket.SOL_SOCKET, socket.SO_LINGER, struct.pack("ii", 1, 0))
            return False
        if fault == SILENT:
            stream.recv(1)
            return False
        if isinstance(fault, Slow):
            for byte in data:
                stream.sendall(bytes([byte]))
                time.sleep(fault.pause)
            return True
        if isinstance(fault, Part):
            stream.sendall(data[: fault.length])
            return False
        stream.sendall(fault.data if isinstance(fault, Says) else data)
        return fault.keeps if isinstance(fault, Says) else fault != LAST

    def carried_out(self, request):
        """The reply to a request that is carried out."""
        try:
            return self.routed(request)
        except Refusal as it:
            return reply(it.code, it.body)

    def routed(self, request):
        """The reply of a route."""
        path = request.path
        if not path.startswith(self.prefix):
            raise Refusal(404, "NoSuchPath")
        parts = path[len(self.prefix) :].split("/")
        body = json.loads(request.body or b"{}")
        routes = {
            ("POST", "lra-coordinator", 1): lambda: self.start(body),
            ("GET", "lra-coordinator", 2): lambda: self.status(parts[1]),
            ("PUT", "lra-coordinator", 2): lambda: self.join(parts[1], body),
            ("PUT", "lra-coordinator", 3): lambda: self.change(parts[1], parts[2], body),
            ("GET", "lra-recovery", 2): lambda: reply(200, {"status": self.member(parts[1])["status"]}),
            ("PUT", "lra-recovery", 2): lambda: self.report(parts[1], body),
        }
        route = routes.get((request.method, parts[0], len(parts)))
        if not route:
            raise Refusal(405, "BadMethod")
        return route()

    def action(self, name):
        if name not in self.actions:
            raise Refusal(404, "NoSuchAction")
        return self.actions[name]

    def member(self, name):
        if name not in self.members:
            raise Refusal(404, "NoSuchMember")
        return self.members[name]

    def active(self, name):
        action = self.action(name)
        if action["status"] != "Active":
            raise Refusal(412, "NotActive", status=action["status"])
        return action

    def start(self, body):
        parent = body.get("parent")
        if parent is not None:
            self.active(parent.rsplit("/", 1)[1])
        name = ID.format(len(self.actions) + 1)
        self.actions[name] = {"status": "Active", "parent": parent, "limit": body.get("limit"), "members": []}
        uri = f"{self.base}lra-coordinator/{name}"
        return reply(201, {"lra": uri}, (f"Location: {uri}", f"Long-Running-Action: {uri}"))

    def status(self, name):
        return reply(200, {"lra": f"{self.base}lra-coordinator/{name}", "status": self.action(name)["status"]})

    def join(self, name, body):
        action = self.active(name)
        if not body.keys() & {"compensate", "after"}:
            raise Refusal(400, "BadAddresses")
        same = [it for it in action["members"] if self.members[it]["addresses"] == body]
        if not same or self.members[same[-1]]["left"]:
            same = [ID.format(len(self.members) + 1)]
            self.members[same[-1]] = {"action": name, "addresses": body, "status": "Active", "left": False}
            action["members"] += same
        uri = f"{self.base}lra-recovery/{same[-1]}"
        return reply(200, {"recovery": uri}, (f"Long-Running-Action-Recovery: {uri}",))

    def change(self, name, how, body):
        """A close, a cancel, a leave or a renewal."""
        if how in ENDS:
            return self.end(name, ENDS[how])
        action = self.action(name)
        if how == "remove":
            member = self.member(body["recovery"].rsplit("/", 1)[1])
            if member["action"] != name:
                raise Refusal(409, "WrongAction")
            if member["left"]:
                raise Refusal(410, "HasLeft")
            self.active(name)
            member["left"] = True
            member["status"] = "Left"
            return reply(200, {"status": "Left"})
        service.equal("a change", how, "renew")
        self.active(name)
        action["limit"] = body["limit"]
        return reply(200, {"status": "Active"})

    def end(self, name, states):
        action = self.action(name)
        if action["status"] == "Active":
            waits = self.members_wait and any(not self.members[it]["left"] for it in action["members"])
            action["status"] = states[0 if waits else 1]
        elif action["status"] not in states:
            raise Refusal(412, "NotActive", status=action["status"])
        return reply(202 if action["status"] == states[0] else 200, {"status": action["status"]})

    def report(self, name, body):
        member = self.member(name)
        if member["left"]:
            raise Refusal(410, "HasLeft")
        if self.actions[member["action"]]["status"] == "Active":
            raise Refusal(412, "NotAsked")
        member["status"] = body["status"]
        return reply(200, {"status": body["status"]})

    def sent(self, method="", path=""):
        """The requests that came by a method and for a path that ends so."""
        with self.lock:
            return [it for it in self.requests if method in ("", it.method) and it.path.endswith(path)]


def read(reader, number):
    """The next request of a connection, if one comes whole."""
    line = reader.readline()
    if not line.endswith(b"\r\n"):
        return None
    method, path, version = line.decode("ascii").split()
    service.equal("the version", version, "HTTP/1.1")
    fields = {}
    while (line := reader.readline()) not in (b"\r\n", b""):
        name, value = re.fullmatch(r"([!-9;-~]+): (.*)\r\n", line.decode("ascii")).groups()
        service.check(f"{name} comes once", name not in fields)
        fields[name] = value
    for name in ("Transfer-Encoding", "Expect", "Content-Encoding"):
        service.check(f"{name} isn't sent", name not in fields)
    length = int(fields.get("Content-Length", 0))
    body = reader.read(length)
    return Request(method, path, fields, body, number) if len(body) == length else None
