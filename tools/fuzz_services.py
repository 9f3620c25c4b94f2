"""Services that `fuzz` has called by several clients at once, and whose members answer anything: by the own interface,
with chunked bodies (framings.py of tests/service has those whose replies are known), and by the dialect."""
import contextlib
import random
import re
import select
import socket
import struct
import tempfile
import threading
import time
import urllib.parse
from collections import namedtuple
from concurrent.futures import ThreadPoolExecutor

import chunked
import framings
import replies
import service
from mutations import OWN, Words, change_bytes, change_stream, requests
from replies import Finding, want

# How a service of a kind is begun, what stands behind an action's path where its status is read, how replies are
# judged, and what is set into requests.
Kind = namedtuple("Kind", "options status judge words")
# What a client does with a connection, what it sends, and a share of that; or, in place of it, messages whose replies
# are known, cut anywhere by a seed.
Visit = namedtuple("Visit", "end data share messages")

# How often a service is begun on one journal, how many clients it has at a time, how many connections each of these
# makes, with how many threads they are answered, and in how many seconds a further client has an answer.
ROUNDS = 2
CLIENTS = 4
CONNECTIONS = 6
WORKERS = 9
SOON = 10
# What a client does with a connection: it sends all and reads to the end, at once or in pieces; or it sends a part,
# or all, and closes the connection, resets it, or keeps it. A client keeps one at most, so that some threads are free.
ENDS = "read read pieces cut reset kept unread".split()
# What a member answers, before it is changed.
ANSWERS = [
    b"HTTP/1.1 200 OK\r\nContent-Length: 9\r\n\r\nCompleted", b"HTTP/1.1 204 No Content\r\n\r\n",
    b"HTTP/1.1 410 Gone\r\n\r\n",
    b"HTTP/1.1 200 OK\r\nTransfer-Encoding: chunked\r\n\r\n10\r\nFailedToComplete\r\n0\r\n\r\n",
    b"HTTP/1.1 202 \r\n\r\n", b"",
    b"HTTP/1.1 103 Early\r\n\r\n" * 9, b"HTTP/1.1 200 OK\r\n\r\n" + b"x" * 70000, b"HTTP/1.0 200 OK\n\nCompensated",
]
# What is set into requests of the dialect, and the identifier and the addresses that they name.
LINKS = (
    b'<http://a.test/u>; rel="compensate"; title="compensate URI"; type="text/plain"',
    b'<http://a.test/c>; title="c"; rel="complete"', b'<http://a.test/s>; rel="status"',
    b'<http://a.test/f>;rel="forget"', b'<http://a.test/a>; rel="after"', b'<http://a.test/l>; rel="leave"',
)
DIALECT = Words(
    [
        *OWN.heads, b"Accept: application/json", b"Accept: text/plain, application/json", b"Accept: */*",
        b"Narayana-LRA-API-version: 1.1", b"Narayana-LRA-API-version: 2.0", b"Narayana-LRA-API-version:",
        b"Narayana-LRA-Participant-Data: x", b"Link: " + LINKS[0], b"Link: <", b'Link: <>; rel="compensate"',
        b"Link: " + b",".join(LINKS), b"Link: " + b",".join(20 * LINKS), b"Link: http://a.test/m",
        b"Long-Running-Action: http://127.0.0.1:8080/lra-coordinator/00000000-0000-8007-8000-000000000001",
    ],
    [
        *OWN.targets, b"/lra-coordinator/start", b"/lra-coordinator/start?ClientID=%",
        b"/lra-coordinator/start?TimeLimit=", b"/lra-coordinator/start?TimeLimit=18446744073709551616",
        b"/lra-coordinator/start?ParentLRA=http%3A%2F%2Fx",
        b"/lra-coordinator?Status=Active", b"/lra-coordinator/recovery", b"/lra-coordinator/recovery/failed",
        b"/lra-coordinator/nested/%00/status", b"/lra-coordinator/%ff%fe/close", b"/lra-coordinator/start/",
    ],
    [
        b"", *LINKS, b",".join(LINKS), b" , ".join(LINKS), b"<", b"<>", b'<x>; rel="other"', b";" + LINKS[0],
        LINKS[0].replace(b";", b";;;;"), b"http://a.test/m", b"my data", b"\xff", b"<" * 5000, LINKS[0] * 100,
        b"http://a.test/" + b"m" * 600, b'"http://a.test/m"',
    ],
)
# The latest moment in a journal at which a service takes any limit of tests.
LATEST = 10**15
# From how many connections of the dialect cases are made.
CONVERSATIONS = 40
KINDS = {
    "service": Kind((), b"", replies.own, OWN),
    "chunked": Kind(("--chunked",), b"", replies.chunked, OWN),
    "narayana": Kind(("--dialect", "narayana"), b"/status", replies.dialect, DIALECT),
}


def text_of(path):
    with open(path, "rb") as it:
        return it.read()


# Requests of the dialect


def dialect_request(rng):
    """A request of the dialect as it is well spelled (narayana.md)."""
    number = b"00000000-0000-8007-8000-%012x" % rng.choice([1, 1, 1, 2, 2, 3, 4, 5, 9])
    other = b"00000000-0000-8007-8000-%012x" % rng.choice([1, 1, 2, 3])
    whole = b"http://127.0.0.1:8080/lra-coordinator/" + number
    encoded = urllib.parse.quote_from_bytes(whole, safe="").encode()
    at = b"/lra-coordinator/" + rng.choice([number, number, encoded])
    text = rng.choice([b",", b", "]).join(rng.sample(LINKS, rng.randint(1, len(LINKS))))
    bare = b"http://a.test/m"
    start = b"POST /lra-coordinator/start"
    line, fields, body = rng.choice([
        (start, [], b""), (start + b"?ClientID=a&TimeLimit=0", [], b""), (start + b"?TimeLimit=50", [], b""),
        (start + b"?ClientID=&TimeLimit=0&ParentLRA=" + encoded, [], b""),
        (b"PUT " + at, [], text), (b"PUT " + at + b"?TimeLimit=0", [], text), (b"PUT " + at, [], bare),
        (b"PUT " + at, [b"Link: " + text], b""), (b"PUT " + at, [b"Link: " + text], text),
        (b"PUT " + at + b"/close", [], b""), (b"PUT " + at + b"/cancel", [], b""),
        (b"PUT " + at + b"/remove", [], b"http://127.0.0.1:8080/lra-recovery/" + other),
        (b"PUT " + at + b"/renew?TimeLimit=90000", [], b""), (b"GET " + at + b"/status", [], b""),
        (b"GET " + at, [], b""), (b"GET /lra-coordinator?Status=Closed", [], b""),
        (b"GET /lra-coordinator/recovery/" + number + b"/" + other, [], b""),
        (b"PUT /lra-recovery/" + other, [], text), (b"PUT /lra-coordinator/nested/" + number + b"/complete", [], b""),
    ])
    fields = [b"Host: 127.0.0.1:8080", *fields]
    if rng.random() < 0.3:
        fields.append(b"Accept: application/json")
    if rng.random() < 0.3:
        fields.append(b"Narayana-LRA-API-version: 1.%d" % rng.randrange(3))
    if body:
        fields += [b"Content-Type: text/plain", b"Content-Length: %d" % len(body)]
    return line + b" HTTP/1.1\r\n" + b"\r\n".join(fields) + b"\r\n\r\n" + body


def conversations():
    """Connections of the dialect, the same each time."""
    rng = random.Random("narayana")
    return [b"".join(dialect_request(rng) for _ in range(rng.randint(1, 12))) for _ in range(CONVERSATIONS)]


# A service, its clients and its members


class Members:
    """A listener at which each request is answered by something, on a thread of its own."""

    def __init__(self, seed):
        self.rng = random.Random(f"{seed} members")
        self.listener = socket.create_server((service.HOST, 0), backlog=128)
        self.host = b"http://%s:%d" % (service.HOST.encode(), self.listener.getsockname()[1])
        threading.Thread(target=self.answer_all, daemon=True).start()

    def answer_all(self):
        while True:
            stream, _ = self.listener.accept()
            with stream, contextlib.suppress(OSError):
                stream.settimeout(1)
                stream.recv(65536)
                stream.sendall(change_bytes(self.rng, self.rng.choice(ANSWERS)))

    def moved(self, text):
        """A text with the addresses of members here."""
        return re.sub(rb"http://[a-z]+\.test(?=/)", self.host, text)

    def moved_request(self, request, rng=None):
        """The same of a request. A length that was right stays so. With random numbers it may become chunked then."""
        head, gap, body = request.partition(b"\r\n\r\n")
        moved = self.moved(body)
        length, stated = b": %d\r" % len(body), b"\r\nContent-Length: %d" % len(moved)
        head = (self.moved(head) + gap).replace(length, b": %d\r" % len(moved))
        if rng and stated in head and rng.random() < 0.7:
            parts = framings.framed(rng, framings.cut(rng, moved, 5), framings.fields_of(rng))
            return head.replace(stated, b"\r\nTransfer-Encoding: chunked", 1) + framings.text_of(parts)
        return head + moved


def send(stream, end, data, share):
    """Sends what a client sends that ends its connection so."""
    if end in ("cut", "reset", "kept"):
        data = data[: int(share * len(data))]
    size = max(1, int(share * 100), len(data) // 1000) if end == "pieces" else 65536
    for start in range(0, len(data), size):
        stream.sendall(data[start : start + size])
    if end in ("read", "pieces"):
        stream.shutdown(socket.SHUT_WR)
    if end == "reset":
        stream.setsockopt(socket.SOL_SOCKET, socket.SO_LINGER, struct.pack("ii", 1, 0))


def visit(stream, end, data, share, kind):
    """What is said over one connection: the codes of the replies where all are read, and how the client ends it."""
    try:
        send(stream, end, data, share)
        out, is_whole = service.received(stream) if end in ("read", "pieces") else (b"", False)
    except TimeoutError:
        raise Finding("a connection hangs") from None
    except OSError:
        return ["broken off"]
    if not is_whole:
        return [end]
    return [end, *(str(code) for _, code, _ in kind.judge(out, b"HEAD" in data))]


def exchange(it, messages, seed):
    """What is said over a connection of messages whose replies are known."""
    rng, wanted = random.Random(seed), framings.replies_to(messages)
    pieces = framings.pieces_of(rng, messages)
    try:
        got = chunked.exchange(it, *pieces, pause=rng.choice((0, 0, 0.001)))
    except TimeoutError:
        raise Finding("a connection hangs") from None
    want(
        framings.agree(got, wanted),
        f"{[message.what for message in messages]} are answered {got}, wanted {wanted}",
    )
    return ["exact", *(str(code) for code, _ in got)]


def sent_by(it, members, data, share, kind):
    """What is sent of a connection's requests to a service: with its address, and those of the members."""
    address = it.address.encode()
    data = data.replace(b"127.0.0.1:8080", address).replace(b"127.0.0.1%3A8080", address.replace(b":", b"%3A"))
    rng = random.Random(share) if kind is KINDS["chunked"] else None
    data = b"".join(members.moved_request(request, rng) for request in requests(data))
    return change_bytes(rng, data) if rng and rng.random() < 0.3 else data


def call(it, members, visits, kept, kind):
    """What is said over a client's connections, one after another."""
    said = []
    for end, data, share, messages in visits:
        if messages:
            said += exchange(it, messages, share)
            continue
        data = sent_by(it, members, data, share, kind)
        try:
            stream = it.connect()
        except OSError as fault:
            raise Finding(f"there is no connection: {fault}, status {it.process.poll()}") from None
        said += visit(stream, end, data, share, kind)
        if end == "kept":
            kept.enter_context(stream)
        else:
            stream.close()
    return said


def is_answered(it, kind):
    """Whether a further client is soon told a status."""
    begun = time.monotonic()
    with it.connect() as stream:
        stream.settimeout(SOON)
        stream.sendall(
            b"GET /lra-coordinator/00000000-0000-8007-8000-000000000001" + kind.status + b" HTTP/1.1\r\n"
            b"Host: h\r\n"
            b"Connection: close\r\n\r\n"
        )
        out, _ = service.received(stream)
    return [code for _, code, _ in kind.judge(out)] in ([200], [404]) and time.monotonic() - begun < SOON


def serve(run, path, clients, kind):
    """What is said while a service answers these clients. It is killed at last."""
    run.runs += 1
    begun = service.Service(run.program, path, WORKERS)
    begun.words[2:2] = kind.options
    with contextlib.ExitStack() as kept, begun as it:
        with ThreadPoolExecutor(CLIENTS) as threads:
            calls = [threads.submit(call, it, run.members, visits, kept, kind) for visits in clients]
        said = [word for made in calls for word in made.result()]
        want(is_answered(it, kind), "a status isn't told soon")
        want(
            not select.select([it.process.stdout], [], [], 0)[0],
            f"the service ends or prints, status {it.process.poll()}",
        )
    return said


def judge_orders(clients, lines):
    """Holds the starts that were written against messages whose replies are known: nothing is ordered by what stands
    behind a refusal."""
    known = [visit.messages for visits in clients for visit in visits if visit.messages]
    wanted = sorted(limit for messages in known for limit in framings.ordered_by(messages) if limit)
    found = [int(line.split(b" ")[5]) for line in lines if b" start " in line]
    got = sorted(limit for limit in found if framings.LEAST <= limit < 2 * framings.LEAST)
    want(got == wanted, f"the limits {got} were started, wanted {wanted}")


def judge_service(run, rng, case):
    name, begun, rounds = case
    kind, said = KINDS[name], []
    with tempfile.TemporaryDirectory(prefix="fuzz-") as folder:
        path = f"{folder}/journal"
        now = run.members.moved(begun)
        with open(path, "wb") as it:
            it.write(now)
        for clients in rounds:
            before = now
            try:
                words = serve(run, path, clients, kind)
            except (AssertionError, OSError) as fault:
                raise Finding(f"a service fails: {fault}") from None
            now = text_of(path)
            now = now[: now.rfind(b"\n") + 1]
            want(now.startswith(before), "a journal has lost what it had")
            want(run.lra("-", now)[1].startswith(b"sound "), "a service's journal isn't sound")
            added = now[len(before) :].split(b"\n")
            want(
                words.count("201") <= sum(b" start " in line for line in added),
                "a start was answered and isn't there",
            )
            if name == "chunked":
                judge_orders(clients, added)
            said += words + ["entries"] * (len(added) - 1)
    return said


# Cases


def make_clients(rng, streams, kind):
    """What each client of a service does over each of its connections."""
    clients = []
    for _ in range(CLIENTS):
        ends = rng.sample(ENDS, CONNECTIONS)
        clients.append([
            Visit(end, change_stream(rng, rng.choice(streams), streams, kind.words), rng.random(), None)
            for end in ends
        ])
    return clients


def with_known(rng, clients, fresh):
    """The same clients, where each connection that is read to its end has messages whose replies are known, or as
    often not."""
    return [
        [
            it._replace(messages=framings.connection(rng, fresh))
            if it.end in ("read", "pieces") and rng.random() < 0.5 else it
            for it in visits
        ]
        for visits in clients
    ]


def takes_limits(data):
    """Whether a service that goes on from a journal takes the limits of messages whose replies are known: it is of
    version 2, short, and no moment in it is late."""
    lines = data.split(b"\n")[:-1]
    late = any(int(line.split(b" ")[1]) > LATEST for line in lines[1:])
    return lines[0].startswith(b"lra-journal 2 ") and len(lines) < 1000 and not late


def make_service(name, rng, inputs):
    """A journal, and what the clients do of each service that is begun on it."""
    kind, sound = KINDS[name], inputs["sound"]
    if name == "chunked":
        sound = [data for data in sound if takes_limits(data)]
    streams = inputs["narayana" if name == "narayana" else "stream"]
    begun, rounds = rng.choice(sound), [make_clients(rng, streams, kind) for _ in range(ROUNDS)]
    if name == "chunked":
        fresh = framings.limits()
        rounds = [with_known(rng, clients, fresh) for clients in rounds]
    return name, begun, rounds
