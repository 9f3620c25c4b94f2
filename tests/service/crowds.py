"""Many clients at once: those that keep their connections, that send slowly, that take nothing and that break off;
others are answered beside them."""
import contextlib
import http.client
import resource
import threading
import time

from patience import narrow, serves
from service import LATE, PATIENCE, LeftOut, check, equal, id_of, is_ready, received, reset

# How many connections are kept at once, and how many clients are slow in each way.
KEPT, SLOW = 2000, 500
# How many requests a client sends ahead that takes no reply: some more than the system keeps the replies of,
# the others few.
AHEAD, FEW = 800, 50
# How many files a test may want beside its connections.
OTHERS = 500
UNKNOWN = b"GET /lra HTTP/1.1\r\nHost: h\r\n\r\n"
# How many clients ask in vain, so that each thread has some, and how many seconds each rests between two requests: a
# thread has a quiet moment where nothing comes for a quarter of a second.
IN_VAIN, APART = 12, 0.03


def room_for(service, connections):
    """Lets the tests and the service have so many connections more, where the system lets them."""
    most = connections + OTHERS
    soft, hard = resource.getrlimit(resource.RLIMIT_NOFILE)
    if hard != resource.RLIM_INFINITY and hard < most:
        raise LeftOut(f"at most {hard} files may be open")
    if soft != resource.RLIM_INFINITY and soft < 2 * most:
        resource.setrlimit(
            resource.RLIMIT_NOFILE, (2 * most if hard == resource.RLIM_INFINITY else min(2 * most, hard), hard)
        )
    resource.prlimit(service.process.pid, resource.RLIMIT_NOFILE, (most, hard))


def one_reply(stream):
    """One reply without a body, or with one of known length."""
    data = b""
    while b"\r\n\r\n" not in data:
        piece = stream.recv(65536)
        check(f"the connection ended after {data!r}", piece)
        data += piece
    head, _, body = data.partition(b"\r\n\r\n")
    for line in head.split(b"\r\n"):
        name, _, value = line.partition(b":")
        if name.lower() == b"content-length":
            while len(body) < int(value):
                body += stream.recv(65536)
    return head, body


def crowd(service, count):
    return [service.connect() for _ in range(count)]


def close_all(streams):
    for stream in streams:
        stream.close()


def start_in_vain(service, over, codes):
    """Asks for a start again and again, over a connection that is kept, until that is over or nobody listens."""
    with service.client() as client:
        while not over.wait(APART):
            try:
                codes.append(client.call("POST", "/lra-coordinator").code)
            except ConnectionRefusedError:
                return
            except (OSError, http.client.HTTPException):
                # A connection has so many requests and no more, or the service ends.
                client.connection.close()


@contextlib.contextmanager
def refused_starts(service, code):
    """Clients that keep all threads of a service at work with starts that it refuses by this code. Yields the codes."""
    over, codes = threading.Event(), []
    clients = [
        threading.Thread(target=start_in_vain, args=(service, over, codes), daemon=True) for _ in range(IN_VAIN)
    ]
    for client in clients:
        client.start()
    try:
        yield codes
    finally:
        over.set()
        for client in clients:
            client.join(PATIENCE)
    equal("what they were answered", set(codes), {code})


def test_two_thousand_kept_connections_are_each_answered(setting):
    with setting.serve(2) as service:
        room_for(service, KEPT)
        streams = crowd(service, KEPT)
        begun = time.monotonic()
        for _ in range(2):
            for stream in streams:
                stream.sendall(b"POST /lra-coordinator HTTP/1.1\r\nHost: h\r\n\r\n")
            for stream in streams:
                check("a start", one_reply(stream)[0].startswith(b"HTTP/1.1 201 "))
        seconds = time.monotonic() - begun
        begun = time.monotonic()
        with service.client() as newcomer:
            newcomer.start()
        check("a newcomer waits", time.monotonic() - begun < LATE)
        close_all(streams)
        return f"{2 * KEPT} starts in {seconds:.1f} s"


def test_slow_clients_keep_nobody_waiting(setting):
    with setting.serve(2) as service:
        room_for(service, 2 * SLOW)
        senders, takers = crowd(service, SLOW), [narrow(service) for _ in range(SLOW)]
        for place, stream in enumerate(takers):
            stream.sendall(UNKNOWN * (FEW if place % 10 else AHEAD))
        begun = time.monotonic()
        sent = 0
        while time.monotonic() - begun < 5:
            for stream in senders:
                stream.sendall(UNKNOWN[sent : sent + 1])
            sent += 1
            time.sleep(max(0, begun + sent - time.monotonic()))
            serves(service)
        close_all(senders + takers)


def test_a_client_is_answered_while_others_keep_all_threads(setting):
    with setting.serve(1) as service, service.client() as first:
        first.start()
        with service.connect() as second:
            second.sendall(UNKNOWN)
            check("a reply", one_reply(second)[0].startswith(b"HTTP/1.1 404 "))
            first.start()


def test_requests_sent_ahead_are_answered_in_order(setting):
    with setting.serve(2) as service, service.client() as client, service.connect() as stream:
        actions = [client.start() for _ in range(3)]
        requests = b"".join(
            f"GET /lra-coordinator/{id_of(action)} HTTP/1.1\r\nHost: h\r\n\r\n".encode() for action in actions * 100
        )
        writer = threading.Thread(target=stream.sendall, args=(requests,))
        writer.start()
        data = b""
        while data.count(b'"status":"Active"}') < 300:
            piece = stream.recv(65536)
            check("the connection ended", piece)
            data += piece
        writer.join()
        told = [part.split(b'"')[0] for part in data.split(b'"lra":"')[1:]]
        equal("the replies", told, [action.encode() for action in actions * 100])


def test_a_reset_in_the_middle_of_a_request_or_a_reply_does_no_harm(setting):
    with setting.serve(2) as service:
        for requests in (
            UNKNOWN[:20], b"POST /lra-coordinator HTTP/1.1\r\nHost: h\r\nContent-Length: 10\r\n\r\n{", UNKNOWN * 500
        ):
            streams = [narrow(service) for _ in range(20)]
            for stream in streams:
                stream.sendall(requests)
            time.sleep(0.2)
            for stream in streams:
                reset(stream)
            serves(service)


# What is refused while it still comes: the head, and the code by which it is refused. What is sent of its body is more
# than is read of a request.
REFUSED = (
    (b"POST /lra-coordinator HTTP/1.1\r\nHost: h\r\nContent-Length: 600000\r\n\r\n", b"HTTP/1.1 413 "),
    (b"POST /lra-coordinator HTTP/1.1\r\nHost: h\r\nTransfer-Encoding: chunked\r\n\r\n", b"HTTP/1.1 501 "),
    (b"no request\r\n\r\n", b"HTTP/1.1 400 "),
)
# How many seconds a client has to close its connection once that is all it can do, and how many bytes of it are thrown
# away meanwhile.
LINGER, THROWN = 2, 1 << 20
# How often a client tries that a busy machine holds up.
TRIES = 10


def refused(service, head):
    """A client whose request is refused, and that sends what follows after that, before it reads the reply."""
    stream = service.connect()
    stream.sendall(head)
    check("a reply", is_ready(stream, LATE))
    for _ in range(6):
        stream.sendall(b"x" * 100000)
        time.sleep(0.02)
    return stream


def check_refusal(service, head, wanted):
    """A client whose request is refused has the whole reply, and may send on. One that a busy machine holds up for
    longer than it has to close its connection is left, and tries again."""
    for tries in range(TRIES):
        begun = time.monotonic()
        try:
            with refused(service, head) as stream:
                data, is_whole = received(stream)
                check(f"{data!r} and a reset", is_whole)
                equal("the reply", data[: len(wanted)], wanted)
                stream.sendall(b"x" * 100000)
            return
        except (AssertionError, ConnectionError):
            if time.monotonic() - begun < LINGER - 0.5 or tries == TRIES - 1:
                raise


def test_a_refused_request_has_its_reply_though_its_body_still_comes(setting):
    """A connection that is closed while bytes of it are unread is reset, and loses its reply on the way: so what still
    comes is read first."""
    with setting.serve(1) as service:
        for head, wanted in REFUSED:
            for _ in range(5):
                check_refusal(service, head, wanted)
        # A client that says that it sends nothing more has its reply whether the connection is closed before or after
        # what it sent was read.
        with service.connect() as stream:
            stream.sendall(b"POST /lra-coordinator HTTP/1.1\r\nHost: h\r\nConnection: close\r\n\r\n" + b"x" * 500000)
            data, is_whole = received(stream)
            check(f"{data!r}", is_whole and data.startswith(b"HTTP/1.1 201 "))


def test_who_does_not_stop_after_a_refusal_is_left(setting):
    """By its time and by its bytes; others are answered meanwhile."""
    with setting.serve(1) as service:
        with service.connect() as endless:
            sent = 0
            endless.sendall(REFUSED[0][0])
            try:
                while sent < 64 * THROWN:
                    sent += endless.send(b"x" * 65536)
            except ConnectionError:
                pass
            check(f"{sent} bytes were taken", THROWN <= sent < 32 * THROWN)
        with service.connect() as slow:
            begun = time.monotonic()
            slow.sendall(REFUSED[0][0])
            serves(service)
            try:
                while time.monotonic() - begun < LINGER + LATE:
                    slow.send(b"x")
                    time.sleep(0.05)
            except ConnectionError:
                pass
            seconds = time.monotonic() - begun
            check(f"it was left after {seconds:.1f} s", LINGER - 0.5 <= seconds < LINGER + LATE)
            serves(service)
