"""Clients and members that take their time: each is waited for so long and no longer,
and others are served meanwhile."""
import contextlib
import resource
import select
import socket
import time

import journal
from asks import recorded
from files import SOUND
from participant import Participant
from service import HOST, LATE, PATIENCE, check, equal, free_port, id_of, is_ready, number_of, received, reset

# How many seconds a client has between requests, and for one message; and a member to take a connection, and in all.
BETWEEN, MESSAGE, CONNECT, WHOLE = 30, 10, 5, 30
# How many requests a client sends that takes no replies: as many as a connection may have.
REQUESTS = 1000


def check_about(what, seconds, wanted):
    check(f"{what} after {seconds:.1f} s, wanted {wanted}", wanted - 0.5 <= seconds <= wanted + LATE)


def serves(service):
    """Fails where a new client isn't served at once."""
    begun = time.monotonic()
    with service.client(keep=False) as client:
        client.start()
    check("another client waits", time.monotonic() - begun < LATE)


def seconds_until(ended, service, most, begun):
    """How long it takes from a moment on until a connection has ended, while others are served: `ended` waits up to a
    second for it."""
    while time.monotonic() - begun < most:
        serves(service)
        if ended():
            return time.monotonic() - begun
    raise AssertionError(f"the connection is still there after {most} s")


def seconds_until_closed(service, stream, each_second, most, begun):
    """How long it takes from a moment on until the service closes a connection on which nothing comes, while others are
    served."""

    def ended():
        # (it may have been closed since the last look)
        with contextlib.suppress(ConnectionError):
            each_second()
        ready = is_ready(stream, 1)
        if ready:
            equal("what comes", next_piece(stream), b"")
        return ready

    return seconds_until(ended, service, most, begun)


def next_piece(stream):
    """What comes next: nothing where the connection is closed or reset."""
    try:
        return stream.recv(65536)
    except ConnectionError:
        return b""


def test_a_client_that_sends_nothing_is_left_after_half_a_minute(setting):
    with setting.serve(2) as service:
        begun = time.monotonic()
        with service.connect() as stream:
            seconds = seconds_until_closed(service, stream, lambda: None, BETWEEN + 2 * LATE, begun)
        check_about("it was left", seconds, BETWEEN)


def test_a_client_that_rests_between_requests_is_left_after_half_a_minute(setting):
    with setting.serve(2) as service, service.connect() as stream:
        time.sleep(4)
        begun = time.monotonic()
        stream.sendall(b"GET /lra HTTP/1.1\r\nHost: h\r\n\r\n")
        check("a reply", next_piece(stream).startswith(b"HTTP/1.1 404 "))
        seconds = seconds_until_closed(service, stream, lambda: None, BETWEEN + 2 * LATE, begun)
        check_about("it was left", seconds, BETWEEN)


def test_a_client_that_sends_a_byte_a_second_is_left_after_ten_seconds(setting):
    request = b"GET /lra-coordinator/a-long-way-to-go HTTP/1.1\r\nHost: h\r\n\r\n"
    bytes_left = [request[place : place + 1] for place in range(len(request))]

    with setting.serve(2) as service, service.connect() as stream:
        begun = time.monotonic()
        seconds = seconds_until_closed(
            service, stream, lambda: stream.send(bytes_left.pop(0)), MESSAGE + 2 * LATE, begun
        )
        check_about("it was left", seconds, MESSAGE)


def test_a_client_that_sends_a_body_slowly_is_left_after_ten_seconds(setting):
    with setting.serve(2) as service, service.connect() as stream:
        begun = time.monotonic()
        stream.sendall(b"POST /lra-coordinator HTTP/1.1\r\nHost: h\r\nContent-Length: 1000\r\n\r\n")
        seconds = seconds_until_closed(service, stream, lambda: stream.send(b" "), MESSAGE + 2 * LATE, begun)
        check_about("it was left", seconds, MESSAGE)


def narrow(service):
    """A connection whose buffers hold little of what the service sends."""
    stream = socket.socket()
    stream.settimeout(PATIENCE)
    stream.setsockopt(socket.SOL_SOCKET, socket.SO_RCVBUF, 4096)
    stream.setsockopt(socket.SOL_SOCKET, socket.SO_SNDBUF, 1 << 20)
    stream.setsockopt(socket.IPPROTO_TCP, socket.TCP_MAXSEG, 536)
    stream.connect((HOST, service.port))
    return stream


def left_with_its_replies(setting, each_second):
    """A client that asks much and takes little: its connection ends,
    and what it can still take is the beginning of its replies."""
    with setting.serve(2) as service, narrow(service) as stream:
        with service.client(keep=False) as client:
            request = f"GET /lra-coordinator/{id_of(client.start())} HTTP/1.1\r\nHost: h\r\n\r\n".encode()
        with service.connect() as other:
            other.sendall(request)
            replies = next_piece(other) * REQUESTS
        check("a reply", replies.startswith(b"HTTP/1.1 200 OK\r\n"))
        begun = time.monotonic()
        stream.sendall(request * REQUESTS)
        watched = select.poll()
        watched.register(stream, select.POLLRDHUP)
        taken = b""

        def ended():
            nonlocal taken
            with contextlib.suppress(ConnectionError):
                taken += each_second(stream)
            return watched.poll(1000)

        seconds = seconds_until(ended, service, MESSAGE + 2 * LATE, begun)
        check_about("it was left", seconds, MESSAGE)
        taken += received(stream)[0]
        check(
            f"{len(taken)} bytes are no front of the replies", len(taken) < len(replies) and replies.startswith(taken)
        )
        return f"{len(taken)} of {len(replies)} bytes taken"


def test_a_client_that_takes_no_reply_is_left_after_ten_seconds(setting):
    return left_with_its_replies(setting, lambda stream: b"")


def test_a_client_that_takes_a_byte_a_second_is_left_after_ten_seconds(setting):
    return left_with_its_replies(setting, lambda stream: stream.recv(1))


def silent_after(setting, addresses, wanted):
    """Two workers, a member that takes its time, and one that answers:
    when the first one's reply is recorded as silent."""
    with setting.serve(2) as service, Participant() as other, service.client() as client:
        slow = client.start()
        recovery = client.join(slow, **addresses)
        client.end(slow, "cancel")
        begun = time.monotonic()
        while time.monotonic() - begun < wanted - 2:
            swift = client.start()
            beside = client.join(swift, **other.addresses("compensate"))
            client.end(swift, "cancel")
            recorded(setting, beside, 1)
            equal("the other action", client.status(swift), "Cancelled")
            time.sleep(1)
        is_awaited = journal.outstanding(journal.entries(setting.journal), number_of(recovery))
        # Where the machine is busy the last look at others may have taken longer than there was time for.
        check("it was given up early", is_awaited or time.monotonic() - begun > wanted - 0.5)
        kind, asked, outcome, replied = recorded(setting, recovery, 1)[0]
        equal("its reply", (kind, outcome), ("compensate", "silent"))
        check_about("it was given up", (replied - asked) / 1000, wanted)


def test_a_member_that_never_answers_is_given_up_after_half_a_minute(setting):
    def never(_):
        time.sleep(WHOLE + 2 * LATE)

    with Participant(never) as member:
        silent_after(setting, member.addresses("compensate"), WHOLE)


def test_a_member_that_answers_without_end_is_given_up_after_half_a_minute(setting):
    def endless(_):
        yield b"HTTP/1.1 200 OK\r\n\r\n"
        while True:
            yield b"x"
            time.sleep(0.5)

    with Participant(endless) as member:
        silent_after(setting, member.addresses("compensate"), WHOLE)


def test_a_member_whose_head_has_no_end_is_given_up_after_half_a_minute(setting):
    def endless(_):
        yield b"HTTP/1.1 200 OK\r\nX: "
        while True:
            yield b"x"
            time.sleep(0.5)

    with Participant(endless) as member:
        silent_after(setting, member.addresses("compensate"), WHOLE)


def test_a_member_that_answers_too_much_is_given_up_at_once(setting):
    def flood(_):
        yield b"HTTP/1.1 200 OK\r\n\r\n"
        while True:
            yield b"x" * 65536

    with setting.serve() as service, Participant(flood) as member, service.client() as client:
        action = client.start()
        recovery = client.join(action, **member.addresses("compensate"))
        client.end(action, "cancel")
        kind, asked, outcome, replied = recorded(setting, recovery, 1)[0]
        equal("its reply", (kind, outcome), ("compensate", "silent"))
        check(f"it was waited for {replied - asked} ms", replied - asked < 1000 * LATE)


def test_a_member_that_takes_no_connection_is_given_up_after_five_seconds(setting):
    with socket.socket() as listener:
        listener.bind((HOST, 0))
        listener.listen(0)
        port = listener.getsockname()[1]
        waiting = [socket.socket() for _ in range(4)]
        for stream in waiting:
            stream.setblocking(False)
            stream.connect_ex((HOST, port))
        silent_after(setting, {"compensate": f"http://{HOST}:{port}/u"}, CONNECT)
        for stream in waiting:
            stream.close()


def test_a_service_without_files_left_waits_and_goes_on(setting):
    with setting.serve(2) as service:
        pid = service.process.pid
        before = resource.prlimit(pid, resource.RLIMIT_NOFILE)
        resource.prlimit(pid, resource.RLIMIT_NOFILE, (3, before[1]))
        # For a connection that it awaits already it has a file.
        streams = [service.connect() for _ in range(3)]
        for stream in streams:
            stream.sendall(b"GET /lra HTTP/1.1\r\nHost: h\r\nConnection: close\r\n\r\n")
        time.sleep(1)
        used = service.seconds()
        time.sleep(1)
        check("waiting takes a processor", service.seconds() - used < 0.3)
        check("replies without files", sum(is_ready(stream, 0) for stream in streams) <= 1)
        resource.prlimit(pid, resource.RLIMIT_NOFILE, before)
        for stream in streams:
            check("a reply", next_piece(stream).startswith(b"HTTP/1.1 404 "))
            stream.close()
        serves(service)


def test_clients_that_break_off_do_no_harm(setting):
    with setting.serve(2) as service:
        for data in (b"", b"GET", b"POST /lra-coordinator HTTP/1.1\r\nHost: h\r\n\r\n" * 50):
            for _ in range(10):
                stream = service.connect()
                stream.sendall(data)
                reset(stream)
        serves(service)


def asked_near_the_end(setting, last, workers):
    """How often a journal whose last moment is that one asks a silent member within two seconds.
    Another is asked at once."""
    journal.write(setting.journal, SOUND.replace(b"1 7 ", b"1 %d " % last))
    with setting.serve(workers) as service, Participant() as other, service.client() as client:
        silent, swift = client.start(), client.start()
        recovery = client.join(silent, compensate=f"http://{HOST}:{free_port()}/")
        client.end(silent, "cancel")
        recorded(setting, recovery, 1)
        time.sleep(1)
        client.join(swift, **other.addresses("compensate"))
        client.end(swift, "cancel")
        other.wait("compensate", seconds=LATE)
        time.sleep(1)
        return len(journal.asks_of(journal.entries(setting.journal), number_of(recovery)))


def test_near_the_end_of_its_clock_a_journal_asks_a_silent_member_seldom(setting):
    cases = [(last, workers) for last in (2**64 - 1000, 2**64 - 1) for workers in (1, 2)]
    asked = [(workers, asked_near_the_end(setting, last, workers)) for last, workers in cases]
    # Each callback worker learns by itself that the member is silent; one more ask is recorded, and waits.
    check(f"so many workers ask {asked} times", all(1 <= count <= workers + 1 for workers, count in asked))
    return f"asked {[count for _, count in asked]} times"
