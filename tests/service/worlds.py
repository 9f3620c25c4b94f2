"""Bad worlds: peers that reset at each byte, sockets that take a byte at a time, files that are used up, polls that are
woken for nothing, and a thousand members that never answer; others are served beside them."""
import contextlib
import fcntl
import itertools
import os
import re
import socket
import statistics
import struct
import termios
import threading
import time
from collections import Counter

import journal
from asks import lateness_of_limits
from crowds import UNKNOWN, close_all, one_reply, room_for
from participant import Participant, plain, wait_until
from patience import serves
from service import HOST, LATE, PATIENCE, check, equal, id_of, least_share, number_of, reset

START = b"POST /lra-coordinator HTTP/1.1\r\nHost: h\r\n\r\n"
LOCATION = re.compile(rb"^Location: (\S+)\r$", re.M)
# After how many connections that break off another client is served.
BETWEEN = 20
# How many replies a client takes a byte at a time.
TAKEN = 300
# How many files a service may have, and how many clients call it.
FILES, MORE = 96, 100
# How many connections are opened and closed without a byte, so many at once.
EMPTY, AT_ONCE = 3000, 100
# How many peers wake the other side for nothing, for how many seconds;
# and at how many hosts those that are members are.
PEERS, NUDGES, NUDGERS = 500, 2, 5
# Members that never answer, the hosts that they are at, and how often it is looked how late others are.
SILENT, HOSTS, LOOKS = 1000, 16, 20
# How many such members fall due at once, each at a host of its own.
DUE = 800
# How many seconds late is too late for half of those that are looked at, where a test may be busy: 0.1 are wanted.
SELDOM = 3
# The part of a processor that is too much for a service which has nothing to do.
MUCH = 0.1


def starts(parent):
    """A start of each form."""
    nested = b'{"parent":"%s"}' % parent.encode()
    for fields, body in ((b"", b""), (b"", b'{"limit":600000}'), (b"Connection: close\r\n", b"{}"), (b"", nested)):
        length = b"Content-Length: %d\r\n" % len(body) if body else b""
        yield b"POST /lra-coordinator HTTP/1.1\r\nHost: h\r\n%s%s\r\n%s" % (fields, length, body)
    yield b"POST /lra-coordinator HTTP/1.0\r\n\r\n"


def check_kept(setting, told):
    """The journal is sound, and has each start that was answered. Answers how many it has."""
    journal.check_sound(setting.program, journal.read(setting.journal), setting.folder)
    numbers = {it.fields[0] for it in journal.entries(setting.journal) if it.deed == "start"}
    missing = [uri for uri in told if str(number_of(uri)) not in numbers]
    equal("answered, and not in the journal", missing[:5], [])
    return len(numbers)


def taken(stream, count):
    """So many bytes that come."""
    data = b""
    while len(data) < count:
        piece = stream.recv(count - len(data))
        check(f"the connection ended after {data!r}", piece)
        data += piece
    return data


def whole_reply(stream):
    """The bytes of a reply."""
    head, body = one_reply(stream)
    return head + b"\r\n\r\n" + body


def test_a_client_that_resets_at_each_byte_of_a_start_does_no_harm(setting):
    with setting.serve(2) as service, service.client() as client:
        told, tries = [client.start()], 0
        for request in starts(told[0]):
            for length in range(len(request) + 1):
                stream = service.connect()
                stream.sendall(request[:length])
                reset(stream)
                tries += 1
                if tries % BETWEEN == 0:
                    told.append(client.start())
        serves(service)
        service.kill()
    return f"{tries} resets, {check_kept(setting, told)} starts"


def test_a_client_that_resets_at_each_byte_of_a_reply_does_no_harm(setting):
    with setting.serve(2) as service, service.client() as client:
        told = [client.start()]
        with service.connect() as stream:
            stream.sendall(START)
            whole = len(whole_reply(stream))
        for length in range(whole + 1):
            stream = service.connect()
            stream.sendall(START)
            said = taken(stream, length)
            reset(stream)
            told += [uri[1].decode() for uri in LOCATION.finditer(said)]
            if length % BETWEEN == 0:
                told.append(client.start())
        serves(service)
        service.kill()
    # A byte of a reply leaves once its line is in the journal.
    count = check_kept(setting, told)
    check(f"only {count} starts are in the journal", count > whole + whole // BETWEEN)
    return f"{whole + 1} resets, {count} starts"


class Member:
    """A member's service that does with each connection what it is told to, one after another, over a socket whose
    buffers are small where it is to be narrow."""

    def __init__(self, talk, is_narrow=False):
        self.talk = talk
        self.faults = []
        self.listener = socket.socket()
        if is_narrow:
            squeeze(self.listener)
        self.listener.bind((HOST, 0))
        self.listener.listen(1024)
        self.port = self.listener.getsockname()[1]

    def __enter__(self):
        threading.Thread(target=self.work, daemon=True).start()
        return self

    def __exit__(self, *_):
        self.listener.close()

    def work(self):
        while True:
            try:
                stream, _ = self.listener.accept()
            except OSError:
                return
            with stream:
                stream.settimeout(PATIENCE)
                stream.setsockopt(socket.IPPROTO_TCP, socket.TCP_NODELAY, 1)
                try:
                    self.talk(stream)
                except (AssertionError, OSError) as fault:
                    self.faults.append(str(fault))

    def uri(self, path):
        return f"http://{HOST}:{self.port}/{path}"


def squeeze(stream):
    """Has a socket take as little at once as the system lets it."""
    stream.setsockopt(socket.SOL_SOCKET, socket.SO_RCVBUF, 1)
    stream.setsockopt(socket.IPPROTO_TCP, socket.TCP_MAXSEG, 88)


def request_of(stream, piece=65536):
    """A request without a body."""
    data = b""
    while not data.endswith(b"\r\n\r\n"):
        came = stream.recv(piece)
        check(f"the connection ended after {data!r}", came)
        data += came
    return data


# What a member answers that has compensated: a body of known length, and one in chunks.
ANSWERS = (
    plain(200, b"Compensated"),
    b"HTTP/1.1 200 OK\r\nTransfer-Encoding: chunked\r\n\r\n5\r\nCompe\r\n6\r\nnsated\r\n0\r\n\r\n",
)


class Breaking:
    """A member that resets each connection at another byte of the request, and then of each of its answers; once it has
    been through all it answers."""

    def __init__(self):
        self.length = None
        self.breaks = []
        self.answers = itertools.cycle(ANSWERS)

    def __call__(self, stream):
        if self.length is None:
            self.length = len(request_of(stream))
            parts = [(count, b"") for count in range(self.length + 1)]
            parts += [(self.length, answer[:count]) for answer in ANSWERS for count in range(1, len(answer))]
            self.breaks = parts[::-1]
            stream.sendall(next(self.answers))
        elif self.breaks:
            count, answer = self.breaks.pop()
            taken(stream, count)
            stream.sendall(answer)
            reset(stream)
        else:
            request_of(stream)
            stream.sendall(next(self.answers))


def cancelled(client, uri):
    """Starts an action, has a member join it, and cancels it."""
    action = client.start()
    client.join(action, compensate=uri)
    client.end(action, "cancel")
    return action


def replies_in(setting):
    """How often each outcome is in the journal."""
    outcomes = [it.fields[1] for it in journal.entries(setting.journal) if it.deed == "reply"]
    return {name: outcomes.count(name) for name in ("done", "silent")}


def test_a_member_that_resets_at_each_byte_is_asked_until_it_has_answered(setting):
    breaking = Breaking()
    with setting.serve(2) as service, Member(breaking) as member, service.client() as client:
        actions = [cancelled(client, member.uri("u"))]
        wait_until("the first end", lambda: client.status(actions[0]) == "Cancelled")
        times = len(breaking.breaks)
        actions += [cancelled(client, member.uri("u")) for _ in range(times)]
        wait_until("all ends", lambda: replies_in(setting)["done"] == len(actions))
        equal("faults of the member", member.faults, [])
        for action in actions:
            equal("an action", client.status(action), "Cancelled")
        equal("the replies", replies_in(setting), {"done": len(actions), "silent": times})
        check_kept(setting, actions)
        return f"{times} resets"


def test_a_client_that_takes_a_byte_at_a_time_has_all_its_replies(setting):
    slow = setting.serve(2)
    slow.words[2:2] = ["--reply-timeout", "600"]
    with slow as service, socket.socket() as stream:
        with service.client(keep=False) as client:
            request = f"GET /lra-coordinator/{id_of(client.start())} HTTP/1.1\r\nHost: h\r\n\r\n".encode()
        with service.connect() as other:
            other.sendall(request)
            wanted = whole_reply(other) * TAKEN
        squeeze(stream)
        stream.settimeout(PATIENCE)
        stream.connect((HOST, service.port))
        stream.sendall(request * TAKEN)
        begun = time.monotonic()
        data = bytearray()
        while len(data) < len(wanted):
            piece = stream.recv(1)
            check(f"the connection ended after {len(data)} bytes", piece)
            data += piece
            if len(data) % 20_000 == 0:
                serves(service)
        check("the replies are others", data == wanted)
        return f"{len(wanted)} bytes in {time.monotonic() - begun:.1f} s"


def test_a_member_that_takes_and_answers_a_byte_at_a_time_is_heard(setting):
    answer = b"HTTP/1.1 200 OK\r\nTransfer-Encoding: chunked\r\n\r\n%s0\r\n\r\n" % b"".join(
        b"1\r\n%c\r\n" % it for it in b"Compensated"
    )
    requests = []

    def talk(stream):
        requests.append(request_of(stream, 1))
        for place in range(len(answer)):
            stream.sendall(answer[place : place + 1])
            time.sleep(0.01)

    with setting.serve(2) as service, Member(talk, is_narrow=True) as member, service.client() as client:
        begun = time.monotonic()
        action = cancelled(client, member.uri("u" * 450))
        while client.status(action) != "Cancelled":
            check("it hasn't ended", time.monotonic() - begun < PATIENCE)
            serves(service)
            time.sleep(0.2)
        equal("faults of the member", member.faults, [])
        equal("the replies", replies_in(setting), {"done": 1, "silent": 0})
        return f"{len(requests[0])} bytes taken, {len(answer)} answered"


def check_late(what, seconds):
    """Fails where half of these are later than a test makes them, or one is later than a busy machine makes it."""
    text = f"{what} {statistics.median(seconds):.2f} s late, and {max(seconds):.2f} s at most"
    check(text, min(seconds) >= 0 and statistics.median(seconds) < SELDOM and max(seconds) < LATE)


def check_rests(service, seconds):
    """Fails where a service that has nothing to do takes a processor for so long."""
    spent = least_share(service, seconds)
    check(f"it takes {spent:.2f} of a processor", spent < MUCH)
    return spent


def test_files_that_are_few_are_shared(setting):
    """More clients than there are files for: each is answered, for those that have been idle for longest make room, and
    a member is called beside them."""
    few = setting.serve(2)
    few.words = ["sh", "-c", f'ulimit -n {FILES}; exec "$@" 2>/dev/null', "sh", *few.words]
    with (
        few as service,
        Participant() as member,
        service.client(keep=False) as client,
        contextlib.ExitStack() as open_ones,
    ):
        action = client.start()
        client.join(action, **member.addresses("compensate"))
        waits = []
        for _ in range(MORE):
            begun = time.monotonic()
            stream = open_ones.enter_context(service.connect())
            stream.sendall(UNKNOWN)
            check("a reply", one_reply(stream)[0].startswith(b"HTTP/1.1 404 "))
            waits.append(time.monotonic() - begun)
        check_late("newcomers are answered", waits)
        equal("a close", client.end(action, "cancel"), "Cancelling")
        member.wait("compensate")
        wait_until("the end", lambda: client.status(action) == "Cancelled")
        spent = check_rests(service, 3)
        return f"{MORE} clients, the slowest after {max(waits):.2f} s, {spent:.3f} of a processor"


def wakes(service):
    """How often the threads of a service have been woken."""
    count = 0
    for thread in os.listdir(f"/proc/{service.process.pid}/task"):
        # (a thread that has made the service ready may have ended since)
        with (
            contextlib.suppress(FileNotFoundError, ProcessLookupError),
            open(f"/proc/{service.process.pid}/task/{thread}/status", encoding="ascii") as it,
        ):
            count += next(int(line.split()[1]) for line in it if line.startswith("voluntary_ctxt_switches:"))
    return count


def unacknowledged(stream):
    """How many bytes the other side hasn't acknowledged."""
    return struct.unpack("i", fcntl.ioctl(stream, termios.TIOCOUTQ, bytes(4)))[0]


def nudge(streams, counts):
    """Has peers wake the other side again and again without a byte that it could read, and counts how often: what is
    urgent comes in no read, as long as no more is urgent before it has arrived."""
    end = time.monotonic() + NUDGES
    while time.monotonic() < end:
        for stream in streams:
            if unacknowledged(stream) == 0:
                stream.send(b"!", socket.MSG_OOB)
                counts["nudges"] += 1
        time.sleep(0.01)


def test_polls_of_clients_that_are_woken_for_nothing(setting):
    patient = setting.serve(4)
    patient.words[2:2] = ["--idle-timeout", "600"]
    with patient as service, service.client() as client, contextlib.ExitStack() as open_ones:
        room_for(service, PEERS)
        before, counts = wakes(service), Counter()
        for _ in range(EMPTY // AT_ONCE):
            close_all([service.connect() for _ in range(AT_ONCE)])
            client.start()
        check_rests(service, 1)
        peers = [open_ones.enter_context(service.connect()) for _ in range(PEERS)]
        nudging = threading.Thread(target=nudge, args=(peers, counts))
        nudging.start()
        told = [client.start()]
        while nudging.is_alive():
            told.append(client.start())
        check_rests(service, 1)
        for stream in peers:
            stream.sendall(UNKNOWN)
            check("a reply", one_reply(stream)[0].startswith(b"HTTP/1.1 404 "))
        count = wakes(service) - before
        service.kill()
    check_kept(setting, told)
    return (
        f"{EMPTY} connections without a byte and {counts['nudges']} urgent bytes, {count} wakes, "
        f"{len(told)} starts meanwhile"
    )


def come(listener, count):
    """So many connections whose requests have come."""
    listener.settimeout(PATIENCE)
    for _ in range(count):
        stream, _ = listener.accept()
        stream.settimeout(PATIENCE)
        request_of(stream)
        yield stream


def test_polls_of_callbacks_that_are_woken_for_nothing(setting):
    each = 64 // 2
    patient = setting.serve(1)
    patient.words[2:2] = ["--callback-timeout", "600"]
    with (
        patient as service,
        Participant() as other,
        service.client() as client,
        contextlib.ExitStack() as open_ones,
    ):
        room_for(service, NUDGERS * each)
        before, counts = wakes(service), Counter()
        listeners = [
            open_ones.enter_context(socket.create_server((f"127.0.0.{place + 2}", 0), backlog=128))
            for place in range(NUDGERS)
        ]
        uris = ["http://{}:{}/u".format(*listener.getsockname()) for listener in listeners]
        actions = [cancelled(client, uri) for uri in uris for _ in range(each)]
        streams = [open_ones.enter_context(stream) for listener in listeners for stream in come(listener, each)]
        nudging = threading.Thread(target=nudge, args=(streams, counts))
        nudging.start()
        others = 0
        while nudging.is_alive():
            beside = cancelled(client, other.uri("u"))
            wait_until("another end", lambda beside=beside: client.status(beside) == "Cancelled")
            others += 1
        check_rests(service, 1)
        for stream in streams:
            stream.sendall(ANSWERS[0])
        wait_until("all ends", lambda: all(client.status(action) == "Cancelled" for action in actions))
        equal("the replies", replies_in(setting), {"done": len(actions) + others, "silent": 0})
        return f"{counts['nudges']} urgent bytes, {wakes(service) - before} wakes, {others} actions meanwhile"


def never_answering(stack, hosts):
    """A listener on each of some hosts, at which connections wait for ever."""
    for place in range(hosts):
        listener = stack.enter_context(
            socket.create_server((f"127.0.{place // 250}.{place % 250 + 2}", 0), backlog=SILENT)
        )
        yield "http://{}:{}/u".format(*listener.getsockname())


def called_after(client, member, path):
    """How many seconds after its close begins a member has its request."""
    action = client.start()
    client.join(action, compensate=member.uri("u"), complete=member.uri(path))
    begun = time.monotonic()
    client.end(action, "close")
    return member.wait(path)[0].moment - begun


def asked(setting):
    """The members that have been asked."""
    return {it.fields[1] for it in journal.entries(setting.journal) if it.deed == "ask"}


def test_a_thousand_silent_members_hold_up_nobody(setting):
    with (
        setting.serve(4) as service,
        Participant() as member,
        service.client() as client,
        contextlib.ExitStack() as open_ones,
    ):
        room_for(service, SILENT)
        silent = list(never_answering(open_ones, HOSTS))
        for place in range(SILENT):
            cancelled(client, silent[place % HOSTS])
        limits = [client.start(limit=500) for _ in range(LOOKS)]
        late = [called_after(client, member, f"c{place}") for place in range(LOOKS)]
        wait_until("the limits", lambda: all(client.status(action) == "Cancelled" for action in limits))
        passed = lateness_of_limits(setting.journal)
        wait_until(f"that {SILENT} members are asked", lambda: len(asked(setting)) >= SILENT)
        check_late("a member is called", late)
        equal("the limits that have passed", len(passed), LOOKS)
        check_late("a limit passes", [milliseconds / 1000 for milliseconds in passed])
        return (
            f"a good member is called after {1000 * max(late):.0f} ms at most, "
            f"a limit fires {max(passed)} ms late at most"
        )


def test_silent_members_that_fall_due_at_once_hold_up_nobody(setting):
    with (
        setting.serve(4) as service,
        Participant() as member,
        service.client() as client,
        contextlib.ExitStack() as open_ones,
    ):
        room_for(service, DUE)
        action = client.start()
        for uri in never_answering(open_ones, DUE):
            client.join(action, compensate=uri)
        client.end(action, "cancel")
        wait_until("the asks", lambda: len(asked(setting)) == DUE)
        late = [called_after(client, member, f"c{place}") for place in range(LOOKS)]
        check_late("a member is called", late)
        return f"a good member is called after {1000 * max(late):.0f} ms at most"
