"""A running `lra serve`, and clients that call it."""
import contextlib
import fcntl
import glob
import http.client
import json
import os
import random
import select
import signal
import socket
import struct
import subprocess
import tempfile
import threading
import time
import uuid
from collections import namedtuple

HOST = "127.0.0.1"
# How many seconds anything may take that has no limit of its own.
PATIENCE = 60
# How many seconds a start may take, which syncs what it finds: a busy disk may hold a sync up for long.
START = 120
# How many seconds late an answer or an end may be on a busy machine, or where its disk takes its time: fewer than the
# ten that a client has for a message, and that a gentle end lasts at most.
LATE = 8
# How many seconds a connection may be idle before a request: a service closes one after thirty.
IDLE = 25
# For how many seconds a service rests that has ended what it has begun by itself, how often it is looked at, and how
# many seconds are enough for that.
CALM, LOOKS, ENOUGH = 0.5, 10, 15
# Where the processes that test note the ports that they were given: a lock on a byte for each, which ends with them.
NOTES = f"{tempfile.gettempdir()}/raxunto-ports-{os.getuid()}"

Reply = namedtuple("Reply", "code phrase fields body")
Run = namedtuple("Run", "status output told")

# How a connection shows that it was closed with no reply.
CLOSED = (http.client.RemoteDisconnected, ConnectionResetError, BrokenPipeError)

lock = threading.Lock()
given_ports = set()
notes = []
started = []


class LeftOut(Exception):
    """The system can't do what the test wants of it."""


def equal(what, got, wanted):
    """Fails the test where the two differ."""
    if got != wanted:
        raise AssertionError(f"{what}: {got!r}, wanted {wanted!r}")


def check(what, holds):
    """Fails the test where this doesn't hold."""
    if not holds:
        raise AssertionError(what)


def is_noted(port):
    """Notes a port as given, and answers whether that was done: it isn't where another process has it."""
    try:
        if not notes:
            # It stays open: the locks of a process end where it closes the file.
            notes.append(os.open(NOTES, os.O_RDWR | os.O_CREAT | os.O_CLOEXEC | os.O_NOFOLLOW, 0o600))
        fcntl.lockf(notes[0], fcntl.LOCK_EX | fcntl.LOCK_NB, 1, port)
    except BlockingIOError:
        return False
    return True


def free_port():
    """A port of four digits that nothing listens at, and that wasn't given before, nor to another process that tests:
    a service may leave it for a while and take it again. The system chooses none of these itself. It is asked by a
    connection: a socket that was bound to it would be held for a while by a process that another thread is just
    starting."""
    while True:
        port = random.randint(2000, 9999)
        with lock, socket.socket() as probe:
            if port not in given_ports and probe.connect_ex((HOST, port)) != 0 and is_noted(port):
                given_ports.add(port)
                return port


def begun_by(number):
    """The numbers of the processes that a process has begun, and of those that they have begun."""
    found = []
    for path in glob.glob(f"/proc/{number}/task/*/children"):
        with contextlib.suppress(OSError), open(path, encoding="ascii") as it:
            for child in map(int, it.read().split()):
                found += [child, *begun_by(child)]
    return found


def has_ended(number):
    """Whether no thread of a process is left, though nobody may have asked for its status yet."""
    try:
        with open(f"/proc/{number}/stat", "rb") as it:
            state = it.read().rsplit(b")", 1)[1].split()[0]
        return state in (b"Z", b"X") and len(os.listdir(f"/proc/{number}/task")) <= 1
    except OSError:
        return True


def is_ready(stream, seconds):
    """Whether something comes, or the end, within so many seconds. (select takes no file of a number past 1,023.)"""
    watched = select.poll()
    watched.register(stream, select.POLLIN)
    return bool(watched.poll(seconds * 1000))


def received(stream):
    """What comes until a connection ends, and whether it ends without being reset."""
    data = b""
    try:
        while piece := stream.recv(65536):
            data += piece
    except ConnectionResetError:
        return data, False
    return data, True


def reset(stream):
    """Closes a connection by a reset."""
    stream.setsockopt(socket.SOL_SOCKET, socket.SO_LINGER, struct.pack("ii", 1, 0))
    stream.close()


def number_of(uri):
    """The number of the action or member that a URI names."""
    return uuid.UUID(uri.rsplit("/", 1)[1]).int & (2**62 - 1)


def id_of(uri):
    """The identifier in a URI."""
    return uri.rsplit("/", 1)[1]


def run(program, *words):
    """Runs the program to its end."""
    done = subprocess.run(
        [program, *words], stdin=subprocess.DEVNULL, capture_output=True, timeout=PATIENCE, check=False
    )
    return Run(done.returncode, done.stdout.decode(), done.stderr.decode())


class Client:
    """Calls a service by HTTP, over one connection that is kept, or over one for each request."""

    def __init__(self, port, keep=True):
        self.connection = http.client.HTTPConnection(HOST, port, timeout=PATIENCE)
        self.keep = keep
        self.used = time.monotonic()

    def __enter__(self):
        return self

    def __exit__(self, *_):
        self.connection.close()

    def call(self, method, path, **keys):
        """A request with these keys in its body, and its reply."""
        return self.send(method, path, json.dumps(keys) if keys else None)

    def send(self, method, path, body):
        """A request with this body, and its reply. A connection that has been idle for long, since something else took
        its time, may just be ending: it is replaced."""
        fields = {} if self.keep else {"Connection": "close"}
        if time.monotonic() - self.used > IDLE:
            self.connection.close()
        self.used = time.monotonic()
        self.connection.request(method, path, body, fields)
        reply = self.connection.getresponse()
        text = reply.read()
        if not self.keep:
            self.connection.close()
        return Reply(reply.status, reply.reason, dict(reply.getheaders()), json.loads(text) if text else None)

    def start(self, **keys):
        """Starts an action, and answers its URI."""
        reply = self.call("POST", "/lra-coordinator", **keys)
        equal("a start", reply.code, 201)
        return reply.body["lra"]

    def join(self, action, **addresses):
        """Joins an action, and answers the member's recovery URI."""
        reply = self.call("PUT", "/lra-coordinator/" + id_of(action), **addresses)
        equal("a join", reply.code, 200)
        return reply.body["recovery"]

    def end(self, action, how):
        """Closes or cancels an action, and answers the status that is told."""
        reply = self.call("PUT", f"/lra-coordinator/{id_of(action)}/{how}")
        check(f"a {how}: {reply}", reply.code in (200, 202))
        return reply.body["status"]

    def leave(self, action, recovery):
        """Lets a member leave its action."""
        equal("a leave", self.call("PUT", f"/lra-coordinator/{id_of(action)}/remove", recovery=recovery).code, 200)

    def renew(self, action, limit):
        """Sets an action's limit anew."""
        equal("a renewal", self.call("PUT", f"/lra-coordinator/{id_of(action)}/renew", limit=limit).code, 200)

    def status(self, action):
        """The status of an action."""
        reply = self.call("GET", "/lra-coordinator/" + id_of(action))
        equal("a status", reply.code, 200)
        return reply.body["status"]


class Service:
    """The program, serving a journal at an address."""

    def __init__(self, program, journal, workers=2, port=None):
        self.journal = journal
        self.port = port or free_port()
        self.address = f"{HOST}:{self.port}"
        self.words = [program, "serve", self.address, journal, str(workers)]

    def begin(self, stdin=subprocess.DEVNULL, stderr=subprocess.STDOUT):
        """Starts the program."""
        # SIGXFSZ stays ignored, as Python has it: else a file that may not grow would end the program. Nothing is read
        # ahead: a second line that came with the first would be waited for in vain.
        self.process = subprocess.Popen(
            self.words, bufsize=0, stdin=stdin, stdout=subprocess.PIPE, stderr=stderr, restore_signals=False
        )
        with lock:
            started.append(self.process)

    def __enter__(self):
        self.begin()
        line = self.first_line()
        if line != f"serving {self.address}\n":
            self.kill()
            raise AssertionError(f"the service says {line!r}, wanted 'serving {self.address}'")
        return self

    def first_line(self):
        return self.process.stdout.readline().decode() if is_ready(self.process.stdout, START) else "nothing"

    def __exit__(self, *_):
        self.kill()

    def kill(self, signal_number=signal.SIGKILL):
        """Ends the program by a signal, and answers its status. A program that is watched ends a moment after its
        watcher, and has its port and its files until then: that is waited for."""
        watched = begun_by(self.process.pid) if self.process.poll() is None else []
        self.process.send_signal(signal_number)
        try:
            status = self.process.wait(PATIENCE)
        finally:
            self.process.kill()
            self.process.wait()
            self.process.stdout.close()
        end = time.monotonic() + PATIENCE
        while not all(map(has_ended, watched)):
            check("the watched program has ended", time.monotonic() < end)
            time.sleep(0.005)
        return status

    def client(self, keep=True):
        return Client(self.port, keep)

    def connect(self):
        """A bare connection."""
        stream = socket.create_connection((HOST, self.port), timeout=PATIENCE)
        stream.setsockopt(socket.IPPROTO_TCP, socket.TCP_NODELAY, 1)
        return stream

    def memory(self, which="VmRSS"):
        """How many kilobytes of memory the program has; with VmHWM, the most that it has had."""
        with open(f"/proc/{self.process.pid}/status", encoding="ascii") as it:
            return next(int(line.split()[1]) for line in it if line.startswith(which + ":"))

    def seconds(self):
        """The processor time that the program has taken."""
        with open(f"/proc/{self.process.pid}/stat", "rb") as it:
            fields = it.read().rsplit(b")", 1)[1].split()
        return (int(fields[11]) + int(fields[12])) / os.sysconf("SC_CLK_TCK")


def calm(service):
    """Waits until a service rests that has begun what it begins by itself: for a while it has the same threads, and
    each waits for something. One that a busy machine keeps from running doesn't wait; where there is always such a one
    the service has had time enough at last."""
    looks, before = 0, None
    end = time.monotonic() + ENOUGH
    while looks < LOOKS and time.monotonic() < end:
        now = threads_of(service)
        looks = looks + 1 if now == before and set(now.values()) <= {"S"} else 0
        before = now
        time.sleep(CALM / LOOKS)


def threads_of(service):
    """The state of each thread of a service, and of what it has begun, by its number."""
    found = {}
    for number in (service.process.pid, *begun_by(service.process.pid)):
        for path in glob.glob(f"/proc/{number}/task/*/stat"):
            with contextlib.suppress(OSError), open(path, "rb") as it:
                found[path] = it.read().rsplit(b")", 1)[1].split()[0].decode()
    return found


def least_share(service, seconds, little=0.05):
    """Which part of a processor a service takes that has nothing to do, for so long: the least of some tries, since a
    busy machine may have left it with something from before."""
    least = None
    for _ in range(5):
        used, begun = service.seconds(), time.monotonic()
        time.sleep(seconds)
        taken = (service.seconds() - used) / (time.monotonic() - begun)
        least = taken if least is None else min(least, taken)
        if least < little:
            break
    return least


class Telling(Service):
    """A service whose standard error goes to a file. Where it `stops` it ends with its standard input."""

    stops = False

    def __enter__(self):
        self.errors = tempfile.TemporaryFile()
        self.begin(subprocess.PIPE if self.stops else subprocess.DEVNULL, self.errors)
        line = self.first_line()
        if line != f"serving {self.address}\n":
            told, taken = self.told(), self.seconds()
            self.kill()
            raise AssertionError(
                f"the service says {line!r} and {told!r} after {taken:.1f} s of a processor, "
                f"wanted 'serving {self.address}'"
            )
        return self

    def kill(self, *signals):
        if self.stops and not self.process.stdin.closed:
            self.process.stdin.close()
        return super().kill(*signals)

    def told(self):
        """What it has told on standard error so far, by whole lines as long as it runs, since the last one may be there
        in part. The file's place is the service's, too, so that it isn't moved."""
        runs = self.process.poll() is None
        data = os.pread(self.errors.fileno(), os.fstat(self.errors.fileno()).st_size, 0)
        return (data[: data.rfind(b"\n") + 1] if runs else data).decode()


def left_over():
    """The programs that were started and still run."""
    return [process.pid for process in started if process.poll() is None]
