"""What the system has too few of, threads, descriptors and memory: a service that lacks them says so,
and one that serves answers."""
import contextlib
import os
import re
import resource
import shutil
import statistics
import subprocess
import sys
import time
from collections import Counter

import allocations
import blind
import journal
import operators
import refusing
from folders import Folder, instance_of, put
from files import SOUND
from participant import Participant, wait_until
from service import CLOSED, HOST, LATE, PATIENCE, LeftOut, Service, Telling
from service import calm, check, equal, free_port, id_of, is_ready, received
from watching import watched

# A user of no other process, and how many threads a service of two workers has at most.
USER, THREADS = 61_234, 24
# How many seconds an idle connection has to make room for a newcomer, where a busy machine doesn't hold it up.
ROOM = 1
# How many seconds lie between two newcomers at least: idle times are kept in milliseconds, and one of a millisecond
# counts as another of it.
APART = 0.005
# How many seconds the system has no descriptor for a callback: it is tried again each second.
LACKING = 2.5
# The line that tells of lowered limits.
LOWERED = re.compile(r"at most (\d+) connections and (\d+) callbacks at once: the limit of open files is 128\n")


def as_user(setting, user, threads):
    """The words with which a program is begun by a user who may have so many threads."""
    for word in ("setpriv", "prlimit"):
        if not shutil.which(word):
            raise LeftOut(word)
    if os.geteuid() != 0:
        raise LeftOut("another user")
    os.chmod(setting.folder, 0o755)
    words = ["setpriv", f"--reuid={user}", f"--regid={user}", "--clear-groups", "prlimit", f"--nproc={threads}"]
    return tuple(words)


def given_away(setting, user):
    """The program where that user may run it, and a place of the user's."""
    program = f"{setting.folder}/program"
    # By a process of its own: a file that is open for writing in one that another thread is just starting can't be run.
    subprocess.run(["cp", setting.program, program], check=True)
    os.chmod(program, 0o755)
    place = f"{setting.folder}/place"
    os.makedirs(place, exist_ok=True)
    os.chown(place, user, user)
    return program, place


def ends_or_serves(words, address):
    """Runs a service until it has ended or says that it serves. Answers its process in that case, and else nothing:
    then it said why."""
    process = subprocess.Popen(words, stdin=subprocess.PIPE, stdout=subprocess.PIPE, stderr=subprocess.PIPE)
    check("nothing is said", is_ready(process.stdout, PATIENCE))
    line = process.stdout.readline().decode()
    if line:
        equal("what is said", line, f"serving {address}\n")
        return process
    _, told = process.communicate(timeout=PATIENCE)
    equal("what is told", (process.returncode, told.decode()), (2, f"lra: cannot serve {address}\n"))
    return None


def first_that_serves(setting, user, place_of, *options):
    """Lets a service have one thread more each time, until it serves. Answers how many it wants, once it has answered
    a request."""
    program, place = given_away(setting, user)
    address = f"{HOST}:{free_port()}"
    for threads in range(1, THREADS):
        words = [*as_user(setting, user, threads), program, "serve", *options, address, place_of(place), "2"]
        process = ends_or_serves(words, address)
        if process:
            service = Service(program, place)
            service.port = int(address.rsplit(":", 1)[1])
            with service.client() as client:
                equal("a status", client.status(client.start()), "Active")
            process.kill()
            process.communicate()
            return threads
    raise AssertionError("it never serves")


def test_a_file_is_not_served_with_a_thread_too_few(setting):
    """Two that answer, two that carry, two that look names up, one that reads standard input, and the first one."""
    wanted = first_that_serves(setting, USER, lambda place: f"{place}/journal", "--stop-at-eof")
    check(f"it serves with {wanted} threads", wanted >= 8)
    return f"{wanted} threads"


def test_a_folder_is_not_served_with_a_thread_too_few(setting):
    """The same, and a thread for each journal, of which there are two."""

    def two_journals(place):
        for instance in (7, 8):
            path = f"{place}/{instance:015x}.journal"
            with open(path, "wb") as it:
                it.write(SOUND.replace(b"journal 2 7", f"journal 2 {instance}".encode()))
            os.chown(path, USER + 1, USER + 1)
        return place

    wanted = first_that_serves(setting, USER + 1, two_journals)
    check(f"it serves with {wanted} threads", wanted >= 8)
    return f"{wanted} threads"


class Lean(operators.WatchedFolder):
    """A service of a folder by a user who may have few threads, with a port for operators and a log."""

    def __init__(self, setting, user):
        super().__init__(setting, "--roll-after", "1", "--remember", "3600", "--log", "warn", key=None)
        program, _ = given_away(setting, user)
        os.chown(self.folder, user, user)
        self.words[0] = program
        self.words[:0] = as_user(setting, user, THREADS)
        self.user = user

    def crowd(self):
        """Processes of the same user, which leave no thread for others."""
        threads = len(os.listdir(f"/proc/{self.process.pid}/task"))
        words = ("setpriv", f"--reuid={self.user}", f"--regid={self.user}", "--clear-groups", "sleep", "600")
        return [subprocess.Popen(words) for _ in range(THREADS - threads)]

    def is_theirs(self, process):
        """Whether a process is the user's by now, or has ended since there was no room for it."""
        with contextlib.suppress(FileNotFoundError, ProcessLookupError):
            return os.stat(f"/proc/{process.pid}").st_uid == self.user or process.poll() is not None
        return True


def test_a_thread_that_is_refused_later_is_told_and_had_later(setting):
    """The next journal wants one. Until it is there the newest goes on, and health is DOWN."""
    with Lean(setting, USER + 2) as folder:
        # The journal that is there has its thread.
        folder.wait_for_next()
        calm(folder)
        others = folder.crowd()
        try:
            wait_until("that the others are there", lambda: all(map(folder.is_theirs, others)))
            actions = folder.first()
            wait_until("that health is DOWN", lambda: not folder.is_ready())
            wait_until("that it is told", lambda: "thread refused" in folder.told())
            actions += folder.first(3)
        finally:
            for other in others:
                other.kill()
                other.wait()
        wait_until("that health is UP", folder.is_ready)
        with folder.client() as client:
            equal("the statuses", {client.status(it) for it in actions}, {"Active"})
        return f"{len(others)} others"


class Blinded(operators.WatchedFolder):
    """A service of a folder, with a port for operators and a log, whose threads that answer can be made to end."""

    def __init__(self, setting):
        super().__init__(setting, "--log", "warn", key=None)
        self.mark = f"{setting.folder}/mark"
        self.words[:0] = (sys.executable, blind.__file__, self.mark)

    def first_line(self):
        return watched(super().first_line())

    def end_one(self):
        """Has the next thread that answers and waits for events end."""
        journal.write(self.mark, b"")
        wait_until("that a thread waits", lambda: not os.path.exists(self.mark))


def test_a_worker_that_ends_is_told_and_the_last_one_ends_the_service(setting):
    with Blinded(setting) as folder:
        check("it isn't ready", folder.is_ready())
        folder.end_one()
        wait_until("that health is DOWN", lambda: not folder.is_ready())
        for text in ("error thread ended", "a thread that answered has ended: the system tells no more"):
            wait_until(f"that {text!r} is told", lambda text=text: text in folder.told())
        for _ in range(3):
            folder.first()
        folder.end_one()
        equal("the status", folder.process.wait(PATIENCE), 2)
        # The log tells the fault as well.
        equal("what is told last", folder.told().splitlines()[-2:].count(f"lra: cannot serve {folder.address}"), 1)


class Refusing(operators.WatchedFolder):
    """A service of a folder, with a port for operators and a log:
    threads that begin while a file is there get no memory."""

    def __init__(self, setting):
        super().__init__(setting, "--roll-after", "2", "--remember", "3600", "--log", "warn", key=None)
        self.flag = f"{setting.folder}/flag"
        self.words[:0] = (sys.executable, refusing.__file__, self.flag)

    def first_line(self):
        return watched(super().first_line())


def test_a_callback_thread_that_is_refused_memory_goes_on(setting):
    """That of the next journal but one begins while there is none. Until there is, health is DOWN and says whose
    callbacks stand still."""
    with Refusing(setting) as folder, Participant() as member:
        folder.wait_for_next()
        calm(folder)
        journal.write(folder.flag, b"")
        folder.first(2)
        wait_until("that health is DOWN", lambda: not folder.is_ready())
        threads = next(it for it in folder.read("/health/live", 503)["checks"] if it["name"] == "threads")
        newest = threads["data"]["callbacks_of"]
        line = f"error callbacks stand journal={newest}"
        wait_until(f"that {line!r} is told", lambda: line in folder.told())
        folder.first(2)
        wait_until("that it is the newest", lambda: max(folder.journals()) == newest)
        folder.wait_for_next()
        with folder.client() as client:
            action = client.start()
            equal("the journal", instance_of(action), newest)
            client.join(action, **member.addresses("compensate"))
            client.end(action, "cancel")
        time.sleep(1)
        equal("requests", member.requests, [])
        os.remove(folder.flag)
        member.wait("compensate")
        wait_until("that health is UP", folder.is_ready)


def limited(service, files):
    """A service to which the system gives so many descriptors."""
    if not shutil.which("prlimit"):
        raise LeftOut("prlimit")
    service.words[:0] = ("prlimit", f"--nofile={files}")
    return service


class Written(Telling):
    """A service of a file by options."""

    def __init__(self, setting, *options):
        super().__init__(setting.program, setting.journal)
        self.words[2:2] = options


def until_closed(streams):
    """Waits until one of the streams has ended, and answers its place."""
    begun = time.monotonic()
    while time.monotonic() - begun < LATE:
        for place, stream in enumerate(streams):
            if is_ready(stream, 0) and not received(stream)[0]:
                return place
        time.sleep(0.01)
    raise AssertionError("none has ended")


def check_waits(waits):
    """Newcomers wait for less than a second, but for those that a busy machine holds up."""
    check(f"newcomers wait for {waits} s", statistics.median(waits) < ROOM and max(waits) < LATE)


def answered(stream):
    """Asks for something on a connection, and answers how long that took."""
    begun = time.monotonic()
    stream.sendall(b"GET /lra HTTP/1.1\r\nHost: h\r\n\r\n")
    check("a reply", is_ready(stream, PATIENCE) and stream.recv(65536).startswith(b"HTTP/1.1 404 "))
    return time.monotonic() - begun


def test_who_has_been_idle_longest_makes_room_where_descriptors_are_few(setting):
    """What was asked for is lowered to what there is, and that is told. Who has been idle longest gives way to a
    newcomer, within a second."""
    with limited(Written(setting, "--connections", "10000", "--log", "warn"), 128) as service:
        told = LOWERED.findall(service.told())
        equal("how often it is told", len(told), 1)
        connections, callbacks = map(int, told[0])
        check(f"{connections} and {callbacks}", 4 <= callbacks and connections + callbacks <= 64)
        equal("the half that callbacks have", callbacks, (connections + callbacks) // 2)
        check(service.told(), f"descriptors lowered asked=11024 had={connections + callbacks}" in service.told())
        streams, waits = [], []
        for _ in range(2 * connections):
            time.sleep(APART)
            streams.append(service.connect())
            waits.append(answered(streams[-1]))
        check_waits(waits)
        # Those that came first were ended, and those that came last are still there.
        check_waits([answered(stream) for stream in streams[-connections // 2 :]])
        check("none of the first is ended", until_closed(streams[:4]) < 4)
        return f"{connections} connections"


def test_a_member_is_not_silent_where_the_system_has_no_descriptor_for_its_callback(setting):
    """It is asked again until there is one, and nothing is recorded of it meanwhile."""
    with Participant() as member, Written(setting) as service, service.client() as client:
        action = client.start()
        client.join(action, **member.addresses("compensate", "complete"))
        pid = service.process.pid
        used = len(os.listdir(f"/proc/{pid}/fd"))
        before = resource.prlimit(pid, resource.RLIMIT_NOFILE)
        resource.prlimit(pid, resource.RLIMIT_NOFILE, (used, before[1]))
        equal("the close", client.call("PUT", f"/lra-coordinator/{id_of(action)}/close").code, 202)
        time.sleep(LACKING)
        equal("what was asked", member.requests, [])
        deeds = Counter(entry.deed for entry in journal.entries(service.journal))
        equal("the asks, and what came of them", (deeds["ask"], deeds["reply"]), (1, 0))
        resource.prlimit(pid, resource.RLIMIT_NOFILE, before)
        wait_until("the end", lambda: client.status(action) == "Closed")


def test_a_newcomer_has_room_where_the_system_has_no_descriptor_any_more(setting):
    """What the system gives is lowered later, below what is open."""
    with Written(setting) as service:
        streams = [service.connect() for _ in range(40)]
        for stream in streams:
            answered(stream)
        pid = service.process.pid
        used = len(os.listdir(f"/proc/{pid}/fd"))
        resource.prlimit(pid, resource.RLIMIT_NOFILE, (used, used))
        waits = []
        for _ in range(10):
            streams.append(service.connect())
            waits.append(answered(streams[-1]))
        check_waits(waits)
        check("none of the first is ended", until_closed(streams[:8]) < 8)


def test_a_folder_of_more_journals_than_descriptors_says_so(setting):
    for instance in range(1, 13):
        put(setting, f"{instance:015x}.journal", SOUND.replace(b"journal 2 7", f"journal 2 {instance}".encode()))
    folder = limited(Folder(setting), 120)
    done = subprocess.run(folder.words, stdin=subprocess.DEVNULL, capture_output=True, timeout=PATIENCE, check=False)
    lines = done.stderr.decode().splitlines()
    equal("the end", (done.returncode, done.stdout, lines[-1]), (2, b"", f"lra: cannot serve {folder.address}"))
    check(f"{lines}", lines[0].startswith("lra: the limit of open files is 120, and at least "))
    with limited(Folder(setting), 160) as folder:
        equal("a start", len(folder.first()), 1)


# The most allocations that are refused of those by which an action is cancelled and its member asked, one in each turn.
MOST_REFUSED = 200


def until_done(client, method, path):
    """Repeats a request for which there may be no memory until it is done:
    503 or no reply at all says that it may not be."""

    def is_done():
        try:
            return client.call(method, path).code in (200, 202)
        except CLOSED:
            client.connection.close()
            return False

    wait_until(f"{method} {path}", is_done)


def test_a_member_is_asked_whichever_allocation_is_refused(setting):
    """Those who carry callbacks go on after one, as those who answer do."""
    turns = []
    for kind in (operators.Watched, operators.WatchedFolder):
        service = kind(setting)
        counter = allocations.Allocations(f"{setting.folder}/allocations")
        service.words[:0] = counter.words()
        with Participant() as member, service, service.client() as client:
            for number in range(1, MOST_REFUSED):
                action = client.start()
                client.join(action, **member.addresses("compensate"))
                counter.refuse(number)
                until_done(client, "PUT", f"/lra-coordinator/{id_of(action)}/cancel")
                member.wait("compensate", number)
                until_done(client, "GET", "/lra-coordinator/" + id_of(action))
                counted = counter.counted()
                counter.refuse(0)
                wait_until("its end", lambda: client.status(action) == "Cancelled")
                if counted < number:
                    break
            turns.append(number)
            wait_until("that it is ready", service.is_ready)
            equal("the status of the program", service.process.poll(), None)
    return f"{turns} turns"


def starts_without_memory(service, counter, client):
    """Refuses the allocations of starts, one in each. Returns the code of each, or 0 where a connection was closed with
    no reply; after each another start is answered."""
    codes = []
    for number in range(1, MOST_REFUSED):
        counter.refuse(number)
        try:
            codes.append(client.call("POST", "/lra-coordinator").code)
        except CLOSED:
            client.connection.close()
            codes.append(0)
        counted = counter.counted()
        counter.refuse(0)
        equal("the next start", client.call("POST", "/lra-coordinator").code, 201)
        if counted < number:
            break
    wait_until("that it is ready", service.is_ready)
    equal("the status of the program", service.process.poll(), None)
    return codes


def test_no_thread_ends_whichever_allocation_of_a_request_is_refused(setting):
    """A request that is refused with 503 has left no trace. Another may have lost its connection."""
    turns = Counter()
    for kind in (operators.Watched, operators.WatchedFolder):
        service = kind(setting)
        counter = allocations.Allocations(f"{setting.folder}/allocations")
        service.words[:0] = counter.words()
        with service, service.client() as client:
            client.start()
            calm(service)
            codes = Counter(starts_without_memory(service, counter, client))
            check(f"the codes are {codes}", codes[503] and set(codes) <= {0, 201, 503})
            starts = sum(it.deed == "start" for it in journal.entries(operators.path_of(service)))
            least = 1 + codes.total() + codes[201]
            check(f"{starts} starts are in the journal", least <= starts <= least + codes[0])
            turns.update(codes)
    return f"{turns[201]} starts were answered, {turns[503]} refused, and {turns[0]} lost their connections"
