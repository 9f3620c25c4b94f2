"""Rotations at which a call of the system fails, or an allocation is refused: what was answered is in the journals."""
import contextlib
import errno
import fcntl
import http.client
import os
import re
import sys
import threading
import time
import traceback

import allocations
import failing
import folders
import journal
import starving
from participant import Participant, wait_until
from service import CLOSED, PATIENCE, Client, LeftOut, check, equal, id_of, number_of
from watching import Deniable, denial, watched

# How many connections there are, so that each worker has some.
CONNECTIONS = 8
# How many seconds pass until a journal that has ended is archived, and a bit.
QUIET = 2.5
# The calls of a rotation that fail in the test, each in a run of its own; tools/fail-rotation has all.
SOME = (3, 4, 5, 6, 8, 13)
# The same of those that want memory.
SOME_MEMORY = (1, 2, 4, 8, 16, 32)
# How many allocations of a rotation are refused in the test, each in a run of its own; tools/fail-rotation
# --allocations has more.
SOME_ALLOCATIONS = 8
# What may be answered while a journal can't be written, or a worker can't follow.
ANSWERS = {200, 201, 202, 503}
# The steps by which the next journal comes, and those by which one is archived: a call, and its file.
NEXT_STEPS = (("write", "/newest.next$"), ("rename", "/newest$"), ("openat", "[0-9a-f].next$"), ("rename", ".journal$"))
# Some of them, each with a name, an error of the system and the line that tells it.
MEMORY, MANY = "lra: out of memory\n", "lra: too many files are open for "
REASONS = (
    ("openat", "/newest.next$", "memory", errno.ENOMEM, MEMORY),
    ("openat", "/newest.next$", "process", errno.EMFILE, MANY + "{folder}\n"),
    ("openat", "/newest.next$", "machine", errno.ENFILE, MANY + "{folder}\n"),
    ("openat", "/journals$", "memory", errno.ENOMEM, MEMORY),
    ("openat", "/journals$", "process", errno.EMFILE, MANY + "a next journal of {folder}\n"),
    ("openat", "[0-9a-f].next$", "process", errno.EMFILE, MANY + "{folder}/[0-9a-f]{{15}}.next\n"),
    ("flock", "[0-9a-f].next$", "locks", errno.ENOLCK, "lra: cannot write {folder}/[0-9a-f]{{15}}.next\n"),
)
# Those that a sync of the folder follows.
SYNCED_STEPS = (NEXT_STEPS[0], NEXT_STEPS[3])
ARCHIVE_STEPS = (
    *(("mkdir", "/ended$"), ("link", "/ended/.*.next$"), ("link", "/ended/.*.journal$")),
    ("unlink", "/journals/[0-9a-f]*.journal$"),
)
# How often a step fails. A second passes from a try to the next, and of archiving twice as much each time. The least
# number of seconds that is seen from the first try to the last, where a busy machine makes the first one late.
TRIES, NEXT_TAKES, ARCHIVING_TAKES = 4, 2, 5


class Failing(folders.Folder):
    """A service over a folder, one of whose calls fails, from when that is switched on: of those that write, or of
    those that want memory. Where its journal has no room it may end."""

    goes_on = False

    def __init__(self, setting, place, number, workers, way=failing):
        os.makedirs(f"{setting.folder}/{place}", exist_ok=True)
        self.switch = f"{setting.folder}/{place}/switch"
        super().__init__(Placed(setting, place), "--roll-after", "3", "--remember", "1", workers=workers)
        self.plain = list(self.words)
        self.words[:0] = [sys.executable, way.__file__, self.folder, str(number), self.switch]

    def first_line(self):
        return watched(super().first_line())

    def switch_on(self):
        with open(self.switch, "w", encoding="ascii"):
            pass

    def counted(self):
        """How many calls were counted."""
        with open(self.switch, encoding="ascii") as it:
            return len(it.readlines())


class Refusing(folders.Folder):
    """One of whose allocations is refused. It goes on after that."""

    goes_on = True

    def __init__(self, setting, place, number, workers, _way):
        os.makedirs(f"{setting.folder}/{place}", exist_ok=True)
        self.number, self.allocations = number, allocations.Allocations(f"{setting.folder}/{place}/allocations")
        super().__init__(Placed(setting, place), "--roll-after", "3", "--remember", "1", workers=workers)
        self.plain = list(self.words)
        self.words[:0] = self.allocations.words()

    def switch_on(self):
        self.allocations.refuse(self.number)

    def counted(self):
        """How many allocations were counted."""
        return self.allocations.counted()


class Placed:
    """A setting in a folder of its own below another's."""

    def __init__(self, setting, place):
        self.program = setting.program
        self.folder = f"{setting.folder}/{place}"


class Answered:
    """What was answered: starts, joins, and ends."""

    def __init__(self):
        self.starts, self.joins, self.ends = [], [], []
        self.asked_to_end = []

    def call(self, client, method, path, **keys):
        """The body of a reply that says that something was done, if it does.
        A connection may be closed with no reply, too."""
        try:
            reply = client.call(method, path, **keys)
        except CLOSED:
            client.connection.close()
            return None
        check(f"{method} {path} is answered {reply}", reply.code in ANSWERS)
        return None if reply.code == 503 else reply.body

    def start(self, client):
        if body := self.call(client, "POST", "/lra-coordinator"):
            self.starts.append(body["lra"])
            return body["lra"]
        return None

    def join(self, client, action):
        if body := self.call(client, "PUT", "/lra-coordinator/" + id_of(action), compensate="http://127.0.0.1:1/"):
            self.joins.append(body["recovery"])

    def close(self, client, action):
        self.asked_to_end.append(action)
        if self.call(client, "PUT", f"/lra-coordinator/{id_of(action)}/close"):
            self.ends.append(action)


def work(service, answered):
    """Fills the first journal and ends all of it, waits until that may be archived, and begins more."""
    with contextlib.ExitStack() as stack:
        clients = [stack.enter_context(Client(service.port)) for _ in range(CONNECTIONS)]
        actions = [answered.start(client) for client in clients[:3]]
        check("the first journal takes no starts", all(actions))
        service.switch_on()
        # A service may have ended by itself, where nothing could be carried any more.
        with contextlib.suppress(http.client.RemoteDisconnected, ConnectionError):
            for client, action in zip(clients, actions):
                answered.close(client, action)
            time.sleep(QUIET)
            for _ in range(2):
                for client in clients:
                    if action := answered.start(client):
                        answered.join(client, action)
                time.sleep(0.3)


class Once:
    """Gives one call once more, of all that are given: the one whose own allocation was refused, so that its connection
    is closed with no reply."""

    def __init__(self):
        self.is_left = True

    def __call__(self, client, call, *words, **keys):
        try:
            return call(*words, **keys)
        except CLOSED:
            if not self.is_left:
                raise
            self.is_left = False
            client.connection.close()
            return call(*words, **keys)


def check_goes_on(service, answered):
    """Nobody of a service has stopped: all that it has is found by each worker, more is begun, members are asked, and
    what has ended is archived."""
    left = [action for action in answered.starts if action not in answered.asked_to_end]
    give = Once()
    with contextlib.ExitStack() as stack:
        member = stack.enter_context(Participant())
        clients = [stack.enter_context(Client(service.port)) for _ in range(CONNECTIONS)]
        for client in clients:
            for action in left:
                equal(f"the status of {action}", give(client, client.status, action), "Active")
        action = give(clients[0], clients[0].start)
        give(clients[1], clients[1].join, action, **member.addresses("compensate"))
        give(clients[2], clients[2].end, action, "cancel")
        member.wait("compensate")
        wait_until("its end", lambda: give(clients[3], clients[3].status, action) == "Cancelled")
    if len(answered.ends) == 3:
        wait_until("the first journal is archived", lambda: folders.instance_of(answered.ends[0]) in service.ended())
    equal("the status of the program", service.process.poll(), None)


def check_journals(service, answered):
    """Each start, join and end that was answered is in a journal, and what hasn't ended is served after a restart."""
    wait_until("the folder's lock is free", lambda: is_free(service.folder))
    kept = {"start": set(), "join": set(), "end": set()}
    for where in (".", "ended"):
        for name in service.journals(where):
            for entry in journal.entries(os.path.join(service.folder, where, name + ".journal")):
                if entry.deed in ("start", "join", "close"):
                    kept["end" if entry.deed == "close" else entry.deed].add((name, entry.fields[0]))
    def missing(what, uris):
        return [uri for uri in uris if (folders.instance_of(uri), str(number_of(uri))) not in kept[what]]

    equal("starts that no journal has", missing("start", answered.starts), [])
    equal("joins that no journal has", missing("join", answered.joins), [])
    equal("ends that no journal has", missing("end", answered.ends), [])
    service.words = service.plain
    with service:
        with service.client() as client:
            for action in answered.starts:
                if action not in answered.asked_to_end:
                    equal(f"the status of {action} after a restart", client.status(action), "Active")
        service.kill()
    folders.check_sound(service)


def is_free(folder):
    """Whether no service has a folder. (The program's watcher ends before it.)"""
    handle = os.open(folder, os.O_RDONLY)
    try:
        fcntl.flock(handle, fcntl.LOCK_EX | fcntl.LOCK_NB)
        # A process that another thread has just begun may have the handle too.
        fcntl.flock(handle, fcntl.LOCK_UN)
    except BlockingIOError:
        return False
    finally:
        os.close(handle)
    return True


def try_one(setting, workers, number, way=failing):
    """Has one call of a rotation fail, or one of its allocations. Answers how many were counted."""
    kind = Refusing if way == allocations else Failing
    service = kind(setting, f"{workers}-{number}", number, workers, way)
    answered = Answered()
    with service:
        work(service, answered)
        count = service.counted()
        if service.goes_on:
            try:
                check_goes_on(service, answered)
            except (AssertionError, OSError) as fault:
                raise AssertionError(
                    f"{fault}; the program has the status {service.process.poll()} and told {service.told()[-500:]!r}"
                ) from fault
        service.kill()
    check_journals(service, answered)
    return count


def each_at_once(one, keys):
    """Does one for each of the keys, each in a thread of its own. Returns what came of them, and the faults of those
    that failed."""
    results, faults = {}, {}

    def do(key):
        try:
            results[key] = one(key)
        except Exception as fault:  # whatever it is, the run has failed
            faults[key] = fault

    threads = [threading.Thread(target=do, args=(it,)) for it in keys]
    for thread in threads:
        thread.start()
    for thread in threads:
        thread.join()
    for fault in faults.values():
        if isinstance(fault, LeftOut):
            raise fault
    return results, {key: told_of(fault) for key, fault in sorted(faults.items())}


def told_of(fault):
    """What a fault says, and where it was raised unless a check did so."""
    if isinstance(fault, AssertionError):
        return str(fault)
    *_, last = traceback.extract_tb(fault.__traceback__)
    return f"{fault!r} in line {last.lineno} of {os.path.basename(last.filename)}"


def try_each(setting, workers, numbers, way=failing):
    """Has each of these calls or allocations fail, each in a run of its own. Answers the counts of them,
    and the faults of runs."""
    return each_at_once(lambda number: try_one(setting, workers, number, way), numbers)


def test_what_was_answered_is_in_the_journals_whichever_call_of_a_rotation_fails(setting):
    counts, faults = try_each(setting, 2, SOME)
    equal("runs that lost something, by the call that failed", faults, {})
    return f"{len(SOME)} of {max(counts.values())} calls fail"


def test_what_was_answered_is_in_the_journals_whichever_memory_of_a_rotation_is_refused(setting):
    counts, faults = try_each(setting, 2, SOME_MEMORY, starving)
    equal("runs that lost something, by the call that failed", faults, {})
    return f"{len(SOME_MEMORY)} of {max(counts.values())} calls fail"


def test_a_service_goes_on_whichever_allocation_of_a_rotation_is_refused(setting):
    most = try_one(setting, 2, 0, allocations)
    counts, faults = try_each(
        setting, 2, [1 + place * most // SOME_ALLOCATIONS for place in range(SOME_ALLOCATIONS)], allocations
    )
    equal("runs that lost something, or ended, by the allocation that was refused", faults, {})
    return f"{len(counts)} of {most} allocations are refused"


class Stubborn(Deniable, folders.Folder):
    """A service over a folder, one of whose steps is denied for a while."""

    def __init__(self, setting, step):
        placed = Placed(setting, re.sub("[^a-z]", "", "".join(step)))
        os.makedirs(placed.folder)
        super().__init__(placed, *folders.SOON)
        self.watch(placed)
        self.step = step

    def begin_failing(self):
        self.deny(denial(*self.step, errno.ENOSPC))

    def check_fails(self, least):
        """Waits while the step fails: it is tried again and again, each time after a pause, and that is told once.
        Returns how often it was tried."""
        wait_until("that it fails again and again", lambda: len(self.denied()) >= TRIES, 3 * PATIENCE)
        moments = self.denied()
        takes = moments[TRIES - 1] - moments[0]
        check(f"{TRIES} tries take {takes:.2f} s, and the moments are {moments}", takes > least)
        equal("how often it is told", self.told().count("\n"), 1)
        return len(moments)


def fail_next(setting, step):
    """Has a step fail by which the next journal comes: the newest goes on until it can be done."""
    with Stubborn(setting, step) as service:
        service.wait_for_next()
        service.begin_failing()
        actions = service.first(7)
        tries = service.check_fails(NEXT_TAKES)
        newest = max(service.journals())
        actions += service.first(3)
        equal("the journals of what is begun meanwhile", set(map(folders.instance_of, actions[-3:])), {newest})
        service.allow()
        wait_until("the next journal", lambda: max(service.journals()) > newest)
        check_all(service, actions)
        return tries


def tell_reason(setting, reason):
    """Has a step for the next journal fail for one of the system's reasons, which is told. What it began is removed."""
    *step, error, line = reason
    with Stubborn(setting, step) as service:
        service.wait_for_next()
        service.deny(denial(*step[:2], error))
        actions = service.first(4)
        service.check_fails(NEXT_TAKES)
        told, wanted = service.told(), line.format(folder=re.escape(service.folder))
        check(f"it tells {told!r}, and not {wanted!r}", re.fullmatch(wanted, told))
        equal("what is left", [name for name in os.listdir(service.folder) if name.endswith(".next")], [])
        service.allow()
        service.wait_for_next()
        check_all(service, actions)
        return 1


def fail_sync(setting, step):
    """Has the sync of the folder fail that follows a step for the next journal: what the step did could be lost, so the
    service ends, and what was answered is there afterwards."""
    with Stubborn(setting, step) as service:
        service.wait_for_next()
        service.begin_failing()
        actions = service.first(7)
        wait_until("that the step fails", service.denied)
        service.deny(denial("fsync", "/journals$"))
        equal("the status", service.process.wait(PATIENCE), 2)
        equal("what is told last", service.told().splitlines()[-1], f"lra: cannot write {service.folder}")
        service.allow()
    service.words = service.plain
    with service:
        check_all(service, actions)
        return 1


def fail_archiving(setting, step):
    """Has a step fail by which a journal is archived: nothing is lost, and it is archived once that can be done."""
    with Stubborn(setting, step) as service, service.client() as client:
        actions = service.first(3)
        first = folders.instance_of(actions[0])
        service.wait_for(2)
        service.begin_failing()
        for action in actions:
            equal("an end", client.end(action, "close"), "Closed")
        tries = service.check_fails(ARCHIVING_TAKES)
        check("its file is there", os.path.exists(service.path(first + ".journal")))
        actions = service.first(2)
        service.allow()
        wait_until("it is archived", lambda: first in service.ended() and first not in service.journals())
        check_all(service, actions)
        return tries


def check_all(service, actions):
    """All these are served, and the journals are sound."""
    with service.client() as client:
        equal("the statuses", {client.status(action) for action in actions}, {"Active"})
    service.kill()
    service.words = service.plain
    folders.check_sound(service)


def try_steps(setting, one, steps):
    """Has each of these steps fail, each in a run of its own."""
    tries, faults = each_at_once(lambda step: one(setting, step), steps)
    equal("the faults, by the step that failed", faults, {})
    return f"{sum(tries.values())} tries of {len(steps)} steps fail"


def test_a_step_for_the_next_journal_that_fails_is_repeated(setting):
    return try_steps(setting, fail_next, NEXT_STEPS)


def test_a_step_for_the_next_journal_fails_for_the_reason_that_is_told(setting):
    return try_steps(setting, tell_reason, REASONS)


def test_a_sync_of_the_folder_that_fails_ends_the_service(setting):
    return try_steps(setting, fail_sync, SYNCED_STEPS)


def test_a_step_of_archiving_that_fails_is_repeated(setting):
    return try_steps(setting, fail_archiving, ARCHIVE_STEPS)
