"""Two machines of a site, of which one at a time has the lease: one is killed or paused, or etcd is, and there are
never two coordinators on one folder."""
import contextlib
import os
import shutil
import signal
import subprocess
import threading
import time

from load import audited
from participant import wait_until
from parts import MARGIN, TTL, Etcd, Etcds, LeasedSite, running, supervised
from proxies import is_ready
from service import HOST, PATIENCE, Client, LeftOut, check, equal, free_port, id_of

BASE = "http://lra.example.com/"
# How many seconds until another machine serves, at most: etcd looks for leases that have run out each half second, and
# a busy machine takes its time.
TAKEOVER = TTL + 5
# How many seconds a lease lasts that is to outlive the choice of another leader.
LONG = 8


class Watch:
    """Looks as often as it can how many coordinators are on a folder."""

    def __init__(self, setting, site):
        self.setting, self.site = setting, site
        self.most, self.over = 0, threading.Event()
        self.thread = threading.Thread(target=self.look, daemon=True)

    def look(self):
        while not self.over.wait(0.005):
            self.most = max(self.most, len(running(self.setting.program, self.site.folder)))

    def __enter__(self):
        self.thread.start()
        return self

    def __exit__(self, *_):
        self.over.set()
        self.thread.join()


def shim_of(setting):
    """A library before the system's own, by which each lock is had; built here, where there is a compiler."""
    if not shutil.which("gcc"):
        raise LeftOut("there is no gcc")
    path = setting.folder + "/shim.so"
    subprocess.run(["gcc", "-O2", "-shared", "-fPIC", "-o", path, f"{setting.root}/tests/cluster/shim.c"], check=True)
    return path


def without_locks(setting):
    """What a program is run by so that it has each lock."""
    return ("env", "SHIM_FLOCK=1", "LD_PRELOAD=" + shim_of(setting))


@contextlib.contextmanager
def site_of_two(setting, front=(), folder=None, kind=Etcd, times=(TTL, MARGIN), fenced=False):
    """A site with two machines, the first of which has the lease."""
    with kind(f"{setting.folder}/etcd") as etcd:
        site = LeasedSite(setting, etcd, 1, BASE, front, folder, times, fenced)
        site.etcd = etcd
        first, second = site.holders
        try:
            first.begin()
            wait_until("the first serves", site.is_up)
            second.begin()
            time.sleep(0.5)
            check("both serve", not second.program())
            with supervised(site.holders):
                yield site
        finally:
            if kind is Etcd:
                etcd.process.send_signal(signal.SIGCONT)
            for it in site.holders:
                it.end()


def serves(holder):
    return holder.program() and is_ready(holder.operators)


def client_of(holder):
    return Client(int(holder.address.rpartition(":")[2]))


def started(holder):
    """An action that a machine has started."""
    with client_of(holder) as client:
        return client.start()


def stop(*pids):
    for it in pids:
        os.kill(it, signal.SIGSTOP)


def go_on(*pids):
    for it in pids:
        with contextlib.suppress(ProcessLookupError):
            os.kill(it, signal.SIGCONT)


def lose(setting, harm, heal=lambda *_: None, front=()):
    """The first machine is harmed, and the second, or the first once it has been started again, goes on with its
    actions; then the harm is undone. Answers how long that took."""
    with site_of_two(setting, front) as site, Watch(setting, site) as watch:
        first = site.holders[0]
        action, program = started(first), first.program()
        begun = time.monotonic()
        pids = harm(site, first)
        wait_until("another serves", lambda: another(site, program), TAKEOVER + PATIENCE)
        taken = time.monotonic() - begun
        check(f"it took {taken:.1f} s", taken < TAKEOVER + PATIENCE / 2)
        check("the first's coordinator is there", not alive(program))
        holder = another(site, program)
        with client_of(holder) as client:
            equal("the action", client.status(action), "Active")
            equal("its end", client.end(action, "close"), "Closed")
        heal(*pids)
        time.sleep(1)
        with client_of(holder) as client:
            equal("the action", client.status(action), "Closed")
    equal("the most coordinators at once", watch.most, 1)
    audited(setting.program, site.folder)
    return f"another serves after {taken:.1f} s"


def another(site, program):
    """A machine that serves by another process than that one, if one does."""
    return next((it for it in site.holders if it.program() not in (None, program) and serves(it)), None)


def kill_holder(_, first):
    pid = first.process.pid
    os.kill(pid, signal.SIGKILL)
    return ()


def pause_holder(_, first):
    stop(first.process.pid)
    return (first.process.pid,)


def pause_all_but_the_program(_, first):
    pids = (first.process.pid, first.parent())
    stop(*pids)
    return pids


def pause_everything(_, first):
    pids = (first.process.pid, first.parent(), first.program())
    stop(*pids)
    return pids


def test_a_second_goes_on_where_what_renews_is_killed(setting):
    return lose(setting, kill_holder)


def test_a_second_goes_on_where_what_renews_is_paused(setting):
    return lose(setting, pause_holder, go_on)


def test_the_lease_alone_keeps_them_apart_where_each_lock_is_had(setting):
    front = without_locks(setting)
    return f"killed: {lose(setting, kill_holder, front=front)}; paused: {lose(setting, pause_holder, go_on, front)}"


def test_where_etcd_is_paused_the_coordinator_is_killed_before_the_lease_has_run_out(setting):
    """Its parent kills it, and where that is paused what renews does."""
    for parent_too in (False, True):
        with site_of_two(setting) as site, Watch(setting, site) as watch:
            first, _ = site.holders
            program, begun = first.program(), time.monotonic()
            stopped = [first.parent()] if parent_too else []
            stop(site.etcd.process.pid, *stopped)
            wait_until("the coordinator is killed", lambda program=program: not alive(program), TTL + PATIENCE)
            taken = time.monotonic() - begun
            check(f"it took {taken:.1f} s", taken <= TTL - MARGIN + 0.5)
            go_on(site.etcd.process.pid, *stopped)
            wait_until("one of them serves", site.is_up, TAKEOVER + PATIENCE)
        equal("the most coordinators at once", watch.most, 1)
    return f"killed after {taken:.1f} s of a lease of {TTL}"


def test_a_lease_outlives_one_of_three_etcds(setting):
    """The leader is paused for longer than a lease lasts, goes on, and is killed; then another is chosen within a
    second or two. With a lease of 8 s the coordinator goes on; on a busy machine it may be killed in time,
    and another come."""
    lives = 1
    with site_of_two(setting, kind=Etcds, times=(LONG, LONG / 4)) as site, Watch(setting, site) as watch:
        action, program = started(site.holders[0]), site.holders[0].program()
        for harm in ("pause", "kill"):
            leader = site.etcd.leader()
            stop(leader.process.pid)
            if harm == "kill":
                leader.kill()
            time.sleep(LONG + 1)
            if harm == "kill":
                leader.begin()
            go_on(leader.process.pid)
            time.sleep(1)
            wait_until("one serves", lambda: (it := site.holder()) and serves(it), LONG + TAKEOVER + PATIENCE)
            lives += site.holder().program() != program
            program = site.holder().program()
            with client_of(site.holder()) as client:
                equal("the action", client.status(action), "Active")
            wait_until("there is a leader", site.etcd.leader)
    equal("the most coordinators at once", watch.most, 1)
    audited(setting.program, site.folder)
    return "the coordinator went on" if lives == 1 else f"{lives} coordinators one after another"


def alive(pid):
    """Whether any thread of a process is there: one that waits for a disk outlives the others."""
    try:
        return any(is_running(f"/proc/{pid}/task/{it}/stat") for it in os.listdir(f"/proc/{pid}/task"))
    except OSError:
        return False


def is_running(path):
    with open(path, encoding="ascii", errors="replace") as it:
        return it.read().rpartition(")")[2].split()[0] not in "ZX"


def test_where_both_that_look_at_the_time_are_paused_the_folder_is_locked(setting):
    """The coordinator outlives its lease. On one machine the second is refused, for as long as that lasts."""
    with site_of_two(setting) as site, Watch(setting, site) as watch:
        first, second = site.holders
        action = started(first)
        program = first.program()
        pids = pause_all_but_the_program(site, first)
        wait_until("the second is refused", lambda: "cannot write" in second.told(), TAKEOVER + PATIENCE)
        check("the first's is alive", alive(program))
        with client_of(first) as client:
            equal("its action", client.status(action), "Active")
        go_on(*pids)
        wait_until("it is killed", lambda: not alive(program))
        wait_until("one of them serves", site.is_up, TAKEOVER + PATIENCE)
        with client_of(site.holder()) as client:
            equal("the action", client.status(action), "Active")
    # (the second's process is there for a moment until it finds the lock held)
    audited(setting.program, site.folder)
    return f"{second.told().count('cannot write')} refusals; {watch.most} processes at most"


def test_where_each_lock_is_had_a_pause_of_both_lets_two_serve(setting):
    """What remains possible where nothing but the lease keeps two apart. The audit tells it,
    and no later start serves the folder."""
    with site_of_two(setting, without_locks(setting)) as site:
        first, second = site.holders
        pids = pause_all_but_the_program(site, first)
        wait_until("the second serves", lambda: serves(second), TAKEOVER + PATIENCE)
        check("the first's is alive", first.program())
        actions = [started(it) for _ in range(3) for it in site.holders]
        twice = len(actions) - len(set(map(id_of, actions)))
        go_on(*pids)
        wait_until("the first's is killed", lambda: not first.program())
    told = setting.run("audit", site.folder)
    check(f"the audit says {told}", told.status == 1 and " unsound line " in told.output)
    refused = setting.run("serve", "--site", "1", f"{HOST}:{free_port()}", site.folder, "1")
    check(f"a start says {refused}", refused.status == 1 and " unsound line " in refused.output)
    return f"{twice} of {len(actions)} identifiers were given twice; {told.output.splitlines()[0]}"


def test_where_each_lock_is_had_the_fence_keeps_them_apart(setting):
    """The same harm, where the file that says whose turn it is is looked at: the first's coordinator ends by itself."""
    with site_of_two(setting, without_locks(setting), fenced=True) as site:
        first, second = site.holders
        action, program = started(first), first.program()
        pids = pause_all_but_the_program(site, first)
        wait_until("the second serves", lambda: serves(second), TAKEOVER + PATIENCE)
        # (which may be within the twentieth of a second in which the first looks at its fence anew)
        wait_until("the first's ends by itself", lambda: not alive(program))
        with client_of(second) as client:
            equal("the action", client.status(action), "Active")
            equal("its end", client.end(action, "close"), "Closed")
        check(f"the first says {first.told()}", "the fence is another's now" in first.told())
        go_on(*pids)
    audited(setting.program, site.folder)


def test_a_machine_that_was_paused_has_its_coordinator_killed_as_it_goes_on(setting):
    """All of it stands still for longer than the lease lasts, and goes on while another serves. Each lock is had."""
    with site_of_two(setting, without_locks(setting)) as site:
        first, second = site.holders
        program = first.program()
        pids = pause_everything(site, first)
        wait_until("the second serves", lambda: serves(second), TAKEOVER + PATIENCE)
        action = started(second)
        begun = time.monotonic()
        go_on(*reversed(pids))
        while alive(program):
            check("it is still there", time.monotonic() < begun + PATIENCE)
        taken = time.monotonic() - begun
        with client_of(second) as client:
            equal("the action", client.status(action), "Active")
    audited(setting.program, site.folder)
    return f"{1000 * taken:.1f} ms after it went on"


def mounted(stack, image, path, size):
    """A file system of its own in a file. Not everybody may have one."""
    with open(image, "wb") as it:
        it.truncate(size)
    os.makedirs(path)
    made = subprocess.run(["mkfs.ext4", "-q", image], capture_output=True, check=False)
    if (
        made.returncode
        or subprocess.run(["mount", "-o", "loop", image, path], capture_output=True, check=False).returncode
    ):
        raise LeftOut("there is no file system in a file")
    stack.callback(subprocess.run, ["umount", path], capture_output=True, check=False)


@contextlib.contextmanager
def disk_that_stops(setting):
    """A disk that can be held up: what is written to it is taken, and a sync waits. It is a file on another disk, which
    is frozen. Answers its path, and a call that freezes it or lets it go on."""
    if not shutil.which("fsfreeze") or not shutil.which("mkfs.ext4"):
        raise LeftOut("there is no fsfreeze or no mkfs.ext4")
    under, path = setting.folder + "/under", setting.folder + "/disk"
    with contextlib.ExitStack() as stack:
        mounted(stack, setting.folder + "/image", under, 160 << 20)
        mounted(stack, under + "/image", path, 64 << 20)
        freeze = lambda how: subprocess.run(["fsfreeze", how, under], capture_output=True, check=False)
        stack.callback(freeze, "--unfreeze")
        yield path, freeze


def test_a_lease_is_lost_in_the_middle_of_a_sync(setting):
    """The disk holds up a start. The coordinator is killed, and isn't gone until the disk goes on; the folder's lock
    holds until then."""
    with disk_that_stops(setting) as (disk, freeze), site_of_two(setting, folder=f"{disk}/site-1") as site:
        first, second = site.holders
        action, program = started(first), first.program()
        os.sync()
        freeze("--freeze")
        answers = []
        caller = threading.Thread(target=lambda: answers.append(attempt(first)), daemon=True)
        caller.start()
        wait_until("the start is written", lambda: starts_of(site) == 2)
        stop(first.process.pid)
        try:
            wait_until("the second is refused", lambda: "cannot write" in second.told(), TAKEOVER + PATIENCE)
            check("the first's is gone", alive(program))
        finally:
            freeze("--unfreeze")
        go_on(first.process.pid)
        wait_until("it is gone", lambda: not alive(program))
        wait_until("one of them serves", site.is_up, TAKEOVER + PATIENCE)
        caller.join(PATIENCE)
        equal("the answer to the start", answers, [None])
        with client_of(site.holder()) as client:
            equal("the action", client.status(action), "Active")
        for it in site.holders:
            it.end()
        audited(setting.program, site.folder)
        found = starts_of(site)
    return (
        f"{found} of 2 starts are in the journal, of which 1 was answered; "
        f"{second.told().count('cannot write')} refusals"
    )


def starts_of(site):
    """How many starts the journals of a site have."""
    return text_of(site.folder).count(" start ")


def attempt(holder):
    """The answer to a start, or None."""
    try:
        return started(holder)
    except Exception:  # the connection ends, in whichever way
        return None


def text_of(folder):
    """What all journals of a folder say."""
    told = ""
    for name in sorted(os.listdir(folder)):
        if name.endswith(".journal"):
            with open(f"{folder}/{name}", encoding="ascii") as it:
                told += it.read()
    return told
