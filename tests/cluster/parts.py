"""The parts of a cluster: etcd, sites whose coordinators run by a lease, a proxy in front of them,
and who starts again what was killed."""
import contextlib
import json
import os
import signal
import subprocess
import tempfile
import threading
import urllib.request

import folders
import service
from participant import wait_until
from proxies import Proxy, Site, is_ready
from service import HOST, PATIENCE, check, free_port

# How many seconds a lease lasts, and how long before its end a coordinator is killed.
TTL, MARGIN = 4, 1
# A journal of a site takes few actions, so that it rolls; and one that has ended stays,
# so that what is asked again is found.
OPTIONS = ("--roll-after", "200", "--remember", "3600", "--retry-last", "500")


class Etcd:
    """One etcd, or one of several, over a folder of its own."""

    def __init__(self, folder):
        self.folder = folder
        self.url, self.peer = f"http://{HOST}:{free_port()}", f"http://{HOST}:{free_port()}"
        self.urls = [self.url]
        self.among([self])

    def among(self, machines):
        """What it is started by as one of these."""
        every = ",".join(f"{os.path.basename(it.folder)}={it.peer}" for it in machines)
        self.words = [
            "etcd", "--name", os.path.basename(self.folder), "--data-dir", self.folder,
            "--listen-client-urls", self.url, "--advertise-client-urls", self.url,
        ]
        self.words += [
            "--listen-peer-urls", self.peer, "--initial-advertise-peer-urls", self.peer, "--initial-cluster", every
        ]
        self.words += ["--heartbeat-interval", "50", "--election-timeout", "500"]

    def begin(self):
        self.process = spawned(self.words)

    def kill(self):
        ended(self.process)

    def __enter__(self):
        self.begin()
        return self

    def __exit__(self, *_):
        self.process.send_signal(signal.SIGCONT)
        self.kill()

    def leads(self):
        """Whether it is the leader, as far as it knows."""
        try:
            with urllib.request.urlopen(self.url + "/v3/maintenance/status", b"{}", 1) as reply:
                told = json.loads(reply.read())
            return told["leader"] == told["header"]["member_id"]
        except OSError:
            return False


class Etcds:
    """Three etcds, of which two are a majority."""

    def __init__(self, folder):
        self.machines = [Etcd(f"{folder}-{number}") for number in range(3)]
        self.urls = [it.url for it in self.machines]
        self.stack = contextlib.ExitStack()
        for it in self.machines:
            it.among(self.machines)

    def __enter__(self):
        for it in self.machines:
            self.stack.enter_context(it)
        wait_until("etcd has a leader", self.leader)
        return self

    def __exit__(self, *_):
        self.stack.close()

    def leader(self):
        return next((it for it in self.machines if it.leads()), None)


def spawned(words, stderr=subprocess.DEVNULL):
    """A process whose output nobody reads."""
    process = subprocess.Popen(words, stdin=subprocess.DEVNULL, stdout=subprocess.DEVNULL, stderr=stderr)
    with service.lock:
        service.started.append(process)
    return process


def ended(process):
    process.kill()
    process.wait()


def children(pid):
    """The processes that a process has started and that are there."""
    try:
        with open(f"/proc/{pid}/task/{pid}/children", encoding="ascii") as it:
            return [int(word) for word in it.read().split()]
    except OSError:
        return []


def running(program, folder):
    """The processes that run a program over a folder: those that have it as a word, and no others that name them."""
    found = []
    for pid in filter(str.isdecimal, os.listdir("/proc")):
        try:
            if os.path.realpath(f"/proc/{pid}/exe") == os.path.realpath(program):
                with open(f"/proc/{pid}/cmdline", "rb") as it:
                    if folder.encode() in it.read().split(b"\0"):
                        found.append(int(pid))
        except OSError:
            continue
    return found


class Holder:
    """One that runs a site's coordinator while it has the site's lease: a machine of the site."""

    def __init__(self, setting, etcd, number, folder, base, front=(), times=(TTL, MARGIN), fence=None):
        self.setting, self.folder = setting, folder
        self.address, self.operators = f"{HOST}:{free_port()}", f"{HOST}:{free_port()}"
        self.name = f"lra/site/{number}"
        self.serves = [
            *front, setting.program, "serve", *OPTIONS, "--site", str(number), "--base", base,
            "--operators", self.operators, self.address, folder, "2",
        ]
        self.lease = [f"{setting.root}/examples/cluster/lease", "--ttl", str(times[0]), "--margin", str(times[1])]
        self.lease += [word for url in etcd.urls for word in ("--etcd", url)]
        if fence:
            self.lease += ["--fence", fence]
            self.serves[-3:-3] = ["--fence", fence]
        self.errors = tempfile.TemporaryFile()
        self.process = None

    def begin(self):
        self.process = spawned([*self.lease, self.name, *self.serves], stderr=self.errors)

    def told(self):
        """What it has told on standard error so far."""
        return os.pread(self.errors.fileno(), 1 << 20, 0).decode()

    def parent(self):
        """The process that has the coordinator as its child, if there is one."""
        return next(iter(children(self.process.pid)), None) if self.process else None

    def program(self):
        """The coordinator, if this one has it."""
        return next(iter(children(self.parent())), None) if self.parent() else None

    def end(self):
        """Ends it, and what it runs: the lease is given back."""
        if not self.process:
            return
        self.process.send_signal(signal.SIGCONT)
        self.process.terminate()
        try:
            self.process.wait(PATIENCE)
        finally:
            ended(self.process)


class LeasedSite:
    """A site with two machines, of which one at a time has the lease."""

    def __init__(self, setting, etcd, number, base, front=(), folder=None, times=(TTL, MARGIN), fenced=True):
        self.number, self.folder = number, folder or f"{setting.folder}/site-{number}"
        os.makedirs(self.folder, exist_ok=True)
        fence = self.folder + ".turn" if fenced else None
        self.holders = [Holder(setting, etcd, number, self.folder, base, front, times, fence) for _ in range(2)]

    def behind(self, takes_starts=True):
        return Site(self.number, [(it.address, it.operators) for it in self.holders], takes_starts)

    def holder(self):
        """The one that has the coordinator, if one has it."""
        return next((it for it in self.holders if it.program()), None)

    def is_up(self):
        return any(is_ready(it.operators) for it in self.holders if it.program())


@contextlib.contextmanager
def supervised(holders):
    """Those that have ended are begun again, as by a supervisor; in the end all are ended."""
    over = threading.Event()

    def look():
        while not over.wait(0.1):
            for it in holders:
                if it.process and it.process.poll() is not None:
                    it.begin()

    thread = threading.Thread(target=look, daemon=True)
    thread.start()
    try:
        yield
    finally:
        over.set()
        thread.join()
        for it in holders:
            it.end()


class Cluster:
    """Sites behind a proxy, and a supervisor that starts again what has ended."""

    def __init__(self, setting, kind, sites=3):
        self.setting = setting
        self.etcd = Etcd(f"{setting.folder}/etcd")
        self.proxy = Proxy(kind, f"{setting.folder}/proxy", free_port())
        self.base = f"http://{self.proxy.listener}/"
        self.sites = [LeasedSite(setting, self.etcd, number, self.base) for number in range(1, sites + 1)]
        self.stack = contextlib.ExitStack()

    def holders(self):
        return [it for site in self.sites for it in site.holders]

    def __enter__(self):
        self.etcd.begin()
        self.stack.callback(self.etcd.kill)
        for it in self.holders():
            it.begin()
        self.stack.callback(self.proxy.kill)
        self.proxy.begin([it.behind() for it in self.sites])
        self.stack.enter_context(supervised(self.holders()))
        self.wait()
        return self

    def wait(self):
        """Waits until each site answers."""
        for site in self.sites:
            wait_until(f"site {site.number} is up", site.is_up, 2 * PATIENCE)

    def __exit__(self, *_):
        self.stack.close()

    def told(self):
        """The last that each machine has told, and whether it has a coordinator."""
        return {it.address: (it.told().splitlines()[-3:], it.program()) for it in self.holders()}

    def check_alone(self):
        """No site has two coordinators."""
        for site in self.sites:
            found = running(self.setting.program, site.folder)
            check(f"site {site.number} has {len(found)} coordinators", len(found) <= 1)


class PlainSite(folders.Folder):
    """A site without a lease: one coordinator, with a port for operators."""

    def __init__(self, setting, number, base, options=OPTIONS, front=()):
        self.number, self.operators = number, f"{HOST}:{free_port()}"
        super().__init__(
            setting, *options, "--site", str(number), "--base", base, "--operators", self.operators, front=front
        )
        os.rmdir(self.folder)
        self.folder = self.words[-2] = f"{setting.folder}/site-{number}"
        os.makedirs(self.folder, exist_ok=True)

    def behind(self, takes_starts=True):
        return Site(self.number, [(self.address, self.operators)], takes_starts)

    def is_up(self):
        return is_ready(self.operators)

